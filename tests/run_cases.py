"""Runs a program on end-to-end cases and compares what it writes and its status.

usage: run_cases.py PROGRAM WITNESS FOLDER

A case is a line of JSON in FOLDER/cases.jsonl: its name, the words of the command line, the bytes of standard input
(each character is a byte), the bytes that are written and the status, and where it has files the texts that they hold.
The witness runs a circuit as it is written, and compares the trace with that of the compiled run.
"""
import json
import re
import subprocess
import sys
import tempfile
import xml.etree.ElementTree as Tree
from pathlib import Path

import dump_cases
import log_cases
import minute
import refine_cases
import rv32_cases
import state_cases
import wave_cases

# The witness runs each circuit for so many cycles, but not those with so many leaves that it would take too long; and of the cases those
# whose circuit has a shorter text than this.
CYCLES = 20
SLOW = ("aes_sbox", "bf_machine", "operations", "riscish", "sha256_round")
LONG = 4_000
# Seconds after which a run counts as failed: 64 workers take turns on a machine that is busy.
PATIENCE = 300


def run(program, words, text, folder=None):
    return subprocess.run([program, *words], input=text, capture_output=True, timeout=PATIENCE, cwd=folder)


def fault_of(program, case):
    with tempfile.TemporaryDirectory() as folder:
        for name, text in case.get("held", {}).items():
            (Path(folder) / name).write_bytes(text.encode("latin-1"))
        try:
            done = run(program, case["words"], case["stdin"].encode("latin-1"), folder)
        except subprocess.TimeoutExpired:
            return f"no answer in {PATIENCE} seconds"
    if done.stderr:
        return f"standard error: {done.stderr[:200]!r}"
    if done.returncode != case["status"]:
        return f"status {done.returncode}, not {case['status']}; wrote {done.stdout[:200]!r}"
    wanted = case["stdout"].encode("latin-1")
    return None if done.stdout == wanted else f"wrote {done.stdout[:300]!r}, not {wanted[:300]!r}"


def bad_prefix(program, text):
    """The first prefix of the text to which `check` does not answer one line with status 0 or 2, or none."""
    for length in range(len(text) + 1):
        done = run(program, ["check"], text[:length])
        if done.returncode not in (0, 2) or done.stdout.count(b"\n") != 1 or not done.stdout.endswith(b"\n"):
            return f"{length} bytes: status {done.returncode}, wrote {done.stdout[:200]!r}"
    return None


def other_trace(program, path, runs):
    """The first of so many runs of a circuit by 8 workers that doesn't give the circuit's trace, or none."""
    text = path.read_bytes() + b"%stimulus\n" + path.with_suffix(".stim").read_bytes()
    trace = path.with_suffix(".expect").read_bytes()
    for number in range(runs):
        done = run(program, ["run", "--workers", "8"], text)
        if done.returncode != 0 or done.stdout != trace:
            return f"run {number}: status {done.returncode}, wrote {done.stdout[:200]!r}"
    return None


def cut_stimulus(text, cycles):
    """A stimulus's text with so many cycles, without the settings behind them."""
    lines = []
    for line in text.splitlines():
        words = line.split()
        if words[:1] == ["cycles"]:
            line = f"cycles {cycles}"
        if not (words and words[0].isdigit() and int(words[0]) >= cycles):
            lines.append(line + "\n")
    return "".join(lines)


def other_witness(witness, path, cycles):
    """Why the witness doesn't give so many cycles of a circuit's trace, and say that the compiled run has the same one; or none."""
    stimulus = cut_stimulus(path.with_suffix(".stim").read_text("latin-1"), cycles)
    trace = path.with_suffix(".expect").read_text("latin-1").splitlines(keepends=True)[: cycles + 1]
    text = path.read_text("latin-1") + "%stimulus\n" + stimulus
    return fault_of(witness, {"words": [], "stdin": text, "status": 0, "stdout": "".join(trace) + "same\n"})


def tower(depth, below):
    """A circuit of modules over one another, each with two instances of the next one and the last one as said."""
    modules = [f"  module M{k} :\n    inst left of M{k + 1}\n    inst right of M{k + 1}\n" for k in range(depth - 1)]
    return "FIRRTL version 3.0.0\ncircuit M0 :\n" + "".join(modules) + f"  module M{depth - 1} :\n    {below}\n"


def limits():
    """Circuits at each limit of the size, and one past it."""
    front = "FIRRTL version 3.0.0\ncircuit M :\n  module M :\n"

    def leaves(more):
        return front + f"    wire w : UInt<1>[{65_536 + more}]\n    invalidate w\n"

    def ports(more):
        return front + f"    input v : UInt<1>[{4_096 + more}]\n"

    def names(more):
        elements = 60_000 * (1_100 + 2) + sum(len(str(k)) for k in range(60_000))
        wire, node = "w" * 1_100, "n" * (67_108_864 - elements + more)
        return front + f"    wire {wire} : UInt<1>[60000]\n    invalidate {wire}\n    node {node} = UInt<1>(0)\n"

    def size(more):
        connects = "    connect w, v\n" * 82
        return front + "    input v : UInt<1>[4000]\n    wire w : UInt<1>[4000]\n" + connects + "    skip\n" * (8_000 + more)

    def words(more):
        lines = ("data-type => UInt<1>", f"depth => {131_072 + more}", "read-latency => 1", "write-latency => 1", "read-under-write => old")
        return front + "    mem m :\n" + "".join(f"      {line}\n" for line in lines)

    def path(more):
        count = 32 + more
        modules = "".join(f"  module C{k} :\n    " + (f"inst i of C{k + 1}\n" if k < count else "skip\n") for k in range(1, count + 1))
        return front + "    inst i of C1\n" + modules

    def arms(more):
        start = "    input v : UInt<1>[4000]\n    input a : UInt<1>\n    input b : UInt<1>\n    wire w : UInt<1>[4000]\n    invalidate w\n"
        return front + start + "    when a :\n      skip\n    else when b :\n" + "      connect w, v\n" * 49 + "    skip\n" * (3_993 + more)

    def index(more):
        start = "    input w : UInt<1>[4000]\n    input v : UInt<1>[2]\n    output o : UInt<1>\n"
        return front + start + "    connect o, v[w[0]]\n" * 41 + "    skip\n" * (11_997 + more)

    def instance(more):
        start = "    input v : UInt<1>[4000]\n    inst i of N\n"
        return front + start + "    connect i.p, v\n" * 61 + "    skip\n" * (12_000 + more) + "  module N :\n    input p : UInt<1>[4000]\n"

    def register(more):
        start = "    input clock : Clock\n    input v : UInt<1>[4000]\n    reg r : UInt<1>[4000], clock\n"
        return front + start + "    connect r, v\n" * 82 + "    skip\n" * (3_999 + more)

    circuits = (
        ("leaves", leaves),
        ("port leaves", ports),
        ("bytes of names", names),
        ("flat size", size),
        ("flat size, in an `else when`", arms),
        ("flat size, with the leaves of an index", index),
        ("flat size, with an instance", instance),
        ("flat size, with a register", register),
        ("state words", words),
        ("names in a path", path),
    )
    for meaning, text in circuits:
        yield f"a circuit at the limit of {meaning}", {"words": ["check"], "stdin": text(0), "status": 0, "stdout": "ok\n"}
        yield f"a circuit past the limit of {meaning}", {"words": ["check"], "stdin": text(1), "status": 2, "stdout": "circuit TooLarge 2:9\n"}


def lengths():
    """Texts at the limits of their lengths, and one byte past them; long comments; and many values."""
    front = "FIRRTL version 3.0.0\ncircuit M :\n  module M :\n"
    for name, length, line in (
        ("a text of 20,971,520 blanks has no version", 20_971_520, "circuit TooLong 1:1\n"),
        ("a text over 20,971,520 bytes is too long", 20_971_521, "circuit TooLong 1:1\n"),
        ("a circuit of 16,777,216 blanks is read", 16_777_216, "circuit BadSyntax 1:16777217\n"),
        ("a circuit over 16,777,216 bytes is too long", 16_777_217, "circuit TooLong 1:1\n"),
    ):
        yield name, {"words": ["check"], "stdin": " " * length, "status": 2, "stdout": line}
    whole = (front + "    skip\n").ljust(16_777_216 - 1, ";") + "\n"
    stimulus = "%stimulus\n" + "cycles 0\n".ljust(4_194_304 - len("%stimulus\n"))
    longest = {"words": ["run"], "stdin": whole + stimulus, "status": 0, "stdout": "cycle\n"}
    yield "a circuit and a joined text at their limits are run", longest
    counter = """    input clock : Clock
    input reset : UInt<1>
    output out : UInt<4>
    regreset r : UInt<4>, clock, reset, UInt<4>(0)
    connect r, tail(add(r, UInt<4>(1)), 1)
    connect out, r
%stimulus
cycles 4
0 reset 1
1 reset 0
"""
    comments = ("; " + "c" * 97 + "\n") * 20_000
    yield "a counter runs behind 2,000,000 bytes of comments", {
        "words": ["run", "-"], "stdin": comments + front + counter, "status": 0, "stdout": "cycle out\n0 0\n1 0\n2 1\n3 2\n"}
    many = front + "    input v : UInt<1>[4095]\n    output o : UInt<1>\n    connect o, v[0]\n%stimulus\ncycles 1025\n"
    trace = "cycle o\n" + "".join(f"{cycle} 0\n" for cycle in range(1_025))
    yield "1,025 cycles of 4,095 inputs run", {"words": ["run"], "stdin": many, "status": 0, "stdout": trace}


def chains():
    """Wires of which each is driven by the one before it, and the first one by 7 bits; the connects stand from the first or from the last."""
    front = "FIRRTL version 3.0.0\ncircuit M :\n  module M :\n" + "".join(f"    wire w{k} : UInt\n" for k in range(1_000))
    connects = ["    connect w0, UInt<7>(1)\n", *(f"    connect w{k}, w{k - 1}\n" for k in range(1, 1_000))]
    listing = "".join(f"M w{k} UInt 7\n" for k in range(1_000))
    for end, lines in (("beginning", connects), ("end", connects[::-1])):
        case = {"words": ["widths"], "stdin": front + "".join(lines), "status": 0, "stdout": listing}
        yield f"widths of a chain of 1,000 wires, connects from its {end}", case


def told_faults(page):
    """The cases of docs/FAULTS.md: a block of text under a heading with a kind, and the line that is written."""
    front = "FIRRTL version 3.0.0\ncircuit M :\n  module M :\n"
    shared = re.findall(r"with these lines.*?:\n\n```\n(.*?)```", page, re.S)
    module, held = ("".join(f"    {line}\n" for line in lines.splitlines()) for lines in shared)
    for kind, told in re.findall(r"^### (\w+)\n(.*?)(?=^##|\Z)", page, re.M | re.S):
        shown = re.search(r"^```\n(.*?)```\n\n`(.*?)`", told, re.M | re.S)
        if not shown:
            continue
        (text, line), words, status = shown.groups(), ["check"], 2
        if line.startswith("stimulus"):
            words, status, text = ["run"], 3, front + module + "%stimulus\n" + text
        elif line.startswith("state"):
            case = {"words": ["resume", "-", "s"], "stdin": front + held + "%stimulus\ncycles 0\n", "held": {"s": text}, "status": 3, "stdout": line + "\n"}
            yield f"docs/FAULTS.md: {kind} of a state", case
            continue
        elif "The whole text:" not in told:
            text = front + "".join(f"    {each}\n" for each in text.splitlines())
        asked = re.search(r"^By `(vcd.*?)`", told, re.M)
        if asked:
            words, text = asked[1].split(), text + "%stimulus\ncycles 0\n"
        yield f"docs/FAULTS.md: {kind}", {"words": words, "stdin": text, "status": status, "stdout": line + "\n"}


def regressed(program, folder, workers):
    """The cases of a folder by ./regress, with so many workers: a name and why it failed, or none, for each, read back from its report."""
    with tempfile.TemporaryDirectory() as room:
        file = Path(room) / "report.xml"
        words = [folder, "--program", program, "--workers", workers, "--junit", file]
        done = subprocess.run([minute.TOP / "regress", *words], capture_output=True, text=True)
        cases = [*Tree.parse(file).iter("testcase")] if file.exists() else []
    for case in cases:
        yield f"the trace of {case.get('name')} by {workers} workers", next((each.get("message") for each in case), None)
    failed = sum(len(case) > 0 for case in cases)
    told = f"{len(cases) - failed} passed, {failed} failed"
    well = len(cases) == len([*folder.glob("*.stim")]) and done.stdout.splitlines()[-1:] == [told] and done.returncode == (failed > 0)
    yield f"regress tells of each circuit of {folder.name}, by {workers} workers", None if well else f"{done.stdout[-300:]!r} {done.stderr[-300:]!r}"


def main():
    program, witness, folder = str(Path(sys.argv[1]).resolve()), str(Path(sys.argv[2]).resolve()), Path(sys.argv[3])
    cases = [json.loads(line) for line in (folder / "cases.jsonl").read_text().splitlines()]
    faults = [(case["name"], fault_of(program, case)) for case in cases]
    for case in cases:
        if case["words"] in (["run"], ["run", "-"]) and case["status"] == 0 and len(case["stdin"].split("%stimulus")[0]) < LONG:
            written = {**case, "words": [], "stdout": case["stdout"] + "same\n"}
            faults.append((f"{case['name']}, as it is written", fault_of(witness, written)))
    examples = folder / "../examples"
    for name in ("counter.fir", "gcd.fir"):
        text = (examples / name).read_bytes()
        faults.append((f"every prefix of {name} gives one line", bad_prefix(program, text)))
    for path in sorted([*examples.glob("*.fir"), *examples.glob("*.txt")]):
        case = {"words": ["check"], "stdin": path.read_text("latin-1"), "status": 0, "stdout": "ok\n"}
        faults.append((f"check accepts {path.name}", fault_of(program, case)))
    for workers in ("1", "2", "7"):
        faults += regressed(program, folder / "corpus", workers)
    faults += regressed(program, folder / "../examples", "1")
    for path in sorted([*(folder / "corpus").glob("*.fir")]):
        if path.with_suffix(".widths").exists():
            listing = path.with_suffix(".widths").read_text("latin-1")
            case = {"words": ["widths"], "stdin": path.read_text("latin-1"), "status": 0, "stdout": listing}
            faults.append((f"the widths of {path.stem}", fault_of(program, case)))
        if path.stem not in SLOW:
            faults.append((f"{CYCLES} cycles of {path.stem} as it is written", other_witness(witness, path, CYCLES)))
    faults.append(("1,000 runs by 8 workers give one trace", other_trace(program, folder / "corpus/fifo_mem.fir", 1_000)))
    for name, case in [*limits(), *chains()]:
        faults.append((name, fault_of(program, case)))
    for name, case in told_faults((folder / "../docs/FAULTS.md").read_text()):
        faults.append((name, fault_of(program, case)))
    for name, depth, below, status, line in (
        ("10 modules over one another have no fault", 10, "skip", 0, "ok\n"),
        ("32 modules with two instances of the next one each are too large", 32, "skip", 2, "circuit TooLarge 2:9\n"),
        ("the last of 32 modules leads back to the first", 32, "inst back of M0", 2, "circuit InstanceLoop 4:18\n"),
    ):
        case = {"words": ["check"], "stdin": tower(depth, below), "status": status, "stdout": line}
        faults.append((name, fault_of(program, case)))
    front = "FIRRTL version 3.0.0\ncircuit M :\n  module M :\n    input clock : Clock\n%stimulus\n"
    for name, stimulus, status, line in (
        ("a stimulus of 4,194,304 bytes is read", "cycles 0\n".ljust(4_194_304), 0, "cycle\n"),
        ("a stimulus of one byte more is too long", "cycles 0\n".ljust(4_194_305), 3, "stimulus TooLong 1:1\n"),
    ):
        case = {"words": ["run"], "stdin": front + stimulus, "status": status, "stdout": line}
        faults.append((name, fault_of(program, case)))
    for name, case in lengths():
        faults.append((name, fault_of(program, case)))
    for name, case in refine_cases.cases():
        faults.append((name, fault_of(program, case)))
    faults += minute.faults(program)
    faults += wave_cases.faults(program)
    faults += dump_cases.faults(program)
    faults += state_cases.faults(program)
    faults += log_cases.faults(program)
    faults += rv32_cases.faults(program)
    failed = [(name, fault) for name, fault in faults if fault]
    for name, fault in failed:
        print(f"FAILED {name}: {fault}")
    print(f"{len(faults) - len(failed)} passed, {len(failed)} failed")
    sys.exit(1 if failed else 0)


main()
