"""Cases of saved states: runs in pieces, each from the state behind the one before it, against whole traces; the commands of docs/FARM.md; and what a
large state takes.

The traces stand beside the circuits. Used by run_cases.py.
"""
import importlib.machinery
import importlib.util
import os
import random
import re
import subprocess
import tempfile
from pathlib import Path

TOP = Path(__file__).resolve().parent.parent
FRONT = "FIRRTL version 3.0.0\ncircuit M :\n  module M :\n"
PATIENCE = 300


def splitter():
    loader = importlib.machinery.SourceFileLoader("split_stimulus", str(TOP / "scripts/split_stimulus"))
    made = importlib.util.module_from_spec(importlib.util.spec_from_loader("split_stimulus", loader))
    loader.exec_module(made)
    return made


def run(program, words, text, folder):
    return subprocess.run([program, *words], input=text.encode("latin-1"), capture_output=True, timeout=PATIENCE, cwd=folder)


def in_pieces(program, circuit, stimuli, trace, workers):
    """Why the traces of pieces, each resumed from the state that was saved behind the one before, aren't the whole trace; or none. `workers` says by
    how many each call is run."""
    told, state = "", []
    with tempfile.TemporaryDirectory() as folder:
        for number, stimulus in enumerate(stimuli):
            text = circuit + "%stimulus\n" + stimulus
            command = ["resume" if state else "run", "--workers", workers(), "-", *state]
            done = run(program, command, text, folder)
            if done.returncode or done.stderr:
                return f"piece {number}: status {done.returncode}, wrote {done.stdout[:200]!r} {done.stderr[:100]!r}"
            head, lines = done.stdout.decode("latin-1").split("\n", 1)
            told = told or head + "\n"
            told += lines
            done = run(program, ["save", "--workers", workers(), "-", *state], text, folder)
            if done.returncode or done.stderr:
                return f"state {number}: status {done.returncode}, wrote {done.stdout[:200]!r} {done.stderr[:100]!r}"
            (Path(folder) / "state").write_bytes(done.stdout)
            state = ["state"]
    return None if told == trace else f"wrote {told[:300]!r}, not {trace[:300]!r}"


def of_lengths(pieces, text, lengths):
    """The stimuli of pieces of these lengths, of which some may have no cycle."""
    whole = [stimulus.split("\n", 1)[1] for stimulus in pieces(text, 1)]
    at = 0
    for length in lengths:
        lines = "".join(line.replace("0 ", f"{cycle} ", 1) + "\n" for cycle, own in enumerate(whole[at : at + length]) for line in own.splitlines())
        yield f"cycles {length}\n{lines}"
        at += length


def counted(cycles):
    """A counter that an input holds, its stimulus and its trace."""
    circuit = FRONT + "    input clock : Clock\n    input step : UInt<3>\n    output o : UInt<16>\n    reg r : UInt<16>, clock\n"
    circuit += "    connect r, tail(add(r, step), 1)\n    connect o, r\n"
    steps = {0: 1, 700: 5, 1024: 2, 1025: 7, 2000: 0}
    stimulus = f"cycles {cycles}\n" + "".join(f"{cycle} step {step}\n" for cycle, step in steps.items() if cycle < cycles)
    trace, held, step = "cycle o\n", 0, 0
    for cycle in range(cycles):
        step = steps.get(cycle, step)
        trace += f"{cycle} {held}\n"
        held = (held + step) % 65_536
    return circuit, stimulus, trace


# A circuit whose state has the line of an input, of two registers and of a read.
SPOILED = (
    FRONT
    + """    input clock : Clock
    input a : UInt<3>
    reg r : UInt<3>, clock
    reg s : SInt<3>, clock
    mem m :
      data-type => UInt<3>
      depth => 1
      read-latency => 1
      write-latency => 1
      reader => p
      read-under-write => undefined
    connect m.p.clk, clock
    connect m.p.en, UInt<1>(1)
    connect m.p.addr, UInt<1>(0)
%stimulus
cycles 0
"""
)


def spoiled():
    """States of this circuit, of which one line has a fault: a name, the text, and the fault's line."""
    lines = ["state 4", "input a 5", "reg r 0", "reg s -4", "mem m[0] 6", "read m.p.data 7"]
    for number in range(len(lines)):
        words = lines[number].split(" ")
        wrong = [("BadLine", 1, " ".join(words) + " "), ("BadLine", 1, "  ".join(words)), ("NameOrder", 1, " ".join(["x", *words[1:]]))]
        if number == 0:
            wrong += [("CyclesRange", 7, "state 999999000001"), ("CyclesRange", 7, "state " + "9" * 60), ("BadLine", 1, "state -1")]
        else:
            name, value = len(words[0]) + 2, len(words[0]) + len(words[1]) + 3
            wrong += [("NameOrder", name, " ".join([words[0], "x", words[2]])), ("BadLine", 1, " ".join([*words[:2], "x"]))]
            wrong += [("ValueRange", value, " ".join([*words[:2], other])) for other in ("8", "-5", str(2**128))]
        for kind, column, line in wrong:
            text = "".join(each + "\n" for each in [*lines[:number], line, *lines[number + 1 :]])
            yield f"{kind} in line {number + 1} of a state", text, f"state {kind} {number + 1}:{column}\n"
        text = "".join(each + "\n" for each in lines[:number] + lines[number + 1 :])
        if number + 1 == len(lines):
            yield "the last line of a state is missing", text, f"state BadLine {number + 1}:1\n"
        yield f"line {number + 1} of a state is the last one, and without a line feed", "".join(each + "\n" for each in lines[:number]) + lines[number], f"state BadLine {number + 1}:1\n"


def large(words):
    """A memory of so many elements, the text of its state, and that of the state behind a cycle that writes 9 to its last element."""
    lines = ["data-type => UInt<32>", f"depth => {words}", "read-latency => 0", "write-latency => 1", "writer => w", "read-under-write => undefined"]
    circuit = FRONT + "    input clock : Clock\n    mem m :\n" + "".join(f"      {line}\n" for line in lines)
    bits = (words - 1).bit_length()
    for name, value in (("clk", "clock"), ("en", "UInt<1>(1)"), ("addr", f"UInt<{bits}>({words - 1})"), ("data", "UInt<32>(9)"), ("mask", "UInt<1>(1)")):
        circuit += f"    connect m.w.{name}, {value}\n"
    before = "state 5\n" + "".join(f"mem m[{k}] {k * 7 % 1000}\n" for k in range(words))
    after = "state 6\n" + "".join(f"mem m[{k}] {k * 7 % 1000 if k + 1 < words else 9}\n" for k in range(words))
    return circuit + "%stimulus\ncycles 1\n", before, after


def farm(program):
    """Why the commands of docs/FARM.md for a long run don't give the whole trace of a circuit of the corpus, or none."""
    page = (TOP / "docs/FARM.md").read_text()
    section = re.search(r"^## A long run in pieces\n(.*?)(?=^## |\Z)", page, re.M | re.S)[1]
    commands = "\n".join(re.findall(r"^```sh\n(.*?)```", section, re.M | re.S))
    corpus = TOP / "tests/corpus"
    with tempfile.TemporaryDirectory() as room:
        for name in ("scripts", "prebuilt"):
            (Path(room) / name).symlink_to(TOP / name)
        for end in ("fir", "stim"):
            (Path(room) / f"long.{end}").write_bytes((corpus / f"fifo_mem.{end}").read_bytes())
        done = subprocess.run(["bash", "-eu", "-c", commands], cwd=room, env={**os.environ, "program": program, "cycles": "40"}, capture_output=True, timeout=PATIENCE)
        trace = Path(room) / "long.trace"
        if done.returncode or not trace.exists():
            return f"status {done.returncode}, {done.stderr[-300:]!r}"
        return None if trace.read_bytes() == (corpus / "fifo_mem.expect").read_bytes() else "another trace"


def faults(program):
    found, chance, pieces = [], random.Random(5), splitter().pieces

    def any_workers():
        return chance.choice("1237")

    for path in sorted((TOP / "tests/corpus").glob("*.fir")):
        circuit, stimulus, trace = (path.with_suffix(f".{end}").read_text("latin-1") for end in ("fir", "stim", "expect"))
        cycles = trace.count("\n") - 1
        for count in (1, 2, 7):
            parts = list(pieces(stimulus, max(1, -(-cycles // count))))
            found.append((f"{path.stem} in {len(parts)} pieces", in_pieces(program, circuit, parts, trace, any_workers)))
        at = chance.randint(0, cycles)
        parts = list(of_lengths(pieces, stimulus, (at, cycles - at)))
        found.append((f"{path.stem} up to cycle {at} and from there", in_pieces(program, circuit, parts, trace, any_workers)))
    circuit, stimulus, trace = counted(2_051)
    for lengths in ((0, 2_051), (1, 2_050), (1_024, 1_027), (1_025, 1_026), (0, 1, 1_024, 1_025, 1)):
        parts = list(of_lengths(pieces, stimulus, lengths))
        for workers in "125":
            name = f"a counter in pieces of {', '.join(map(str, lengths))} by {workers} workers"
            found.append((name, in_pieces(program, circuit, parts, trace, lambda: workers)))
    for name, state, line in spoiled():
        with tempfile.TemporaryDirectory() as folder:
            (Path(folder) / "state").write_text(state)
            done = run(program, ["resume", "-", "state"], SPOILED, folder)
        good = (done.returncode, done.stdout) == (3, line.encode())
        found.append((name, None if good else f"status {done.returncode}, wrote {done.stdout[:100]!r}"))
    text, before, after = large(100_000)
    with tempfile.TemporaryDirectory() as folder:
        (Path(folder) / "state").write_text(before)
        done = run(program, ["save", "-", "state"], text, folder)
        good = (done.returncode, done.stdout) == (0, after.encode())
        found.append(("100,000 elements are read and printed", None if good else f"status {done.returncode}, wrote {done.stdout[:100]!r}"))
        (Path(folder) / "state").write_text(before[:-1] + "x\n")
        done = run(program, ["save", "-", "state"], text, folder)
        good = (done.returncode, done.stdout) == (3, b"state BadLine 100001:1\n")
        found.append(("the last of 100,001 lines lacks its form", None if good else f"status {done.returncode}, wrote {done.stdout[:100]!r}"))
        (Path(folder) / "state").write_bytes(b"state 1".ljust(67_108_865))
        done = run(program, ["resume", "-", "state"], text, folder)
        good = (done.returncode, done.stdout) == (3, b"state TooLong 1:1\n")
        found.append(("a state of 67,108,865 bytes is too long", None if good else f"status {done.returncode}, wrote {done.stdout[:100]!r}"))
        (Path(folder) / "state").write_bytes(b"state 1".ljust(67_108_864))
        done = run(program, ["resume", "-", "state"], text, folder)
        good = (done.returncode, done.stdout) == (3, b"state BadLine 1:1\n")
        found.append(("a state of 67,108,864 bytes is read", None if good else f"status {done.returncode}, wrote {done.stdout[:100]!r}"))
        done = run(program, ["resume", "long", "none"], "", folder)
        found.append(("a circuit that isn't held", None if (done.returncode, done.stdout) == (4, b"") else f"status {done.returncode}"))
        (Path(folder) / "long").write_bytes(b" " * 20_971_521)
        done = run(program, ["resume", "long", "none"], "", folder)
        good = (done.returncode, done.stdout) == (2, b"circuit TooLong 1:1\n")
        found.append(("a joined text that is too long needs no state", None if good else f"status {done.returncode}, wrote {done.stdout[:100]!r}"))
    found.append(("docs/FARM.md runs a circuit in pieces", farm(program)))
    return found
