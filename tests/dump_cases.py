"""Cases of dumps: `vcd` against a model of the text that knows rows alone, examples/gcd.vcd, scripts/list_leaves, and other programs' reading.

The rows come from the traces beside the circuits and from models written here. Used by run_cases.py.
"""
import re
import shutil
import subprocess
import tempfile
from pathlib import Path

TOP = Path(__file__).resolve().parent.parent
EXAMPLES = TOP / "examples"
FRONT = "FIRRTL version 3.0.0\ncircuit M :\n  module M :\n"
PATIENCE = 300


def identifier(number):
    digits = chr(33 + number % 94)
    while number >= 94:
        number //= 94
        digits = chr(33 + number % 94) + digits
    return digits


def dump(top, variables, rows):
    """The dump of rows of integers; each variable is a name and a width."""
    lines = ["$timescale 1 ns $end", f"$scope module {top} $end"]
    lines += [f"$var wire {max(1, width)} {identifier(k)} {name} $end" for k, (name, width) in enumerate(variables)]
    lines += ["$upscope $end", "$enddefinitions $end"]
    before = None
    for cycle, row in enumerate(rows):
        changes = []
        for k, ((_, width), value) in enumerate(zip(variables, row)):
            if before is None or before[k] != value:
                bits = value % 2**width
                changes.append(f"b{bits:0{width}b} {identifier(k)}" if width > 1 else f"{bits}{identifier(k)}")
        if changes or before is None:
            lines += [f"#{cycle}", *changes]
        before = row
    return "\n".join([*lines, f"#{len(rows)}"]) + "\n"


def joined(path):
    return path.read_text("latin-1") + "%stimulus\n" + path.with_suffix(".stim").read_text("latin-1")


def run(program, words, text):
    return subprocess.run([program, *words], input=text.encode("latin-1"), capture_output=True, timeout=PATIENCE)


def other(done, status, wanted):
    """Why a run isn't as it should be, or none."""
    if done.returncode != status or done.stdout != wanted.encode("latin-1") or done.stderr:
        return f"status {done.returncode}, wrote {done.stdout[:200]!r} {done.stderr[:100]!r}"
    return None


def gcd_rows(cycles):
    """x, y, the output and whether it is valid: both registers are loaded in cycle 0, and then the greater one is lessened by the other."""
    x = y = 0
    for cycle in range(cycles):
        yield [x, y, x, int(y == 0)]
        x, y = (48, 36) if cycle == 0 else (x - y, y) if x > y else (x, y - x)


def main_of(text):
    return re.search(r"^\s*circuit\s+`?([\w$-]+)`?\s*:", text, re.M)[1]


def corpus_dump(program, path):
    """The dump of a circuit of the corpus by its trace, which doesn't come from the program; the widths do."""
    main = main_of(path.read_text("latin-1"))
    widths = {}
    for line in run(program, ["widths"], path.read_text("latin-1")).stdout.decode("latin-1").splitlines():
        module, leaf, _, width = line.split(" ")
        if module == main:
            widths.setdefault(leaf, int(width))
    trace = [line.split(" ") for line in path.with_suffix(".expect").read_text("latin-1").splitlines()]
    return dump(main, [(leaf, widths[leaf]) for leaf in trace[0][1:]], [[int(value) for value in row[1:]] for row in trace[1:]])


def large():
    """Dumps of many variables, and faults whose stimulus is long."""
    wires = 65_535
    text = FRONT + f"    input a : UInt<1>\n    wire w : UInt<1>[{wires}]\n    invalidate w\n%stimulus\ncycles 1\n"
    names = [f"w[{k}]" for k in reversed(range(wires))]
    yield "65,535 leaves are found", ["vcd", "-", *names], text, 0, dump("M", [(name, 1) for name in names], [[0] * wires])
    names[40_000] = f"w[{wires}]"
    yield "of 65,535 words one names no leaf", ["vcd", "-", *names], text, 2, "circuit WatchUnknown 1:1\n"
    settings = {511: 1, 512: 0, 513: 1}
    text = FRONT + "    input a : UInt<1>\n%stimulus\ncycles 600\n" + "".join(f"{cycle} a {value}\n" for cycle, value in settings.items())
    rows, value = [], 0
    for cycle in range(600):
        value = settings.get(cycle, value)
        rows.append([value] * 8_192)
    yield "a leaf 8,192 times changes where epochs end", ["vcd", "-", *["a"] * 8_192], text, 0, dump("M", [("a", 1)] * 8_192, rows)
    text = FRONT + "    input a : UInt<1>\n%stimulus\n" + "cycles 0\n".ljust(4_194_305)
    yield "a word that names no leaf comes before a stimulus that is too long", ["vcd", "-", "b"], text, 2, "circuit WatchUnknown 1:1\n"
    yield "a stimulus that is too long is told where the words name leaves", ["vcd", "-", "a"], text, 3, "stimulus TooLong 1:1\n"


def listed(program, path):
    """Why scripts/list_leaves doesn't list leaves of a circuit that `vcd` finds, its registers among them, or none."""
    text = path.read_text("latin-1")
    lists = []
    for words in ([], ["--registers"]):
        done = subprocess.run([TOP / "scripts/list_leaves", *words, "--program", program, path], capture_output=True, text=True, timeout=PATIENCE)
        if done.returncode != 0 or done.stderr:
            return f"status {done.returncode}, {done.stderr[:200]!r}"
        lists.append(done.stdout.splitlines())
    names, registers = lists
    if not set(registers) <= set(names) or len(set(names)) < len(names):
        return f"{[name for name in registers if name not in names][:5]} are no leaves, or a name stands twice"
    done = run(program, ["vcd", "-", *names], text + "%stimulus\ncycles 0\n")
    told = [line.split(" ")[4] for line in done.stdout.decode("latin-1").splitlines() if line.startswith("$var")]
    return None if done.returncode == 0 and told == names else f"status {done.returncode}, {len(told)} variables of {len(names)} leaves"


def changes_of(text):
    """What a dump tells: the changes of each variable's value, by its name without a range, as times and bits without leading zeros."""
    head, body = text.split("$enddefinitions", 1)
    names, changes, time, told = {}, {}, 0, {}
    for mark, name in re.findall(r"\$var\s+\w+\s+\d+\s+(\S+)\s+(.*?)\s*\$end", head, re.S):
        names.setdefault(mark, []).append(re.sub(r"\s|\[\d+:\d+\]", "", name))
    for line in body.split("$end", 1)[1].splitlines():
        if line.startswith("#"):
            time = int(line[1:])
        elif line[:1] in ("b", "0", "1"):
            bits, mark = line[1:].split() if line[0] == "b" else (line[0], line[1:].strip())
            value = bits.lstrip("0") or "0"
            for name in names[mark]:
                if told.get(name) != value:
                    told[name] = value
                    changes.setdefault(name, []).append((time, value))
    return changes


def converted(program, text):
    """Why GTKWave's converters don't give a dump's values back, or none; what is missing is said where they aren't installed."""
    if not (shutil.which("vcd2fst") and shutil.which("fst2vcd")):
        print("tests: vcd2fst and fst2vcd aren't on the PATH, so no dump was converted")
        return None
    with tempfile.TemporaryDirectory() as room:
        first, packed, again = (Path(room) / name for name in ("first.vcd", "packed.fst", "again.vcd"))
        first.write_text(text)
        subprocess.run(["vcd2fst", first, packed], capture_output=True, timeout=PATIENCE, check=True)
        subprocess.run(["fst2vcd", "-f", packed, "-o", again], capture_output=True, timeout=PATIENCE, check=True)
        before, after = changes_of(text), changes_of(again.read_text())
    return None if before == after and before else f"{before} became {after}"


def faults(program):
    found = []
    gcd = EXAMPLES / "gcd.fir"
    names = ["x", "y", "io.outputGCD", "io.outputValid"]
    held = (EXAMPLES / "gcd.vcd").read_text()
    found.append(("examples/gcd.vcd is the model's dump", None if held == dump("GCD", list(zip(names, (16, 16, 16, 1))), [*gcd_rows(8)]) else "it differs"))
    found.append(("vcd writes examples/gcd.vcd", other(run(program, ["vcd", "-", *names], joined(gcd)), 0, held)))
    corpus = sorted((TOP / "tests/corpus").glob("*.fir"))
    for path in corpus:
        wanted = corpus_dump(program, path)
        for workers in ("1", "2", "7"):
            done = run(program, ["vcd", "--workers", workers, "-"], joined(path))
            found.append((f"the dump of {path.stem} by {workers} workers", other(done, 0, wanted)))
    for path in [*corpus, *sorted(EXAMPLES.glob("*.fir"))]:
        found.append((f"list_leaves on {path.stem}", listed(program, path)))
    for name, words, text, status, wanted in large():
        found.append((name, other(run(program, words, text), status, wanted)))
    for name, text in (("gcd.vcd", held), ("the dump of uart_tx", corpus_dump(program, TOP / "tests/corpus/uart_tx.fir"))):
        found.append((f"{name} is the same behind vcd2fst and fst2vcd", converted(program, text)))
    return found
