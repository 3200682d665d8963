"""Cases of ./wave: its lines against drawings that were made by hand from the traces (tests/waves), and its pictures, read back as traces.

Used by run_cases.py.
"""
import fcntl
import os
import pty
import re
import struct
import subprocess
import termios
import xml.etree.ElementTree as Tree

from minute import TOP, answers, has, same

DRAWINGS, EXAMPLES = TOP / "tests/waves", TOP / "examples"


def wave(text, *words, **env):
    env = {"PATH": os.environ["PATH"], "COLUMNS": "80", **env}
    text = text.encode() if isinstance(text, str) else text
    return subprocess.run([TOP / "wave", *words], input=text, capture_output=True, env=env, timeout=120)


def trace(name):
    return (EXAMPLES / f"{name}.expect").read_bytes()


def drawing(name):
    return (DRAWINGS / f"{name}.txt").read_bytes()


def rows_of(picture):
    """Of each row of a picture's texts their places and texts, in order; the one over the columns first."""
    rows = {}
    for each in picture.iter("{http://www.w3.org/2000/svg}text"):
        rows.setdefault(int(each.get("y")) // 28, []).append((float(each.get("x")), each.text))
    return [rows[row] for row in sorted(rows)]


def read_back(svg, cycles):
    """The trace of so many cycles that a picture shows, by the shapes that lie over each cycle."""
    picture = Tree.fromstring(svg)
    ruler, *rows = rows_of(picture)
    (left, first), (right, last) = ruler[1], ruler[-1]
    unit = (right - left) / (int(last) - int(first))
    left -= int(first) * unit
    values = [[None] * cycles for _ in rows]

    def shows(row, begin, end, value):
        for cycle in range(cycles):
            if begin < left + (cycle + 0.5) * unit < end:
                same(values[row][cycle], None)
                values[row][cycle] = value

    for shape in picture.iterfind(".//*[@class='wave']/*"):
        x, y, path = re.fullmatch(r"M([\d.]+) (\d+)(.*)", shape.get("d")).groups()
        x, y, row = float(x), int(y), int(y) // 28 - 1
        if len(shape):
            lozenge = re.fullmatch(r"l3 -8H([\d.]+)l3 8l-3 8H([\d.]+)Z", path)
            same(y % 28, 14)
            same(float(lozenge[2]), x + 3)
            shows(row, x, float(lozenge[1]) + 3, shape[0].text)
            continue
        for way, to in re.findall(r"([HV])([\d.]+)", path):
            if way == "H":
                shows(row, x, float(to), {6: "1", 22: "0"}[y % 28])
                x = float(to)
            else:
                y = int(to)
    names = [row[0][1] for row in rows]
    lines = [[str(cycle), *(each[cycle] for each in values)] for cycle in range(cycles)]
    return "".join(" ".join(line) + "\n" for line in [["cycle", *names], *lines]).encode()


def drawings(program):
    for name in ("gcd", "calculator", "stopwatch"):
        yield f"the trace of {name} is drawn as by hand", lambda name=name: answers(wave(trace(name)), drawing(name))
    for name, drawn, words in (
        ("stopwatch", "window", ["--from", "64", "--to", "69"]),
        ("lock", "step", ["--step", "2"]),
        ("gcd", "words", ["--words", "*Valid"]),
    ):

        def same_drawing(name=name, drawn=drawn, words=words):
            answers(wave(trace(name), *words), drawing(drawn))

        yield f"{' '.join(words)} draws of {name} what was drawn by hand", same_drawing

    def piped():
        done = subprocess.run([program, "run", EXAMPLES / "gcd.fir", EXAMPLES / "gcd.stim"], stdin=subprocess.DEVNULL, capture_output=True)
        answers(wave(done.stdout), drawing("gcd"))

    yield "what the program writes is drawn", piped

    def shown():
        lines = drawing("gcd").decode().splitlines()
        same("".join(f"    {line}\n" for line in lines) in (TOP / "README.md").read_text(), True)

    yield "README shows the drawing of the GCD", shown

    def long_names():
        text = "cycle io.a.very.long.name.of.a.leaf.in.a.bundle.of.bundles.valid b\n0 1 -12\n1 0 3\n"
        answers(wave(text), drawing("long"))

    yield "a long name is cut in the middle", long_names

    def large_values():
        value = str(2**128 - 1)
        has(wave(f"cycle a b\n0 {value} 1\n").stdout.decode(), f"⟨{value}⟩")
        has(wave("cycle a\n" + "".join(f"{cycle} {value[cycle:]}\n" for cycle in range(9))).stdout.decode(), f"⟨{value[:9]}…⟩")

    yield "a large value is whole where there is room, else cut", large_values

    def empty():
        answers(wave("cycle\n"), b"cycle\n")
        answers(wave("cycle a\n"), b"cycle\na\n")
        answers(wave("cycle\n0\n1\n"), b"cycle  0       1\n")

    yield "traces without cycles or without names are drawn", empty


def widths(program):
    def columns():
        for number in (40, 57, 120):
            lines = wave(trace("stopwatch"), COLUMNS=str(number)).stdout.decode().splitlines()
            same({len(line) for line in lines[1:4]} <= {number, number - 1, number - 2}, True)
            same(max(len(line) for line in lines) <= number, True)
            same(lines[4], f"… cycles {(number - 15) // 3} to 69 don't fit: --from {(number - 15) // 3}")
        same(max(len(line) for line in wave(trace("stopwatch"), COLUMNS="400").stdout.decode().splitlines()), 14 + 5 * 70)

    yield "the lines are as long as COLUMNS says", columns

    def terminal():
        for number in (60, 132):
            here, there = pty.openpty()
            fcntl.ioctl(there, termios.TIOCSWINSZ, struct.pack("HHHH", 24, number, 0, 0))
            subprocess.run([TOP / "wave"], input=trace("stopwatch"), stdout=there, env={"PATH": os.environ["PATH"]}, check=True)
            os.close(there)
            drawn = os.read(here, 100_000).replace(b"\r\n", b"\n")
            os.close(here)
            same(drawn, wave(trace("stopwatch"), COLUMNS=str(number)).stdout)

    yield "the lines are as long as the terminal is wide", terminal

    def neither():
        env = {"PATH": os.environ["PATH"]}
        done = subprocess.run([TOP / "wave"], input=trace("stopwatch"), capture_output=True, env=env)
        same(done.stdout, drawing("stopwatch"))

    yield "without a terminal and COLUMNS the lines have 80 columns", neither


def dumps(program):
    def simulators():
        answers(wave((DRAWINGS / "bench.vcd").read_bytes()), drawing("bench"))

    yield "a dump as simulators write it is drawn as by hand", simulators

    def own():
        done = wave((DRAWINGS / "gcd.vcd").read_bytes())
        same((done.stdout.splitlines()[1:], done.returncode, done.stderr), (drawing("gcd").splitlines()[1:], 0, b""))
        same(done.stdout.splitlines()[0].decode(), drawing("gcd").splitlines()[0].decode().replace("cycle      ", "time (1 ns)"))

    yield "the dump of the GCD is drawn as its trace", own

    front = "$timescale 1ns $end $scope module m $end $var wire 2 ! a $end $upscope $end $enddefinitions $end\n"

    def step():
        lines = wave(front + "#7 b0 ! #17 b1 ! #37 b10 !").stdout.decode().splitlines()
        same(lines, ["time (1 ns)  7       17      27      37", "a            ⟨0     ⟩⟨1             ⟩⟨2     ⟩"])
        lines = wave(front + "#7 b0 ! #17 b1 ! #37 b10 !", "--from", "17", "--to", "27").stdout.decode().splitlines()
        same(lines, ["time (1 ns)  17      27", "a            ⟨1             ⟩"])
        lines = wave(front + "#0 b0 ! #1 b1 ! #90 b10 !").stdout.decode().splitlines()
        same(lines[-1], "… times 22 to 90 don't fit: --from 22, or --step")
        lines = wave(front + "#0 b0 ! #1 b1 ! #90 b10 !", "--step", "30").stdout.decode().splitlines()
        same(lines, ["time (1 ns)  0       30      60      90", "a            ▒▒▒▒▒▒▒▒⟨1             ⟩⟨2     ⟩"])

    yield "a column of a dump is the greatest step of its changes", step

    def vhdl():
        lines = wave(front + "#0 bU- ! #1 bHL ! #2 bUW ! #3 B1H ! #4").stdout.decode().splitlines()
        same(lines[1:], ["a            ⟨x     ⟩⟨2     ⟩⟨x     ⟩⟨3     ⟩"])

    yield "the bits of VHDL are 0, 1 or unknown", vhdl

    def first_changes():
        lines = wave(front + "b1 ! #4 b10 ! #8").stdout.decode().splitlines()
        same(lines, ["time (1 ns)  0       4", "a            ⟨1     ⟩⟨2     ⟩"])
        lines = wave(front.replace("2 !", "1 !") + "#3 #4 1! #5").stdout.decode().splitlines()
        same(lines, ["time (1 ns)  3       4", "a            ╳╳╳╳╳╳╳╳▇▇▇▇▇▇▇▇"])

    yield "a change before the first time comes at 0, and before its first change a leaf is unknown", first_changes

    def large_times():
        words = ["--from", "123456789012345", "--to", "123456789012345"]
        lines = wave(front + "#0 b0 ! #123456789012345 b1 ! #123456789012346 b10 !", *words).stdout.decode().splitlines()
        same(lines, ["time (1 ns)  123456789012345", "a            ⟨1     ⟩"])

    yield "a large time has a label", large_times

    for text, part in (
        ("#0 b1 ?\n", "line 2 changes what isn't declared"),
        ("#0 b1\n", "line 2 changes what isn't declared"),
        ("#5\n#4\n", "line 3 goes back in time"),
        ("#0\n$comment a\n", "the dump ends in the middle"),
        ("#0\nb12 !\n", "line 3 isn't a line of a dump"),
        ("$var wire 1 ? b $end\n#0\nb10 ?\n", "line 4 gives more than a bit to what has one"),
        ("$var wire 1 ? b $end\n#0\nr1.5 ?\n", "line 4 gives more than a bit to what has one"),
        ("#0\n$var wire ! b $end\n", "line 3 declares no variable"),
    ):

        def refused(text=text, part=part):
            done = wave(front + text)
            answers(done, b"", 1, f"wave: {part}\n".encode())

        yield f"a dump is refused: {part}", refused


def pictures(program):
    for name, cycles in (("gcd", 8), ("calculator", 11), ("stopwatch", 70), ("lock", 22)):

        def read(name=name, cycles=cycles):
            done = wave(trace(name), "--svg")
            same((done.returncode, done.stderr), (0, b""))
            same(read_back(done.stdout, cycles), trace(name))

        yield f"the picture of {name} reads back as its trace", read

    def values():
        svg = wave(trace("gcd"), "--svg").stdout
        ruler, word, level = rows_of(Tree.fromstring(svg))
        same([text for _, text in ruler], ["cycle", *"01234567"])
        same([text for _, text in word], ["io.outputGCD", "0", "48", "12"])
        same([text for _, text in level], ["io.outputValid"])
        same({each.tag.partition("}")[2] for each in Tree.fromstring(svg).iter()}, {"svg", "title", "style", "rect", "path", "g", "text"})
        has(svg, b"prefers-color-scheme: dark")

    yield "the picture of the GCD has its names, cycles and values as texts, and no script", values

    def of_dump():
        texts = ["".join(each.itertext()) for each in Tree.fromstring(wave((DRAWINGS / "bench.vcd").read_bytes(), "--svg").stdout).iter()]
        for text in ("time (1 ns)", "counter.out[3:0]", "bzzz1", "-1.25", "-3", "unknown", "changes inside"):
            has(texts, text)
        awkward = '$scope module m $end $var wire 2 ! <&"é\x01 $end $var real 64 & r $end $enddefinitions $end #0 b11 ! r<&> & #1'
        texts = [each.text for each in Tree.fromstring(wave(awkward, "--svg").stdout).iter("{http://www.w3.org/2000/svg}text")]
        same(texts, ["time", "0", '<&"??', "3", "r", "<&>"])

    yield "the picture of a dump is well-formed, whatever its names are", of_dump


def refusals(program):
    for line, part in (
        ("circuit NameUnknown 9:18\n", "no trace came, but a fault of the circuit, which docs/FAULTS.md explains"),
        ("stimulus ValueRange 3:9\n", "no trace came, but a fault of the stimulus, which docs/FAULTS.md explains"),
        ("usage\n", "no trace came, but `usage`: the words of ./firsim were no command"),
    ):

        def handed(line=line, part=part):
            for words in ([], ["--svg"]):
                answers(wave(line, *words), line.encode(), 1, f"wave: {part}\n".encode())

        yield f"the line `{line.strip()}` is handed on with status 1 and a sentence", handed

    for text, part in (
        ("", "nothing came on standard input"),
        ("ok\n", "what came is no trace"),
        ("cycle a\n0 1\n2 1\n", "line 3 isn't the row of cycle 1, whole and with a value for each name"),
        ("cycle a\n0 1\n1 1", "line 3 isn't the row of cycle 1, whole"),
        ("cycle a\n0 1\n\n", "line 3 isn't the row of cycle 1, whole"),
        ("cycle a\n0 1 1\n", "line 2 isn't a row, whole and with a value for each name"),
        ("cycle a\n0 x\n", "line 2 isn't a row, whole"),
    ):

        def refused(text=text, part=part):
            done = wave(text)
            same((done.stdout, done.returncode), (b"", 1))
            has(done.stderr.decode(), f"wave: {part}")

        yield f"{text!r} is no trace", refused

    def windows():
        answers(wave(trace("gcd"), "--from", "8"), b"", 1, b"wave: there is nothing in this window: the cycles are 0 to 7\n")
        same(wave(trace("gcd"), "--from", "7").stdout.decode().splitlines()[1], "io.outputGCD    ⟨12    ⟩")
        same(wave(trace("gcd"), "--to", "0").stdout.decode().splitlines()[1], "io.outputGCD    ⟨0     ⟩")

    yield "a window without a cycle is refused", windows

    def other_words():
        for words in (["--from", "2", "--to", "1"], ["--from", "-1"], ["--step", "0"], ["--to", "x"], ["--other"], ["io.output"], ["io.*", "q"]):
            done = wave(trace("gcd"), *words)
            same((done.stdout, done.returncode), (b"", 2))
            has(done.stderr, b"usage: wave [LEAF..]")
        has(done.stderr, b"there is no leaf q in the trace")
        done = wave("", "--help")
        same((done.returncode, done.stderr), (0, b""))
        has(done.stdout, b"usage: wave [LEAF..] [--from C] [--to C] [--step N] [--words] [--svg]\n")

    yield "other words are refused, and --help tells the words", other_words

    def chosen():
        lines = wave(trace("stopwatch"), "io.minute", "*.t*").stdout.decode().splitlines()
        same([line.split()[0] for line in lines], ["cycle", "io.minute", "io.time.tens", "io.time.ones", "…"])

    yield "leaves are drawn alone and in the order of the words", chosen


def faults(program):
    """The name of each case, and why it failed, or none."""
    for group in (drawings, widths, dumps, pictures, refusals):
        for name, case in group(program):
            try:
                case()
                yield f"wave: {name}", None
            except Exception as fault:
                yield f"wave: {name}", f"{type(fault).__name__}: {fault}"
