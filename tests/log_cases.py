"""Cases of logs: what the `printf` lines of circuits print, cycle by cycle, and where a `stop` ends them; the example with a log; and the commands of
docs/FARM.md for a test that stops.

What is wanted was written by hand or comes from models written here, which know the behaviour of a circuit and nothing of FIRRTL. Used by run_cases.py.
"""
import os
import random
import re
import subprocess
import tempfile
from pathlib import Path

TOP = Path(__file__).resolve().parent.parent
EXAMPLES = TOP / "examples"
FRONT = "FIRRTL version 3.0.0\ncircuit M :\n"
MAIN = "  module M :\n    input clock : Clock\n"
WORKERS = ("1", "2", "7")
PATIENCE = 300


def run(program, words, text, folder=None):
    return subprocess.run([program, *words], input=text.encode("latin-1"), capture_output=True, timeout=PATIENCE, cwd=folder)


def other(done, status, wanted):
    """Why a run isn't as it should be, or none."""
    if done.returncode != status or done.stdout != wanted.encode("latin-1") or done.stderr:
        return f"status {done.returncode}, wrote {done.stdout[:200]!r} .. {done.stdout[-60:]!r} {done.stderr[:100]!r}"
    return None


def closed(printed, line):
    """What was printed and the last line, which begins behind a line feed."""
    return printed + ("\n" if printed and not printed.endswith("\n") else "") + line + "\n"


def lines(*told, indent=4):
    return "".join(" " * indent + line + "\n" for line in told)


def logged(cycles, told):
    """The log of a run of so many cycles, of each of which a model tells what it prints and the codes of the enabled `stop` lines in order."""
    printed = []
    for cycle, (text, codes) in enumerate(told):
        printed.append(text)
        if codes:
            return closed("".join(printed), f"stopped {cycle} {codes[0]}")
    return closed("".join(printed), f"ended {cycles}")


# A run ends in the last or in the first cycle of an epoch. An epoch has 1,024 cycles, and fewer where more than 4,096 leaves of items are shown.


def stopped_counters():
    """A counter that prints itself in each cycle, and stops in one of them."""
    for cycles, at in ((1_025, 0), (1_025, 1_022), (1_025, 1_023), (1_025, 1_024), (1_024, 1_023), (1_024, 1_024), (2_049, 2_047), (2_049, 2_048), (2_049, None)):
        circuit = FRONT + MAIN + lines(
            "reg r : UInt<16>, clock",
            "connect r, tail(add(r, UInt<16>(1)), 1)",
            *([f"stop(clock, eq(r, UInt<16>({at})), 7)"] if at is not None else []),
            'printf(clock, UInt<1>(1), "%d\\n", r)',
        )
        wanted = logged(cycles, [(f"{cycle}\n", [7] if cycle == at else []) for cycle in range(cycles)])
        when = f"stops in cycle {at}" if at is not None else "doesn't stop"
        yield f"a counter that {when} of {cycles:,}", f"{circuit}%stimulus\ncycles {cycles}\n", wanted


def many_values():
    """Two lines of 4,095 values, so that an epoch has 511 cycles; they print in few of them, and a `stop` is enabled in the last cycle of an epoch or in
    the first one of the next."""
    vector = [(k * 37 + 5) % 251 for k in range(4_095)]
    for at in (510, 511):
        start = FRONT + MAIN + lines("reg r : UInt<16>, clock", "connect r, tail(add(r, UInt<16>(1)), 1)", "node hit = eq(bits(r, 7, 0), UInt<8>(255))")
        shown = ", ".join(f"xor(tail(r, 8), UInt<8>({value}))" for value in vector)
        items = lines(f'printf(clock, hit, "{"%x" * 4_095}\\n", {shown})', f'printf(clock, eq(r, UInt<16>({at})), "{"%c" * 4_095}", {shown})')
        stop = lines(f"stop(clock, eq(r, UInt<16>({at})), {at})")
        told = []
        for cycle in range(520):
            text = "".join(f"{value ^ cycle % 256:x}" for value in vector) + "\n" if cycle % 256 == 255 else ""
            text += "".join(chr(value ^ cycle % 256) for value in vector) if cycle == at else ""
            told.append((text, [at] if cycle == at else []))
        yield f"8,193 leaves of items, stopped in cycle {at}", f"{start}{items}{stop}%stimulus\ncycles 520\n", logged(520, told)


def nothing_printed():
    """Circuits without an item, and with those of modules that stand nowhere alone."""
    unused = lines("module N :", indent=2) + lines("input clock : Clock", 'printf(clock, UInt<1>(1), "N\\n")', "stop(clock, UInt<1>(1), 3)")
    for cycles in (0, 1, 1_024, 1_025):
        yield f"{cycles:,} cycles without an item", f"{FRONT}{MAIN}%stimulus\ncycles {cycles}\n", f"ended {cycles}\n"
        yield f"{cycles:,} cycles with items of a module that stands nowhere", f"{FRONT}{unused}{MAIN}%stimulus\ncycles {cycles}\n", f"ended {cycles}\n"
    used = FRONT + unused + MAIN + lines('printf(clock, UInt<1>(1), "M\\n")') + unused.replace("module N", "module O")
    yield "modules that stand nowhere, before and behind main", f"{used}%stimulus\ncycles 2\n", "M\nM\nended 2\n"


# Modules that stand at several places: their items print in each of them, a module's own before those of its instances.

TWICE = (
    FRONT
    + lines("module Leaf :", indent=2)
    + lines("input clock : Clock", "input name : UInt<8>", "input at : UInt<8>")
    + lines('printf(clock, UInt<1>(1), "[%c%d", name, at)', 'printf(clock, bits(at, 0, 0), "!]")')
    + lines("when not(bits(at, 0, 0)) :")
    + lines('printf(clock, UInt<1>(1), "]") : brackets', indent=6)
    + lines("stop(clock, eq(at, UInt<8>(6)), 66)")
    + lines("module Pair :", indent=2)
    + lines("input clock : Clock", "input at : UInt<8>", "inst one of Leaf", "connect one.clock, clock", "connect one.name, UInt<8>(97)", "connect one.at, at")
    + lines('printf(clock, UInt<1>(1), "<%d>", at) : brackets')
    + lines("inst two of Leaf", "connect two.clock, clock", "connect two.name, UInt<8>(98)", "connect two.at, tail(add(at, UInt<8>(1)), 1)")
    + lines("stop(clock, eq(at, UInt<8>(5)), 55)")
    + MAIN
    + lines("reg r : UInt<8>, clock", "connect r, tail(add(r, UInt<8>(1)), 1)")
    + lines("inst left of Pair", "connect left.clock, clock", "connect left.at, r")
    + lines("inst right of Pair", "connect right.clock, clock", "connect right.at, tail(add(r, UInt<8>(3)), 1)")
    + lines("inst last of Leaf", "connect last.clock, clock", "connect last.name, UInt<8>(122)", "connect last.at, UInt<8>(2)")
    + lines('printf(clock, UInt<1>(1), "cycle %d ", r)', 'printf(clock, UInt<1>(1), "%%\\n")')
)


def leaf_told(name, at):
    return f"[{name}{at}" + ("!]" if at % 2 else "]"), [66] if at == 6 else []


def pair_told(at):
    """A module's own lines stand before those of its instances, wherever the instances stand in its text."""
    one, two = leaf_told("a", at), leaf_told("b", at + 1)
    return f"<{at}>" + one[0] + two[0], ([55] if at == 5 else []) + one[1] + two[1]


def standing_twice():
    told = []
    for cycle in range(9):
        left, right, last = pair_told(cycle), pair_told(cycle + 3), leaf_told("z", 2)
        told.append((f"cycle {cycle} %\n" + left[0] + right[0] + last[0], left[1] + right[1] + last[1]))
    for cycles in (1, 2, 3, 9):
        yield f"modules that stand twice, {cycles} cycles", f"{TWICE}%stimulus\ncycles {cycles}\n", logged(cycles, told[:cycles])


# Circuits and models of them, run under stimuli made at random: inputs change in some cycles.


def settings(chance, cycles, inputs):
    """The values of the inputs in each cycle, and the lines that set them."""
    held, rows, text = dict.fromkeys(inputs, 0), [], f"cycles {cycles}\n"
    for cycle in range(cycles):
        for name, values in inputs.items():
            if chance.random() < 0.4:
                held[name] = chance.choice(values)
                text += f"{cycle} {name} {held[name]}\n"
        rows.append(dict(held))
    return rows, text


# A lift that goes up and down between floors of both signs. Each way prints under an arm of its own; it stops below the cellar, and where it is held
# too long with both buttons pressed.
LIFT = (
    FRONT
    + MAIN
    + lines("input reset : UInt<1>", "input up : UInt<1>", "input down : UInt<1>", "input by : UInt<3>", "output at : SInt<8>")
    + lines("regreset floor : SInt<8>, clock, reset, SInt<8>(0)", "regreset held : UInt<3>, clock, reset, UInt<3>(0)", "connect at, floor", "connect held, UInt<3>(0)")
    + lines("when and(up, down) :")
    + lines("connect held, tail(add(held, UInt<3>(1)), 1)", 'printf(clock, UInt<1>(1), "held %d at %d\\n", held, floor)', "stop(clock, eq(held, UInt<3>(7)), 2)", indent=6)
    + lines("else when up :")
    + lines("connect floor, asSInt(bits(add(floor, cvt(by)), 7, 0))", 'printf(clock, orr(by), "up %b from %d, ", by, floor)', indent=6)
    + lines("when gt(floor, SInt<8>(40)) :", indent=6)
    + lines("connect floor, SInt<8>(40)", 'printf(clock, UInt<1>(1), "high %x\\n", floor)', indent=8)
    + lines("else when down :")
    + lines('printf(clock, by, "odd %d\\n", by)', "connect floor, asSInt(bits(sub(floor, cvt(by)), 7, 0))", "stop(clock, lt(floor, SInt<8>(-40)), 1)", indent=6)
    + lines("else :")
    + lines('printf(clock, UInt<1>(1), "%c", add(by, UInt<8>(48)))', indent=6)
    + lines('printf(clock, eq(floor, SInt<8>(-1)), "\\tminus %d is %x or %b\\n", floor, floor, floor)')
)


def lift(rows):
    floor = held = 0
    for row in rows:
        up, down, by, text, codes, was = row["up"], row["down"], row["by"], "", [], (floor, held)
        held = 0
        if up and down:
            held = (was[1] + 1) % 8
            text += f"held {was[1]} at {floor}\n"
            codes += [2] if was[1] == 7 else []
        elif up:
            text += f"up {by:b} from {floor}, " if by else ""
            floor += by
            if was[0] > 40:
                text += f"high {was[0] % 256:x}\n"
                floor = 40
        elif down:
            text += f"odd {by}\n" if by % 2 else ""
            codes += [1] if floor < -40 else []
            floor -= by
        else:
            text += chr(48 + by)
        if was[0] == -1:
            text += "\tminus -1 is ff or 11111111\n"
        if row["reset"]:
            floor = held = 0
        yield text, codes


# Two queues of four words in memories, which stand in a module twice: one takes what the other gives. Each prints what comes and goes, and stops where it
# is given a word too many.
QUEUE = (
    FRONT
    + lines("module Queue :", indent=2)
    + lines("input clock : Clock", "input id : UInt<1>", "input put : UInt<1>", "input take : UInt<1>", "input word : UInt<8>")
    + lines("output given : UInt<1>", "output head : UInt<8>")
    + lines("mem words :")
    + lines("data-type => UInt<8>", "depth => 4", "read-latency => 0", "write-latency => 1", "reader => r", "writer => w", "read-under-write => undefined", indent=6)
    + lines("reg first : UInt<2>, clock", "reg count : UInt<3>, clock", "node empty = eq(count, UInt<3>(0))", "node full = eq(count, UInt<3>(4))")
    + lines("node takes = and(take, not(empty))", "node puts = and(put, not(full))")
    + lines("connect words.r.clk, clock", "connect words.r.en, UInt<1>(1)", "connect words.r.addr, first")
    + lines("connect words.w.clk, clock", "connect words.w.en, puts", "connect words.w.addr, tail(add(first, bits(count, 1, 0)), 1)")
    + lines("connect words.w.data, word", "connect words.w.mask, UInt<1>(1)")
    + lines("connect given, takes", "connect head, words.r.data")
    + lines("when takes :")
    + lines("connect first, tail(add(first, UInt<2>(1)), 1)", 'printf(clock, UInt<1>(1), "%d gives %x of %d\\n", id, words.r.data, count) : taken', indent=6)
    + lines("when puts :")
    + lines('printf(clock, UInt<1>(1), "%d takes \'%c\'\\n", id, word) : put', indent=6)
    + lines("else when put :")
    + lines('printf(clock, UInt<1>(1), "%d is \\"full\\" of %d\\n", id, head)', "stop(clock, and(id, eq(bits(word, 2, 0), UInt<3>(7))), 4)", indent=6)
    + lines("connect count, bits(sub(add(count, puts), takes), 2, 0)")
    + lines("module Both :", indent=2)
    + lines("input clock : Clock", "input put : UInt<1>", "input take : UInt<1>", "input word : UInt<8>")
    + lines("inst a of Queue", "inst b of Queue", "connect a.clock, clock", "connect b.clock, clock", "connect a.id, UInt<1>(0)", "connect b.id, UInt<1>(1)")
    + lines("connect a.put, put", "connect a.word, word", "connect a.take, not(take)", "connect b.put, a.given", "connect b.word, a.head", "connect b.take, take")
    + lines('printf(clock, and(put, take), "both\\n")')
    + MAIN
    + lines("input put : UInt<1>", "input take : UInt<1>", "input word : UInt<8>", "reg cycle : UInt<12>, clock", "connect cycle, tail(add(cycle, UInt<12>(1)), 1)")
    + lines("inst both of Both", "connect both.clock, clock", "connect both.put, put", "connect both.take, take", "connect both.word, word")
    + lines('printf(clock, orr(cat(put, take)), "%d: ", cycle)')
)


def queue(rows):
    held = [], []

    def step(number, put, take, word):
        own, text, codes = held[number], "", []
        count, head = len(own), own[0] if own else None
        takes, puts = take and count > 0, put and count < 4
        if takes:
            text += f"{number} gives {own.pop(0):x} of {count}\n"
        if puts:
            text += f"{number} takes '{chr(word)}'\n"
            own.append(word)
        elif put:
            text += f'{number} is "full" of {head}\n'
            codes = [4] if number and word % 8 == 7 else []
        return text, codes, takes, head

    for cycle, row in enumerate(rows):
        put, take = row["put"], row["take"]
        one = step(0, put, not take, row["word"])
        two = step(1, one[2], take, one[3])
        front = f"{cycle % 4_096}: " if put or take else ""
        yield front + ("both\n" if put and take else "") + one[0] + two[0], one[1] + two[1]


# Wide values that are shifted, of both kinds, and conditions of several bits, of which the lowest one counts.
WIDE = (
    FRONT
    + MAIN
    + lines("input in : UInt<3>", "input less : SInt<5>", "reg wide : UInt<100>, clock", "reg sum : SInt<70>, clock", "reg none : UInt<0>, clock")
    + lines("connect wide, xor(tail(shl(wide, 3), 3), in)", "connect sum, asSInt(bits(sub(shl(sum, 1), less), 69, 0))", "connect none, in")
    + lines("node narrow = bits(wide, 11, 0)")
    + lines('printf(clock, in, "%x %d\\n", wide, sum)')
    + lines("when lt(sum, SInt<1>(0)) :")
    + lines('printf(clock, shr(in, 1), "%b,%x", sum, sum)', 'printf(clock, UInt<1>(1), "\\\\ %d%d %c\\n", none, asSInt(none), narrow)', indent=6)
    + lines("stop(clock, eq(bits(wide, 32, 0), UInt<33>(0h1ffffffff)), 340282366920938463463374607431768211455)", "stop(clock, eq(narrow, UInt<12>(0o3522)), 0)")
)


def wide(rows):
    value = total = 0
    for row in rows:
        text, codes, low = "", [], row["in"]
        if low % 2:
            text += f"{value:x} {total}\n"
        if total < 0:
            if low >> 1 & 1:
                text += f"{total % 2**70:b},{total % 2**70:x}"
            text += f"\\ 00 {chr(value % 256)}\n"
        codes += [2**128 - 1] if value % 2**33 == 2**33 - 1 else []
        codes += [0] if value % 4_096 == 0o3522 else []
        value = (value * 8 % 2**100) ^ low
        total = (total * 2 - row["less"] + 2**69) % 2**70 - 2**69
        yield text, codes


RANDOM = (
    ("a lift", LIFT, lift, {"reset": [0] * 40 + [1], "up": (0, 1), "down": (0, 0, 1), "by": range(8)}),
    ("two queues", QUEUE, queue, {"put": (0, 0, 1), "take": (0, 1, 1, 1, 1), "word": range(32, 127)}),
    ("wide values", WIDE, wide, {"in": range(8), "less": range(-16, 16)}),
)


def by_models():
    chance = random.Random(7)
    for name, circuit, model, inputs in RANDOM:
        for cycles in (0, 1, 2, 17, 60, 300, 1_025, 1_500):
            rows, stimulus = settings(chance, cycles, inputs)
            yield f"{name}, {cycles:,} cycles", f"{circuit}%stimulus\n{stimulus}", logged(cycles, model(rows))


def lengths():
    """Texts at the limits of their lengths, and past them: a name, the text, the status and what is written."""
    circuit = FRONT + MAIN + lines('printf(clock, UInt<1>(1), "x")')
    yield "a joined text over 20,971,520 bytes", " " * 20_971_521, 2, "circuit TooLong 1:1\n"
    yield "a text without a line for its stimulus", " " * 20_971_520, 2, "circuit NoStimulus 1:1\n"
    yield "a circuit over 16,777,216 bytes", circuit.ljust(16_777_216, ";") + "\n%stimulus\ncycles 2\n", 2, "circuit TooLong 1:1\n"
    yield "a circuit of 16,777,216 bytes", circuit.ljust(16_777_215, ";") + "\n%stimulus\ncycles 2\n", 0, "xx\nended 2\n"
    yield "a stimulus over 4,194,304 bytes", circuit + "%stimulus\n" + "cycles 2\n".ljust(4_194_305), 3, "stimulus TooLong 1:1\n"
    yield "a stimulus of 4,194,304 bytes", circuit + "%stimulus\n" + "cycles 2\n".ljust(4_194_304), 0, "xx\nended 2\n"


# The example: a test of the greatest common divisor, which prints and stops.


def divisors(cycles, pairs=((48, 36, 12), (35, 14, 7), (9, 0, 9))):
    """What examples/gcd_test.fir shows and what it prints: pairs are given one after the other, each in a cycle of its own, and compared once y is 0."""
    x = y = step = loaded = 0
    for cycle in range(cycles):
        shown, text, codes = step, "", []
        first, second, wanted = pairs[step] if step < len(pairs) else (0, 0, 0)
        if not loaded:
            x, y, loaded = first, second, 1
        else:
            if y == 0:
                text = f"gcd({first}, {second}) = {x}\n" + ("" if x == wanted else f"wanted {wanted}\n")
                codes = ([1] if x != wanted else []) + ([0] if step == 2 else [])
                step, loaded = (step + 1) % 4, 0
            x, y = (x - y, y) if x > y else (x, y - x)
        if cycle == 0:
            text, codes, step, loaded = "", [], 0, 0
        yield shown, (text, codes)


def examples(program):
    circuit, stimulus = ((EXAMPLES / f"gcd_test.{end}").read_text() for end in ("fir", "stim"))
    shown, told = zip(*divisors(20))
    log, trace = logged(20, told), "cycle io.step\n" + "".join(f"{cycle} {step}\n" for cycle, step in enumerate(shown))
    for end, wanted in (("log", log), ("expect", trace)):
        yield f"examples/gcd_test.{end} is the model's", None if (EXAMPLES / f"gcd_test.{end}").read_text() == wanted else "it differs"
    for workers in WORKERS:
        yield f"log writes examples/gcd_test.log by {workers} workers", other(run(program, ["log", "--workers", workers], f"{circuit}%stimulus\n{stimulus}"), 0, log)
    wrong, cycles = circuit.replace("wanted[1], UInt<16>(0h7)", "wanted[1], UInt<16>(0h8)"), stimulus.replace("cycles 20", "cycles 14")
    log = logged(20, [told for _, told in divisors(20, ((48, 36, 12), (35, 14, 8), (9, 0, 9)))])
    yield "the example stops at a wrong answer", other(run(program, ["log"], f"{wrong}%stimulus\n{stimulus}"), 0, log)
    yield "the example doesn't stop in 14 cycles", other(run(program, ["log"], f"{circuit}%stimulus\n{cycles}"), 0, logged(14, told[:14]))


# The commands of docs/FARM.md.


def stopping(code):
    """A circuit that prints half a line in two cycles, and stops with a code in the second one."""
    return FRONT + MAIN + lines("reg r : UInt<1>, clock", "connect r, not(r)", 'printf(clock, UInt<1>(1), "stopped 0 0")', f"stop(clock, r, {code})") + "%stimulus\ncycles 3\n"


def farm(program):
    """The tests of docs/FARM.md that stop: whether the page's commands give the status that it tells, and a log beside each text."""
    page = (TOP / "docs/FARM.md").read_text()
    section = re.search(r"^## A test that stops\n(.*?)(?=^## |\Z)", page, re.M | re.S)[1]
    judge, folder = re.findall(r"^```sh\n(.*?)```", section, re.M | re.S)
    circuit, stimulus = ((EXAMPLES / f"gcd_test.{end}").read_text() for end in ("fir", "stim"))
    texts = {
        "is wrong": (10, circuit.replace("wanted[1], UInt<16>(0h7)", "wanted[1], UInt<16>(0h8)") + f"%stimulus\n{stimulus}"),
        "takes too long": (11, f"{circuit}%stimulus\n{stimulus}".replace("cycles 20", "cycles 9")),
        "has no cycle": (11, f"{circuit}%stimulus\ncycles 0\n"),
        "stops with 0": (0, stopping(0)),
        "stops with 7": (10, stopping(7)),
        "stops with 256": (10, stopping(256)),
        "stops with 2^64": (10, stopping(2**64)),
        "has a fault": (2, f"{circuit}    nonsense\n%stimulus\n{stimulus}"),
        "has a fault in its stimulus": (3, f"{circuit}%stimulus\n{stimulus}1 q 0\n"),
        "gcd_test": (0, f"{circuit}%stimulus\n{stimulus}"),
    }
    with tempfile.TemporaryDirectory() as room:
        stops = Path(room) / "stops"
        stops.mkdir()
        (Path(room) / "examples").symlink_to(EXAMPLES)
        for name, (_, text) in texts.items():
            if name != "gcd_test":
                (stops / f"{name}.text").write_text(text)
        how = {"cwd": room, "env": {**os.environ, "program": program, "LC_ALL": "C"}, "capture_output": True, "text": True, "timeout": PATIENCE}
        done = subprocess.run(["bash", "-c", judge + folder], **how)
        told = []
        for name, (status, text) in sorted(texts.items(), key=lambda each: f"{each[0]}.text"):
            log = stops / f"{name}.text.log"
            wanted = run(program, ["log"], text).stdout.decode()
            yield f"docs/FARM.md keeps the log of a test: {name}", None if log.exists() and log.read_text() == wanted else "another log"
            told += [f"stops/{name}.text: status {status}: {wanted.splitlines()[-1]}\n"] if status else []
        yield "docs/FARM.md tells of the tests that fail", None if (done.stdout, done.stderr) == ("".join(told), "") else f"{done.stdout!r} {done.stderr!r}, not {told!r}"
        for name, (status, _) in texts.items():
            done = subprocess.run(["bash", "judge", f"stops/{name}.text"], **how)
            yield f"docs/FARM.md gives {status} for a test: {name}", None if (done.returncode, done.stdout) == (status, "") else f"status {done.returncode}"


def unwritten(program):
    """Why a log that can't be written doesn't end with status 5, or none."""
    with open("/dev/full", "wb") as full:
        done = subprocess.run([program, "log"], input=stopping(7).encode(), stdout=full, stderr=subprocess.PIPE, timeout=PATIENCE)
    return None if (done.returncode, done.stderr) == (5, b"") else f"status {done.returncode}, {done.stderr[:100]!r}"


def faults(program):
    found = []
    for cases in (stopped_counters(), many_values(), nothing_printed(), standing_twice(), by_models()):
        for name, text, wanted in cases:
            for workers in WORKERS:
                found.append((f"the log of {name}, by {workers} workers", other(run(program, ["log", "--workers", workers, "-"], text), 0, wanted)))
    for name, text, status, wanted in lengths():
        found.append((f"the log of {name}", other(run(program, ["log"], text), status, wanted)))
    found.append(("a log that can't be written", unwritten(program)))
    return [*found, *examples(program), *farm(program)]
