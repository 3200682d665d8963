"""Prints tables: the time of `check` on large circuits that have no fault, at two sizes with the ratio; the time and cycles per second of
runs of rings of registers and of the circuits of a folder; the time to read a stimulus of 4 MB, beside the circuit in a text of its own; and the
memory of a run of 4,000,000 values and of one with 1,000 inputs.

usage: runs.py PROGRAM FOLDER
"""
import os
import subprocess
import sys
import tempfile
import time
from pathlib import Path

FRONT = "FIRRTL version 3.0.0\ncircuit M :\n"


def dense(count):
    """Nodes of some 30 bytes each, every one of which reads the one before."""
    body = "".join(f"    node n{k} = xor(a, {f'n{k - 1}' if k else 'a'})\n" for k in range(count))
    return FRONT + "  module M :\n    input a : UInt<8>\n    output o : UInt<8>\n" + body + f"    connect o, n{count - 1}\n"


def wide(count):
    """Wires of 600 leaves each, every one connected as a whole to the one before."""
    fields = ", ".join(f"f{k} : UInt<4>" for k in range(600))
    wires = "".join(f"    wire w{k} : {{ {fields} }}\n    connect w{k}, w{k - 1}\n" for k in range(1, count // 600))
    return FRONT + f"  module M :\n    input clock : Clock\n    wire w0 : {{ {fields} }}\n    invalidate w0\n" + wires


def instances(count):
    """Instances of one module, each fed by the one before."""
    child = "  module C :\n    input clock : Clock\n    input i : UInt<4>\n    output o : UInt<4>\n    reg r : UInt<4>, clock\n    connect r, i\n    connect o, r\n"
    body = "".join(f"    inst c{k} of C\n    connect c{k}.clock, clock\n    connect c{k}.i, {f'c{k - 1}.o' if k else 'a'}\n" for k in range(count))
    return FRONT + child + "  module M :\n    input clock : Clock\n    input a : UInt<4>\n" + body


def indexed(count):
    """As many reads of a vector of 4,000 elements through an index: too large, which is to be said at once."""
    body = "".join(f"    node n{k} = v[i]\n" for k in range(count))
    return FRONT + "  module M :\n    input i : UInt<12>\n    wire v : UInt<1>[4000]\n    invalidate v\n" + body


def ring(count, cycles):
    """A ring of registers, each the sum of the one before and its number, whose sum is watched; and its stimulus."""
    lines = ["    input clock : Clock", "    output out : UInt<32>"]
    lines += [f"    reg r{k} : UInt<32>, clock" for k in range(count)]
    lines += [f"    connect r{k}, tail(add(r{(k or count) - 1}, UInt<32>({k})), 1)" for k in range(count)]
    lines += ["    node s0 = r0"] + [f"    node s{k} = tail(add(s{k - 1}, r{k}), 1)" for k in range(1, count)]
    lines += [f"    connect out, s{count - 1}"]
    return FRONT + "  module M :\n" + "\n".join(lines) + f"\n%stimulus\ncycles {cycles}\n"


# A circuit with one input beside a vector of them, and stimuli of it.
INPUTS = FRONT + "  module M :\n    input a : UInt<128>\n    input v : UInt<8>[32]\n    output o : UInt<128>\n    connect o, a\n"


def filled(size, line_of):
    """A stimulus of this many bytes: the lines of the numbers from 0, then a last line that lacks its form, so that nothing is run."""
    lines, left = ["cycles 100000\n"], size - len("cycles 100000\n")
    while len(line := line_of(len(lines) - 1)) < left:
        lines.append(line)
        left -= len(line)
    return "".join(lines) + "!\n".rjust(left)


def one_input(k):
    """A line a cycle, with a number of 39 digits."""
    return f"{k} a {2**128 - 1 - k}\n"


def all_elements(k):
    """A line for each element of the vector in each cycle."""
    return f"{k // 32} v[{k % 32}] {k % 256}\n"


def one_cycle(k):
    """Empty lines and remarks between some lines of the first cycle."""
    return f"0 v[{k}] 0h{k:x}\n" if k < 32 else f"; {k}\n\n"


def taken(program, words, text, ends=(b"circuit TooLarge 2:9\n",)):
    """The seconds that a call takes, its peak memory in MB, and what it writes. It has no fault, or one of those that are said."""
    with tempfile.TemporaryFile() as given:
        given.write(text.encode())
        given.seek(0)
        began = time.perf_counter()
        child = subprocess.Popen([program, *words], stdin=given, stdout=subprocess.PIPE)
        written = child.stdout.read()
        _, status, used = os.wait4(child.pid, 0)
        took = time.perf_counter() - began
    assert status == 0 or written in ends, (status, written[:200])
    return took, used.ru_maxrss / 1024, written


def read(program, stimulus):
    """The seconds and the peak memory in MB of a run of two texts whose stimulus, from standard input, has its only fault in its last line."""
    lines = stimulus.splitlines()
    fault = f"stimulus BadLine {len(lines)}:{len(lines[-1])}\n".encode()
    with tempfile.NamedTemporaryFile("w") as circuit:
        circuit.write(INPUTS)
        circuit.flush()
        return taken(program, ["run", circuit.name, "-"], stimulus, [fault])[:2]


def main():
    program, folder = str(Path(sys.argv[1]).resolve()), Path(sys.argv[2])
    print(f"{'check of':48} {'bytes':>11} {'s':>7} {'MB':>6} {'bytes':>11} {'s':>7} {'MB':>6} {'ratio':>6}")
    for meaning, text_of, small in (
        ("statements, each reading the one before", dense, 15_000),
        ("whole connects of wires of 600 leaves", wide, 30_000),
        ("instances of one module", instances, 2_000),
        ("reads of 4,000 elements (TooLarge)", indexed, 1_000),
    ):
        rows = [(len(text), *taken(program, ["check"], text)[:2]) for text in (text_of(small), text_of(2 * small))]
        (a, s, m), (b, t, n) = rows
        print(f"{meaning:48} {a:11,} {s:7.2f} {m:6.0f} {b:11,} {t:7.2f} {n:6.0f} {t / s:6.1f}")
    print(f"\n{'run of':48} {'cycles':>9} {'s':>7} {'cycles/s':>10}")
    for count, cycles in ((64, 20_000), (256, 5_000), (1_024, 1_000), (4_096, 200)):
        start = taken(program, ["run"], ring(count, 0))[0]
        took = taken(program, ["run"], ring(count, cycles))[0]
        print(f"{f'a ring of {count:,} registers':48} {cycles:9,} {took:7.2f} {cycles / (took - start):10,.0f}")
    for circuit in sorted(folder.glob("*.fir")):
        stimulus = circuit.with_suffix(".stim").read_text()
        took, _, written = taken(program, ["run"], circuit.read_text() + "%stimulus\n" + stimulus)
        cycles = written.count(b"\n") - 1
        print(f"{circuit.stem:48} {cycles:9,} {took:7.2f} {cycles / took:10,.0f}")
    print(f"\n{'stimulus of':48} {'bytes':>11} {'s':>7} {'MB':>6} {'bytes':>11} {'s':>7} {'MB':>6} {'ratio':>6}")
    for meaning, line_of in (("a line a cycle, with 39 digits", one_input), ("32 lines a cycle", all_elements), ("blank lines and remarks", one_cycle)):
        sizes = (2_097_152, 4_194_304)
        (s, m), (t, n) = (read(program, filled(size, line_of)) for size in sizes)
        print(f"{meaning:48} {sizes[0]:11,} {s:7.2f} {m:6.0f} {sizes[1]:11,} {t:7.2f} {n:6.0f} {t / s:6.1f}")
    text = FRONT + "  module M :\n    input a : UInt<1>\n    output o : UInt<1>\n    output p : UInt<1>\n    output q : UInt<1>\n"
    text += "".join(f"    connect {name}, a\n" for name in "opq") + "%stimulus\ncycles 1000000\n"
    took, memory, _ = taken(program, ["run"], text)
    print(f"\na run of 4,000,000 values: {took:.2f} s, {memory:.0f} MB")
    text = FRONT + "  module M :\n    input v : UInt<8>[1000]\n    output o : UInt<8>\n    connect o, v[7]\n%stimulus\ncycles 1000000\n"
    took, memory, _ = taken(program, ["run"], text)
    print(f"1,000,000 cycles with 1,000 inputs: {took:.2f} s, {memory:.0f} MB")


if __name__ == "__main__":
    main()
