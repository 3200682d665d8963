"""Prints a table: the time to cut large circuits whose cones overlap, by several numbers of workers.

usage: cuts.py PROGRAM

Times are of the processor, and that of `check` on the same text is taken off, so that what is left is to order the net, to cut it and to
write the listing.
"""
import resource
import subprocess
import sys
import tempfile
from pathlib import Path

WORKERS = [1, 2, 8, 64]


def layers(width, depth, step_of, register_reads=(0,)):
    """A circuit of so many registers and layers of as many nodes. A node of a layer reads two of the layer before, its own place and the one
    so many steps on; the first layer reads the registers, and a register the last layer at its own place and those steps on."""
    lines = ["FIRRTL version 3.0.0", "circuit M :", "  module M :", "    input clock : Clock"]
    lines += [f"    reg r{k} : UInt<1>, clock" for k in range(width)]
    before = "r{}"
    for layer in range(depth):
        step = step_of(layer)
        lines += [f"    node n{layer}_{k} = xor({before.format(k)}, {before.format((k + step) % width)})" for k in range(width)]
        before = f"n{layer}_{{}}"
    for k in range(width):
        reads = [before.format((k + on) % width) for on in register_reads]
        value = reads[0]
        for read in reads[1:]:
            value = f"xor({value}, {read})"
        lines.append(f"    connect r{k}, {value}")
    return "\n".join(lines) + "\n"


def chain(count):
    """Nodes each of which reads the one before, and a register for each node."""
    lines = ["FIRRTL version 3.0.0", "circuit M :", "  module M :", "    input clock : Clock"]
    lines += [f"    reg r{k} : UInt<1>, clock" for k in range(count)]
    lines += [f"    node n{k} = xor(r{k}, {f'n{k - 1}' if k else 'r0'})" for k in range(count)]
    lines += [f"    connect r{k}, n{k}" for k in range(count)]
    return "\n".join(lines) + "\n"


CIRCUITS = [
    ("a ring of 20,000", lambda: layers(20_000, 1, lambda layer: 1), 20_000),
    ("a mesh of 20,000", lambda: layers(20_000, 1, lambda layer: 32, (0, 1, 33)), 20_000),
    ("layers of 100 by 100", lambda: layers(100, 100, lambda layer: 1), 10_000),
    ("layers of 200 by 150", lambda: layers(200, 150, lambda layer: 1), 30_000),
    ("layers of 200 by 150, far apart", lambda: layers(200, 150, lambda layer: 1 << layer % 8), 30_000),
    ("4,000 registers, 60,000 nodes", lambda: layers(4_000, 15, lambda layer: 1 << layer % 12), 60_000),
    ("a chain under 4,000 registers", lambda: chain(4_000), 4_000),
]


def spent():
    """The processor's time of the commands so far."""
    usage = resource.getrusage(resource.RUSAGE_CHILDREN)
    return usage.ru_utime + usage.ru_stime


def best_seconds(command, last_words):
    """The least time of three runs of a command that must end with these words."""
    best = None
    for _ in range(3):
        began = spent()
        written = subprocess.run(command, stdout=subprocess.PIPE, check=True).stdout
        took = spent() - began
        last = written.decode().splitlines()[-1].split()
        assert last[:len(last_words)] == last_words, written[-200:]
        best = took if best is None else min(best, took)
    return best


def circuits(firsim):
    print(f"{'cut of':32} {'assignments':>11}" + "".join(f" {f'ms by {workers}':>9}" for workers in WORKERS))
    with tempfile.TemporaryDirectory() as folder:
        path = Path(folder) / "circuit.fir"
        for meaning, text, needed in CIRCUITS:
            path.write_text(text())
            checked = best_seconds([firsim, "check", str(path)], ["ok"])
            row = f"{meaning:32} {needed:11,}"
            for workers in WORKERS:
                took = best_seconds([firsim, "cut", "--workers", str(workers), str(path)], ["needed", str(needed)])
                row += f" {(took - checked) * 1000:9.0f}"
            print(row, flush=True)


circuits(sys.argv[1])
