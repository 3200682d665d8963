"""Prints a table: the time of a cycle by 1, 2 and 4 workers, beside that of another program, and the ratio; with --callgrind the machine instructions of
a cycle too. Or with --verilog: the time from text to trace, beside that of Icarus Verilog and of Verilator with their builds.

usage: cycles.py PROGRAM [OTHER] [--circuits NAME..] [--workers P..] [--times N] [--seconds S] [--clock] [--callgrind]
       cycles.py PROGRAM --verilog [--times N] [--most S]

OTHER is the program as it was before, and the ratio says how many times as fast PROGRAM is. Each figure is the least of N (5) runs, in which both take
turns, without what a run of one cycle takes. By one worker it is the processors' time, which says more where a machine is busy, and by several the time of
the clock; with --clock that for all. Runs have as many cycles as take S seconds (1), at most 1,000,000.
"""
import argparse
import hashlib
import math
import os
import re
import resource
import shutil
import subprocess
import tempfile
import time
from pathlib import Path

from circuits import CIRCUITS, INDEXED, mesh

HERE = Path(__file__).resolve().parent
MOST = 1_000_000
RINGS = ("ring256", "ring4096")
# Circuits of which a Verilog text stands in bench/verilog: what is defined for it.
VERILOG = {
    "counter": (CIRCUITS["counter"], "counter.v", ()),
    "gcd": (CIRCUITS["gcd"], "gcd.v", ()),
    "ring256": (CIRCUITS["ring256"], "ring.v", ("-DCOUNT=256",)),
    "mesh of 16 by 16": (lambda: mesh(16, 16), "mesh.v", ("-DSIDE=16", "-DROUNDS=16")),
}

# Verilator wants loops over registers unrolled.
UNROLLED = ("--unroll-count", "1024", "--unroll-stmts", "1000000")


def used(words, text=None, out=None):
    """Seconds by the clock, and those of the processors, of a command that must not fail. What it writes goes into a file, or nowhere."""
    before, began = resource.getrusage(resource.RUSAGE_CHILDREN), time.perf_counter()
    with open(out or os.devnull, "wb") as sink, open(text or os.devnull, "rb") as given:
        done = subprocess.run(words, stdin=given, stdout=sink, stderr=subprocess.PIPE)
    took, after = time.perf_counter() - began, resource.getrusage(resource.RUSAGE_CHILDREN)
    if done.returncode:
        raise SystemExit(f"cycles: {words[0]} ended with {done.returncode}: {done.stderr[-500:].decode()}")
    return took, after.ru_utime + after.ru_stime - before.ru_utime - before.ru_stime


class Room:
    """A folder with the circuits' texts and what is written."""

    def __init__(self, folder, clock):
        self.folder, self.clock = Path(folder), clock

    def text(self, name, circuit, cycles):
        path = self.folder / f"{name}.{cycles}"
        if not path.exists():
            path.write_text(f"{circuit}%stimulus\ncycles {cycles}\n")
        return path

    def seconds(self, program, text, workers):
        took, processors = used([program, "run", "--workers", str(workers)], text=text, out=self.folder / "trace")
        return took if self.clock or workers > 1 else processors

    def trace(self):
        return hashlib.sha256((self.folder / "trace").read_bytes()).digest()


def enough(room, program, name, circuit, workers, seconds):
    """How many cycles take so many seconds."""
    cycles, start = 100, room.seconds(program, room.text(name, circuit, 1), workers)
    while True:
        took = room.seconds(program, room.text(name, circuit, cycles), workers) - start
        if took > seconds / 8 or cycles == MOST:
            return max(100, min(MOST, int(cycles * seconds / max(took, 1e-3)) // 100 * 100))
        cycles = min(MOST, cycles * 8)


def cycle(room, programs, name, circuit, cycles, workers, times):
    """Microseconds of a cycle by each program, the least of so many runs."""
    texts = room.text(name, circuit, 1), room.text(name, circuit, cycles)
    least, traces = [[math.inf, math.inf] for _ in programs], set()
    for _ in range(times):
        for place, text in enumerate(texts):
            for program, figures in zip(programs, least):
                figures[place] = min(figures[place], room.seconds(program, text, workers))
                traces.add((text, room.trace()))
    if len(traces) != len(texts):
        raise SystemExit(f"cycles: the traces of {name} differ")
    return [max(whole - start, 1e-9) / (cycles - 1) * 1e6 for start, whole in least]


def instructions(room, program, name, circuit, few, many):
    """The machine instructions of a cycle by one worker."""
    counts = []
    for cycles in (few, many):
        words = ["valgrind", "--tool=callgrind", "--callgrind-out-file=/dev/null", program, "run"]
        with open(room.text(name, circuit, cycles), "rb") as given:
            done = subprocess.run(words, stdin=given, stdout=subprocess.DEVNULL, stderr=subprocess.PIPE, text=True)
        counts.append(int(re.search(r"Collected : (\d+)", done.stderr)[1]))
    return (counts[1] - counts[0]) / (many - few)


def mean(ratios):
    return math.exp(sum(map(math.log, ratios)) / len(ratios)) if ratios else math.nan


def table(asked):
    programs = [str(Path(each).resolve()) for each in (asked.other, asked.program) if each]
    counted = asked.callgrind and shutil.which("valgrind")
    if asked.callgrind and not counted:
        print("cycles: valgrind isn't installed, so no machine instructions are counted")
    heads = [f"{workers} worker{'s' * (workers > 1)}" for workers in asked.workers] + ["instructions"] * bool(counted)
    below = f"{'cycles':>10}" + (f"{'before':>10}{'now':>10}{'ratio':>8}" if asked.other else f"{'now':>10}")
    width = len(below)
    print(f"processors: {len(os.sched_getaffinity(0))}; microseconds a cycle{', and machine instructions' if counted else ''}")
    print(f"{'':16}" + "".join(f"{head:>{width}}" for head in heads))
    print(f"{'circuit':16}" + below * len(heads), flush=True)
    ratios = {head: [] for head in heads}
    with tempfile.TemporaryDirectory() as folder:
        room = Room(folder, asked.clock)
        for name in asked.circuits:
            circuit = (CIRCUITS | INDEXED)[name]()
            print(f"{name:16}", end="", flush=True)
            for head, workers in zip(heads, [*asked.workers, None]):
                if workers:
                    cycles = enough(room, programs[0], name, circuit, workers, asked.seconds)
                    figures = cycle(room, programs, name, circuit, cycles, workers, asked.times)
                else:
                    cycles, figures = 100, [instructions(room, each, name, circuit, 20, 120) for each in programs]
                print(f"{cycles:10,}" + "".join(f"{figure:10.2f}" if workers else f"{figure:10,.0f}" for figure in figures), end="", flush=True)
                if asked.other:
                    print(f"{figures[0] / figures[1]:8.2f}", end="", flush=True)
                    ratios[head] += [] if name in RINGS else [figures[0] / figures[1]]
            print()
    if asked.other:
        # the mean is geometric
        means = "".join(f"{mean(each):{width}.2f}" for each in ratios.values())
        print(f"{'mean but rings':16}{means}")


def builds(tool, room, file, defined, times):
    """How a tool runs a Verilog text, as a function of the number of cycles, and the seconds of its build, the least of so many."""
    texts = [HERE / "verilog" / file, HERE / "verilog" / ("trace.v" if tool == "iverilog" else "trace.cpp")]
    made = room / tool
    words = ["iverilog", "-g2005", *defined, "-o", made]
    if tool == "verilator":
        words = ["verilator", "--cc", "--exe", "--build", "-O3", *UNROLLED, "-CFLAGS", "-O2", "--top-module", "bench", "--Mdir", made, *defined]
    least = math.inf
    for _ in range(times):
        shutil.rmtree(made, ignore_errors=True)
        least = min(least, used([*words, *texts])[1])
    return (lambda cycles: ["vvp", "-n", made, f"+cycles={cycles}"]) if tool == "iverilog" else (lambda cycles: [made / "Vbench", str(cycles)]), least


def spans(run, room, tool, asked):
    """The seconds of runs of 1, 1,000 and 1,000,000 cycles; the last from a shorter run where it would take too long, which is said."""
    took, last = {}, 1
    for cycles in (1, 1_000, 20_000, MOST):
        if cycles > 1_000 and took[last] * cycles / last > asked.most:
            return took | {MOST: took[1] + (took[last] - took[1]) * (MOST - 1) / (last - 1)}, True
        out = room / f"{tool}.{cycles}.trace"
        took[cycles] = min(used(*run(cycles), out=out)[1] for _ in range(1 if cycles == MOST else asked.times))
        same, last = room / f"firsim.{cycles}.trace", cycles
        if same.exists() and out.read_bytes() != same.read_bytes():
            raise SystemExit(f"cycles: the traces of {tool} differ")
    return took, False


def beside_verilog(asked):
    """From text to trace, builds included: seconds of the processors for 1,000 and 1,000,000 cycles, and from how many on another one is quicker."""
    program = str(Path(asked.program).resolve())
    tools = [tool for tool in ("iverilog", "verilator") if shutil.which(tool)]
    for tool in {"iverilog", "verilator"} - {*tools}:
        print(f"cycles: {tool} isn't installed")
    print("seconds of the processors, from text to trace")
    print(f"{'circuit':20}{'by':>12}{'build':>10}{'us a cycle':>12}{'1,000':>10}{'1,000,000':>14}{'quicker from':>16}")
    for name, (circuit, file, defined) in VERILOG.items():
        with tempfile.TemporaryDirectory() as folder:
            room = Path(folder)
            texts, figures = Room(room, False), {}
            for tool in ("firsim", *tools):
                build, run = 0.0, lambda cycles: ([program, "run"], texts.text("text", circuit(), cycles))
                if tool in tools:
                    words, build = builds(tool, room, file, defined, asked.times)
                    run = lambda cycles: (words(cycles), None)
                took, guessed = spans(run, room, tool, asked)
                each = max(took[MOST] - took[1], 0) / (MOST - 1)
                start, about, quicker = build + took[1], "about " * guessed, ""
                figures[tool] = start, each
                if tool in tools:
                    first, own = figures["firsim"]
                    quicker = "never" if each >= own else f"{max(1, (start - first) / (own - each)):,.0f}"
                whole = about + format(build + took[MOST], ".1f")
                print(f"{name:20}{tool:>12}{start:10.3f}{each * 1e6:12.2f}{build + took[1_000]:10.2f}{whole:>14}{quicker:>16}", flush=True)


def main():
    words = argparse.ArgumentParser(usage=re.search(r"usage: (.*?)\n\n", __doc__, re.S)[1])
    words.add_argument("program")
    words.add_argument("other", nargs="?")
    words.add_argument("--circuits", nargs="+", choices=[*CIRCUITS, *INDEXED], default=list(CIRCUITS))
    words.add_argument("--workers", nargs="+", type=int, default=[1, 2, 4])
    words.add_argument("--times", type=int, default=5)
    words.add_argument("--seconds", type=float, default=1)
    words.add_argument("--most", type=float, default=120)
    for flag in ("--clock", "--callgrind", "--verilog"):
        words.add_argument(flag, action="store_true")
    asked = words.parse_args()
    beside_verilog(asked) if asked.verilog else table(asked)


main()
