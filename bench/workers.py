"""Prints a table: the cycles per second of runs by 1, 2, 4 and 64 workers, of rings of registers and of a mesh whose cut shares little; and
the processor time that the workers take together.

usage: workers.py PROGRAM
"""
import os
import subprocess
import sys
import tempfile
import time
from pathlib import Path

from circuits import mesh, ring

WORKERS = (1, 2, 4, 64)


def taken(program, text, cycles, workers):
    """The seconds of a run, those of its processors, and what it writes."""
    with tempfile.TemporaryFile() as given:
        given.write(f"{text}%stimulus\ncycles {cycles}\n".encode())
        given.seek(0)
        began = time.perf_counter()
        child = subprocess.Popen([program, "run", "--workers", str(workers)], stdin=given, stdout=subprocess.PIPE)
        written = child.stdout.read()
        _, status, used = os.wait4(child.pid, 0)
        took = time.perf_counter() - began
    assert status == 0, (status, written[:200])
    return took, used.ru_utime + used.ru_stime, written


def main():
    program = str(Path(sys.argv[1]).resolve())
    print(f"processors: {len(os.sched_getaffinity(0))}")
    print(f"{'cycles per second of':36}" + "".join(f"{f'{p} workers':>14}{'cpu s':>7}" for p in WORKERS))
    for meaning, text, few, many in (
        ("a ring of 256 registers", ring(256), 2_000, 300_000),
        ("a ring of 4,096 registers", ring(4_096), 200, 12_000),
        ("a mesh of 1,024 registers", mesh(32, 16), 200, 20_000),
    ):
        cells, traces = "", set()
        for workers in WORKERS:
            # 64 workers take turns, so fewer cycles are enough; what a short run takes is the start
            cycles = many // 3 if workers == 64 else many
            start, _, written = min(taken(program, text, few, workers) for _ in range(2))
            took, processors, _ = taken(program, text, cycles, workers)
            traces.add(written)
            cells += f"{(cycles - few) / max(took - start, 1e-9):14,.0f}{processors:7.1f}"
        assert len(traces) == 1, "the traces differ"
        print(f"{meaning:36}{cells}")


main()
