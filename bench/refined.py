"""Prints tables: of each circuit of a folder the greatest part of its cut and of its refined one by 2, 4 and 8 parts, with the seconds that `refine`
takes beside `cut`; and the cycles per second of runs by both cuts.

usage: refined.py PROGRAM FOLDER
"""
import os
import subprocess
import sys
import tempfile
import time
from pathlib import Path

CYCLES = 100_000


def timed(words, text):
    began = time.perf_counter()
    done = subprocess.run(words, input=text, stdout=subprocess.PIPE, check=True).stdout
    return done.decode(), time.perf_counter() - began


def greatest(listing):
    return max(int(line.split()[5]) for line in listing.splitlines() if line.startswith("partition "))


def rate(program, flags, workers, circuit):
    """Cycles per second, the start taken off."""
    with tempfile.TemporaryDirectory() as folder:
        seconds = []
        for cycles in (1, CYCLES):
            path = Path(folder) / "stimulus"
            path.write_text(f"cycles {cycles}\n")
            began = time.perf_counter()
            subprocess.run([program, "run", "--workers", str(workers), *flags, str(circuit), str(path)], stdout=subprocess.DEVNULL, check=True)
            seconds.append(time.perf_counter() - began)
    return (CYCLES - 1) / (seconds[1] - seconds[0])


def main():
    program, folder = os.path.realpath(sys.argv[1]), Path(sys.argv[2])
    rows = []
    print(f"{'circuit':28} {'parts':>5} {'cut':>8} {'refined':>8} {'cut s':>7} {'refine s':>8}")
    for circuit in sorted(folder.glob("*.fir")):
        text = circuit.read_bytes()
        for parts in (2, 4, 8):
            first, first_took = timed([program, "cut", "--workers", str(parts)], text)
            second, second_took = timed([program, "refine", "--workers", str(parts)], text)
            before, after = greatest(first), greatest(second)
            print(f"{circuit.stem:28} {parts:5} {before:8} {after:8} {first_took:7.2f} {second_took:8.2f}")
            if after < before and parts < 8:
                rows.append((circuit, parts))
    print(f"{'circuit':28} {'parts':>5} {'cut/s':>10} {'refined/s':>10}")
    for circuit, parts in rows:
        plain, refined = (rate(program, flags, parts, circuit) for flags in ([], ["--refine"]))
        print(f"{circuit.stem:28} {parts:5} {plain:10,.0f} {refined:10,.0f}")


main()
