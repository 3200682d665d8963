"""Prints a table: the microseconds of a cycle of the mesh by 1, 2 and 4 workers, in a model in C (lines.c), where the words of the workers stand
mixed, as the cut leaves them, and where those of one worker stand behind each other. Each figure is the least of five runs that take turns.

usage: lines.py [COMMAND ..], which stands before the model's name, as `chrt -f 50` where the machine has more to do
"""
import subprocess
import sys
import tempfile
from pathlib import Path

WORKERS = (1, 2, 4)
ORDERS = {"mixed": [], "grouped": ["grouped"]}


def main():
    with tempfile.TemporaryDirectory() as folder:
        model = Path(folder) / "lines"
        subprocess.run(["cc", "-O2", "-pthread", "-o", model, Path(__file__).with_suffix(".c")], check=True)
        least = {}
        for _ in range(5):
            for workers in WORKERS:
                for order, words in ORDERS.items():
                    said = subprocess.run([*sys.argv[1:], model, str(workers), "20000", *words], stdout=subprocess.PIPE, check=True).stdout
                    least[workers, order] = min(least.get((workers, order), float("inf")), float(said))
    print(f"{'workers':>8}" + "".join(f"{order:>10}" for order in ORDERS))
    for workers in WORKERS:
        print(f"{workers:8}" + "".join(f"{least[workers, order]:10.1f}" for order in ORDERS))


main()
