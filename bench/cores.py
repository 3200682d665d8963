"""Prints a table: the cycles per second of the cores of examples/rv32 by 1, 2 and 4 workers, by the clock and by the processors' time of all workers
together, while they run the SHA-256 again and again.

usage: cores.py PROGRAM [CYCLES [CYCLES_OF_SEVERAL]]

The first number is the cycles of one worker (300,000), the second those of several (20,000). The start and the cycles of loading are taken off.
"""
import importlib.util
import resource
import subprocess
import sys
import tempfile
import time
from pathlib import Path

FOLDER = Path(__file__).resolve().parent.parent / "examples/rv32"
AGAIN = 0xFF9FF06F  # in place of the ecall at address 8: a jump back to 0


def used(words):
    """Seconds by the clock, and those of the processors, of a command that must not fail."""
    before, began = resource.getrusage(resource.RUSAGE_CHILDREN), time.perf_counter()
    subprocess.run(words, stdout=subprocess.DEVNULL, check=True)
    took, after = time.perf_counter() - began, resource.getrusage(resource.RUSAGE_CHILDREN)
    return took, after.ru_utime + after.ru_stime - before.ru_utime - before.ru_stime


def main():
    program, few, several = sys.argv[1], *(int(word) for word in [*sys.argv[2:], 300_000, 20_000][:2])
    made = importlib.util.spec_from_file_location("image", FOLDER / "image.py")
    image = importlib.util.module_from_spec(made)
    made.loader.exec_module(image)
    words = image.words_of((FOLDER / "programs/sha256.hex").read_text())
    words[2] = AGAIN
    print(f"{'cycles per second of':24}" + "".join(f"{f'{count} workers':>14}{'by cpu':>12}" for count in (1, 2, 4)))
    with tempfile.TemporaryDirectory() as room:
        for core in ("rv32", "rv32_pipe"):
            cells, text = "", Path(room) / "text"
            for count in (1, 2, 4):
                cycles, figures = few if count == 1 else several, []
                for each in (1, cycles):
                    text.write_text((FOLDER / f"{core}.fir").read_text() + "%stimulus\n" + image.stimulus_of(words, each))
                    runs = [used([program, "run", "--workers", str(count), str(text)]) for _ in range(3)]
                    figures.append([min(column) for column in zip(*runs)])
                clock, processors = (max(whole - start, 1e-9) for start, whole in zip(*figures))
                cells += f"{cycles / clock:14,.0f}{cycles / processors:12,.0f}"
            print(f"{core:24}{cells}", flush=True)


if __name__ == "__main__":
    main()
