"""Prints a table: the time and the peak memory of `vcd` with many variables, beside `run` of the same text; and the time in which as many named leaves
are found.

usage: dumps.py PROGRAM
"""
import os
import subprocess
import sys
import tempfile
import time

FRONT = "FIRRTL version 3.0.0\ncircuit M :\n  module M :\n    input clock : Clock\n"


def counters(count, cycles, moving):
    """So many registers, of which so many change in each cycle, under a stimulus of so many cycles; and their names."""
    rest = count - moving
    body = f"    reg v : UInt<8>[{rest}], clock\n" if rest else ""
    body += "".join(f"    reg r{k} : UInt<8>, clock\n    connect r{k}, tail(add(r{k}, UInt<8>(1)), 1)\n" for k in range(moving))
    return FRONT + body + f"%stimulus\ncycles {cycles}\n", [f"v[{k}]" for k in range(rest)] + [f"r{k}" for k in range(moving)]


def measured(program, words, text):
    """Seconds, peak memory in bytes, bytes that were written, and the status."""
    with tempfile.TemporaryDirectory() as folder:
        path = os.path.join(folder, "text")
        with open(path, "w") as file:
            file.write(text)
        with open(os.path.join(folder, "out"), "wb") as out:
            began = time.perf_counter()
            process = subprocess.Popen([program, *(path if word == "TEXT" else word for word in words)], stdout=out)
            _, status, use = os.wait4(process.pid, 0)
            took = time.perf_counter() - began
            return took, use.ru_maxrss * 1024, os.stat(out.name).st_size, os.waitstatus_to_exitcode(status)


def main():
    program = os.path.realpath(sys.argv[1])
    print(f"{'dump':58} {'seconds':>8} {'MB':>6} {'bytes':>12} status")
    for count, cycles, moving, workers in ((65_535, 0, 10, 1), (65_535, 1000, 10, 1), (65_535, 1000, 10, 4), (65_535, 1000, 1000, 1), (32_768, 1000, 10, 1), (1_000, 1000, 1000, 1)):
        text, names = counters(count, cycles, moving)
        for meaning, words in ((f"{count:,} named leaves", ["vcd", "--workers", str(workers), "TEXT", *names]), ("run, the same text", ["run", "--workers", str(workers), "TEXT"])):
            took, peak, size, status = measured(program, words, text)
            print(f"{meaning + f', {cycles:,} cycles, {moving:,} change, {workers} workers':58} {took:8.2f} {peak / 1e6:6.0f} {size:12,} {status}")


main()
