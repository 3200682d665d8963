#!/usr/bin/env python3
"""Prints what a core's console says in the trace that comes on standard input, and a last line, as `log` does: `stopped CYCLE CODE` or `ended CYCLES`.

usage: ./firsim run .. | console.py
"""
import sys

VALID, BITS, ENDS, CODE, VALUE = ("io.console.valid", "io.console.bits", "io.exit.valid", "io.exit.bits.code", "io.exit.bits.value")
PC = "io.exit.bits.pc"
TOLD = {2: "illegal instruction", 3: "misaligned address of", 4: "no memory for", 5: "breakpoint"}


def log_of(lines):
    """The log of a trace's lines."""
    lines = iter(lines)
    names = next(lines, "").split()
    places = {name: place for place, name in enumerate(names)}
    valid, bits, ends, code, value, pc = (places[name] for name in (VALID, BITS, ENDS, CODE, VALUE, PC))
    printed, cycle = [], -1
    for line in lines:
        row = line.split()
        cycle = int(row[0])
        if row[valid] == "1":
            printed.append(chr(int(row[bits]) % 256))
        if row[ends] == "1":
            ended, number = int(row[code]), int(row[value])
            if ended == 0 and number:
                printed.append(f"exit {number}\n")
            elif ended:
                printed.append(f"{TOLD[ended]} {number:x} at {int(row[pc]):x}\n")
            last = f"stopped {cycle} {ended or int(number != 0)}\n"
            break
    else:
        last = f"ended {cycle + 1}\n"
    text = "".join(printed)
    return text + ("\n" if text and not text.endswith("\n") else "") + last


if __name__ == "__main__":
    try:
        sys.stdout.buffer.write(log_of(sys.stdin).encode("latin-1"))
        for _ in sys.stdin:  # so that the simulator can write all of it
            pass
    except (KeyError, IndexError, ValueError):
        sys.exit("console: what came isn't the trace of a core")
