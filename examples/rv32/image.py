#!/usr/bin/env python3
"""Makes a program's image into what a core takes: a stimulus that loads it while the core is held in reset, or a state with it in memory.

usage: image.py stimulus IMAGE CYCLES
       image.py joined CIRCUIT IMAGE CYCLES
       image.py state CIRCUIT IMAGE [--program PROGRAM]

An image has a word of eight hexadecimal digits a line, from address 0 on; what is behind it is 0. The stimulus loads a word a cycle, and then lets the
core run for CYCLES cycles, less those that loading took where all together would pass 1,000,000. `joined` writes the circuit, the line `%stimulus` and
the stimulus in one text, as `log`, `vcd`, `save` and `resume` read it.

The state is that of the circuit before its first cycle, as `save` writes it, with the image's bytes in the lines of the memory and with the number of
cycles that loading takes: a run from it has the rows that the run of the stimulus has behind these cycles. PROGRAM is run in place of ./firsim.
"""
import argparse
import re
import subprocess
import sys
from pathlib import Path

TOP = Path(__file__).resolve().parent.parent.parent
WORDS, MOST = 16_384, 1_000_000


def words_of(image):
    """The words of an image's text."""
    words = [int(line, 16) for line in image.split()]
    if len(words) > WORDS or any(word >> 32 for word in words):
        raise ValueError("an image has at most 16,384 words of 32 bits")
    return words


def stimulus_of(words, cycles):
    """The stimulus that loads these words, those of 0 left out, and then runs."""
    loaded = [(address, word) for address, word in enumerate(words) if word]
    lines = [f"cycles {min(len(loaded) + cycles, MOST)}", "0 reset 1"]
    for cycle, (address, word) in enumerate(loaded):
        lines += ["0 io.load.valid 1"] if cycle == 0 else []
        lines += [f"{cycle} io.load.bits.address {address}", f"{cycle} io.load.bits.data 0h{word:08x}"]
    lines += [f"{len(loaded)} reset 0"] + ([f"{len(loaded)} io.load.valid 0"] if loaded else [])
    return "\n".join(lines) + "\n"


def state_of(first, words):
    """The state with these words in memory, made of the state before the first cycle."""
    bytes_ = b"".join(word.to_bytes(4, "little") for word in words)

    def filled(found):
        at = 4 * int(found[2]) + int(found[3])
        return f"{found[1]} {bytes_[at] if at < len(bytes_) else 0}"

    text = re.sub(r"(?m)^(mem ram\.bytes\[(\d+)\]\[(\d+)\]) 0$", filled, first)
    return text.replace("state 0\n", f"state {sum(word != 0 for word in words)}\n", 1)


def first_state(circuit, program):
    """The state of a circuit before its first cycle."""
    text = circuit + "%stimulus\ncycles 0\n"
    return subprocess.run([program, "save", "-"], input=text, capture_output=True, text=True, check=True).stdout


def main():
    parser = argparse.ArgumentParser(add_help=False)
    parser.error = lambda _: sys.exit(__doc__.split("\n\n")[1])
    commands = parser.add_subparsers(dest="made", required=True)
    for made, names in (("stimulus", ("image", "cycles")), ("joined", ("circuit", "image", "cycles")), ("state", ("circuit", "image"))):
        command = commands.add_parser(made, add_help=False)
        for name in names:
            command.add_argument(name, type=int if name == "cycles" else Path)
        command.add_argument("--program", default=TOP / "firsim")
    asked = parser.parse_args()
    words = words_of(asked.image.read_text())
    if asked.made == "state":
        sys.stdout.write(state_of(first_state(asked.circuit.read_text(), asked.program), words))
        return
    if asked.made == "joined":
        sys.stdout.write(asked.circuit.read_text() + "%stimulus\n")
    sys.stdout.write(stimulus_of(words, asked.cycles))


if __name__ == "__main__":
    main()
