"""Compares the model of rv32_model.py with qemu-riscv32 (Debian: qemu-user) over instructions made at random: the address and all registers before each.

usage: rv32_qemu.py [SEED..]

It is no part of tests/run, since it needs QEMU. A program of some 10,000 instructions is made for each seed (1, 2, 3). QEMU runs it as a process for Linux, from
address 0x10000 on, which is within the memory that the model has here; both begin with QEMU's first registers.
"""
import re
import struct
import subprocess
import sys
import tempfile
from pathlib import Path

import rv32_cases
import rv32_model

BASE, SIZE, COUNT = 0x10000, 0x20000, 12_000


def executable(code):
    """An ELF file for Linux with one part, which may be read, written and run."""
    head = struct.pack("<16sHHIIIIIHHHHHH", b"\x7fELF\x01\x01\x01", 2, 243, 1, BASE, 52, 0, 0, 52, 32, 1, 0, 0, 0)
    part = struct.pack("<IIIIIIII", 1, 0x1000, BASE, BASE, len(code), len(code), 7, 0x1000)
    return (head + part).ljust(0x1000, b"\0") + code


def states(folder, code):
    """The address and the registers before each instruction, as QEMU tells them."""
    (folder / "program").write_bytes(executable(code))
    (folder / "program").chmod(0o755)
    subprocess.run(["qemu-riscv32", "-singlestep", "-d", "cpu,nochain", "-D", folder / "log", folder / "program"], check=True, timeout=300)
    for block in (folder / "log").read_text().split(" pc ")[1:]:
        yield int(block.split()[0], 16), [int(value, 16) for value in re.findall(r"x\d+/\w+\s+([0-9a-f]{8})", block)]


def compared(seed):
    """How many instructions are the same, and where the first other one is, or none."""
    words = rv32_cases.made_program(seed, COUNT)[:-3]
    words += rv32_cases.constant(10, 0) + rv32_cases.constant(17, 93) + [0x73]  # exit(0) of Linux
    code = b"".join(word.to_bytes(4, "little") for word in words).ljust(SIZE - BASE, b"\0")
    machine = rv32_model.Machine([])
    machine.memory[BASE:SIZE] = code
    with tempfile.TemporaryDirectory() as folder:
        for number, (pc, registers) in enumerate(states(Path(folder), code)):
            if number == 0:
                machine.pc, machine.x = BASE, registers
            if (pc, registers) != (machine.pc, machine.x):
                return number, f"at {pc:#x} {registers}, not at {machine.pc:#x} {machine.x}"
            try:
                machine.step()
            except rv32_model.Ended as end:
                return number, None if end.args[0] == rv32_model.ECALL else f"ended by {end.args}"
    return number, "QEMU ends before"


def main():
    rv32_model.SIZE, rv32_cases.DATA = SIZE, 0x1F000
    failed = 0
    for seed in [int(word) for word in sys.argv[1:]] or [1, 2, 3]:
        count, why = compared(seed)
        failed += why is not None
        print(f"seed {seed}: {count:,} instructions are the same" + (f", and then {why}" if why else ""))
    sys.exit(1 if failed else 0)


main()
