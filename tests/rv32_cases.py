"""Cases of the cores of examples/rv32: hello and the CRC-32 to their console's text, and instruction by instruction, there and over instructions made at
random, the address and the written register of each, against the model of rv32_model.py; memory and registers at the end; the cycle in which a run
ends; how each trap ends one; and that a run from a state with the program in memory has the rows of the run that loads it.

usage: rv32_cases.py PROGRAM [NAME..]

As a script it compares the runs of these programs of examples/rv32/programs, or of all, by one worker. Used by run_cases.py too, with hello, the CRC-32
and the rest.
"""
import importlib.util
import random
import re
import shutil
import subprocess
import sys
import tempfile
from pathlib import Path

import rv32_model

TOP = Path(__file__).resolve().parent.parent
FOLDER = TOP / "examples/rv32"
CORES = ("rv32", "rv32_pipe")
# Numbers of workers, and how many instructions are made for a run by so many: by several a cycle takes long where they are more than the processors.
WORKERS = ("1", "4")
MADE = (12_500, 150)
PROGRAMS = ("hello", "crc32")
PATIENCE = 300
WATCHED = [f"core.io.retire.{leaf}" for leaf in ("valid", "bits.pc", "bits.rd", "bits.value")]


def script_of(name):
    """A script of the examples, as a module."""
    made = importlib.util.spec_from_file_location(name, FOLDER / f"{name}.py")
    module = importlib.util.module_from_spec(made)
    made.loader.exec_module(module)
    return module


image, console = script_of("image"), script_of("console")


def run(program, words, text, folder=None):
    done = subprocess.run([program, *words], input=text.encode("latin-1"), capture_output=True, timeout=PATIENCE, cwd=folder)
    if done.returncode or done.stderr:
        raise AssertionError(f"{words[0]}: status {done.returncode}, wrote {done.stdout[:200]!r} {done.stderr[:100]!r}")
    return done.stdout.decode("latin-1")


def image_of(name):
    return image.words_of((FOLDER / f"programs/{name}.hex").read_text())


def joined(core, words, cycles):
    return (FOLDER / f"{core}.fir").read_text() + "%stimulus\n" + image.stimulus_of(words, cycles)


def rows_of(dump):
    """The values of a dump's variables in each of its cycles."""
    head, _, body = dump.partition("$enddefinitions $end\n")
    places = {code: place for place, code in enumerate(re.findall(r"\$var wire \d+ (\S+) ", head))}
    row, now = [0] * len(places), 0
    for line in body.splitlines():
        if line[0] == "#":
            for _ in range(now, int(line[1:])):
                yield row
            now = int(line[1:])
        elif line[0] == "b":
            bits, code = line[1:].split(" ")
            row[places[code]] = int(bits, 2)
        else:
            row[places[line[1:]]] = int(line[0])


def reads(inst):
    """The registers that an instruction reads."""
    opcode, first, second = inst & 0x7F, inst >> 15 & 31, inst >> 20 & 31
    if inst == 0x73:
        return {10}
    return {first, second} if opcode in (0x63, 0x23, 0x33) else {first} if opcode in (0x67, 0x03, 0x13) else set()


def last_cycle(core, words, steps, end):
    """The cycle in which a run ends: with a pipeline of five stages an instruction waits a cycle for what the one before it loads, and a taken branch or
    a jump costs one."""
    loaded = sum(word != 0 for word in words)
    if core == "rv32":
        return loaded + len(steps)
    lost, pcs = 0, [pc for pc, _, _ in steps] + [end[2]]
    for (pc, rd, _), after in zip(steps, pcs[1:]):
        inst, following = words[pc // 4], words[after // 4] if after // 4 < len(words) else 0
        lost += after != pc + 4 or inst & 0x7F in (0x6F, 0x67)
        lost += inst & 0x7F == 0x03 and rd in reads(following) - {0}
    return loaded + 4 + len(steps) + lost


def other_steps(program, core, words, workers):
    """Why the instructions that a core retires aren't the model's, step by step, or by one worker what memory and registers hold in the end; or none."""
    machine, steps, end = rv32_model.ran(words)
    text = joined(core, words, last_cycle(core, words, steps, end) + 5)
    retired = [tuple(row[1:]) for row in rows_of(run(program, ["vcd", "--workers", workers, "-", *WATCHED], text)) if row[0]]
    for number, (own, told) in enumerate(zip(steps, retired)):
        if own != told:
            return f"step {number}: pc, register and value {told}, not {own}"
    if len(steps) != len(retired):
        return f"{len(retired)} steps, not {len(steps)}"
    if workers != "1":
        return None
    state = run(program, ["save", "-"], text)
    memory = bytes(int(value) for value in re.findall(r"(?m)^mem ram\.bytes\[.*\]\[.\] (\d+)$", state))
    registers = [int(value) for value in re.findall(r"(?m)^mem core\.registers\.x\[.*\] (\d+)$", state)]
    if memory != machine.memory or registers != machine.x:
        return f"the memory is {'' if memory == machine.memory else 'not '}the model's, the registers are {registers}, not {machine.x}"
    return None


def wanted_log(core, words, most=1_000_000):
    """What a core prints, and its last line."""
    machine, steps, end = rv32_model.ran(words, most)
    text, code = rv32_model.log_of(machine, end)
    cycle = last_cycle(core, words, steps, end)
    return text + ("\n" if text and not text.endswith("\n") else "") + f"stopped {cycle} {code}\n", cycle


def other_log(program, core, words, workers, host=None):
    """Why a core's log isn't what the model's console was told, or by one worker its trace tells another text; or none. What is told is what the host
    printed, if that is given."""
    wanted, cycle = wanted_log(core, words)
    if host is not None and wanted.rpartition("stopped")[0] != host:
        return f"the model prints {wanted[:200]!r}, not {host[:200]!r}"
    text = joined(core, words, cycle + 3)
    if workers == "1":
        told = console.log_of(run(program, ["run"], text).splitlines())
        if told != wanted:
            return f"the trace tells {told[-200:]!r}, not {wanted[-200:]!r}"
    told = run(program, ["log", "--workers", workers], text)
    return None if told == wanted else f"the log is {told[-200:]!r}, not {wanted[-200:]!r}"


def other_rows(program, core, words, cycles, workers):
    """Why a run from a state with the program in memory hasn't the rows of the run that loads it; or none."""
    text = joined(core, words, cycles)
    loaded = sum(word != 0 for word in words)
    whole = run(program, ["run", "--workers", workers], text).splitlines()
    circuit = (FOLDER / f"{core}.fir").read_text()
    with tempfile.TemporaryDirectory() as folder:
        (Path(folder) / "state").write_text(image.state_of(image.first_state(circuit, program), words))
        rows = run(program, ["resume", "--workers", workers, "-", "state"], f"{circuit}%stimulus\ncycles {cycles}\n", folder).splitlines()
    at = next((k for k, (own, other) in enumerate(zip(rows[1:], whole[1 + loaded :])) if own != other), None)
    return None if at is None and len(rows) == cycles + 1 else f"row {at} of {len(rows)} isn't that of the run which loads it"


# Made instructions. Operands are edges or any numbers; branches and jumps go forward, so each program ends.

EDGES = (0, 1, 2, 31, 32, 0x7FF, 0x800, 0x7FFF, 0x8000, 0xFFFF, 0x7FFFFFFF, 0x80000000, 0x80000001, 0xFFFFFFFE, 0xFFFFFFFF)
DATA = 0xF000


def register_form(funct7, rs2, rs1, funct3, rd, opcode=0x33):
    return funct7 << 25 | rs2 << 20 | rs1 << 15 | funct3 << 12 | rd << 7 | opcode


def immediate_form(immediate, rs1, funct3, rd, opcode):
    return (immediate & 0xFFF) << 20 | rs1 << 15 | funct3 << 12 | rd << 7 | opcode


def store_form(immediate, rs2, rs1, funct3):
    return (immediate >> 5 & 0x7F) << 25 | rs2 << 20 | rs1 << 15 | funct3 << 12 | (immediate & 31) << 7 | 0x23


def branch_form(offset, rs2, rs1, funct3):
    return (offset >> 12 & 1) << 31 | (offset >> 5 & 0x3F) << 25 | rs2 << 20 | rs1 << 15 | funct3 << 12 | (offset >> 1 & 15) << 8 | (offset >> 11 & 1) << 7 | 0x63


def jump_form(offset, rd):
    return (offset >> 20 & 1) << 31 | (offset >> 1 & 0x3FF) << 21 | (offset >> 11 & 1) << 20 | (offset >> 12 & 0xFF) << 12 | rd << 7 | 0x6F


def constant(rd, value):
    """Two instructions that put a value into a register."""
    return [((value + 0x800) & 0xFFFFF000) | rd << 7 | 0x37, immediate_form(value, rd, 0, rd, 0x13)]


def made_instruction(chance, recent):
    """What makes an instruction, or two, given how far the one to jump to is; how many it makes; the register that it writes; whether it may jump."""

    def source():
        return chance.choice(recent) if chance.random() < 0.6 else chance.randrange(32)

    rd, first, second, kind = chance.randrange(30), source(), source(), chance.random()
    if kind < 0.12:
        value = chance.choice(EDGES) if chance.random() < 0.6 else chance.getrandbits(32)
        return lambda _: constant(rd, value), 2, rd, False
    if kind < 0.40:
        funct7, funct3 = chance.choice(sorted(rv32_model.COMPUTED))
        return lambda _: [register_form(funct7, second, first, funct3, rd)], 1, rd, False
    if kind < 0.55:
        funct3 = chance.randrange(8)
        other = chance.choice((0, 0x20)) if funct3 == 5 else 0
        immediate = other << 5 | chance.randrange(32) if funct3 in (1, 5) else chance.getrandbits(12)
        return lambda _: [immediate_form(immediate, first, funct3, rd, 0x13)], 1, rd, False
    if kind < 0.60:
        inst = chance.getrandbits(20) << 12 | rd << 7 | chance.choice((0x17, 0x37))
        return lambda _: [inst], 1, rd, False
    if kind < 0.85:
        funct3 = chance.choice((0, 1, 2, 4, 5)) if kind < 0.75 else chance.randrange(3)
        place = chance.randrange(-64, 64) >> (funct3 & 3) << (funct3 & 3)
        if kind < 0.75:
            return lambda _: [immediate_form(place, 31, funct3, rd, 0x03)], 1, rd, False
        return lambda _: [store_form(place, second, 31, funct3)], 1, 0, False
    if kind < 0.95:
        funct3 = chance.choice(sorted(rv32_model.BRANCHES))
        return lambda offset: [branch_form(offset, second, first, funct3)], 1, 0, True
    if kind < 0.97:
        return lambda offset: [jump_form(offset, rd)], 1, rd, True
    if kind < 0.98:
        fence = 0x0000000F | chance.getrandbits(8) << 20
        return lambda _: [fence], 1, 0, False
    # AUIPC and JALR; the lowest bit of a target doesn't count.
    odd = chance.randrange(2)
    return lambda offset: [30 << 7 | 0x17, immediate_form(offset + odd, 30, 0, rd, 0x67)], 2, rd, True


def made_program(seed, count):
    """First values, so many made instructions, and an `ecall` with the code 0. A jump goes over at most five of the items that are made."""
    chance, recent, made, length = random.Random(seed), [1, 2], [], 0
    words = constant(31, DATA)
    for register in range(1, 31):
        words += constant(register, chance.choice(EDGES) if register % 2 else chance.getrandbits(32))
    while length < count:
        made.append(made_instruction(chance, recent))
        recent = [recent[-1], made[-1][2]]
        length += made[-1][1]
    for number, (make, _, _, jumps) in enumerate(made):
        over = chance.randrange(6) if jumps else 0
        words += make(4 * sum(item[1] for item in made[number : number + 1 + over]))
    return words + constant(10, 0) + [0x73]


def traps():
    """Programs that end in another way than by an `ecall` with the code 0, each behind some instructions that count."""
    start = [*constant(5, 0x1234567), immediate_form(7, 5, 0, 6, 0x13)]
    chance = random.Random(66)
    for code in (1, 2, 77, 0xFFFFFFFF):
        yield f"ecall with the code {code}", start + constant(10, code) + [0x73]
    yield "ebreak", start + [0x00100073]
    yield "a jump to an address that isn't a multiple of 4", start + [jump_form(6, 1)]
    yield "a jump through a register to such an address", start + [*constant(7, 0x22), immediate_form(1, 7, 0, 1, 0x67)]
    yield "a taken branch to such an address", start + [branch_form(10, 6, 5, 1)]
    yield "a branch to such an address that isn't taken", start + [branch_form(10, 6, 5, 0), 0x73]
    for funct3, count in ((1, 2), (2, 4), (5, 2)):
        for offset in range(1, count):
            yield f"a load of {count} bytes at {offset}, of kind {funct3}", start + [immediate_form(offset, 0, funct3, 7, 0x03)]
            yield f"a store of {count} bytes at {offset}, of kind {funct3}", start + [store_form(offset, 5, 0, funct3 & 3)]
    for address in (0x10000, 0xFFFFFFFC, 0x0FFFFFFC, 0x10000004):
        yield f"a load from {address:#x}", start + constant(7, address) + [immediate_form(0, 7, 2, 8, 0x03)]
        yield f"a store at {address:#x}", start + constant(7, address) + [store_form(0, 5, 7, 2)]
    yield "a load from the console", start + constant(7, rv32_model.CONSOLE) + [immediate_form(0, 7, 0, 8, 0x03)]
    for funct3 in range(3):
        character = constant(7, rv32_model.CONSOLE) + [*constant(8, 0x12345641), store_form(0, 8, 7, funct3)]
        yield f"a character by a store of kind {funct3}, and a trap", start + character + [0]
    yield "a jump behind the memory", start + constant(7, 0x10000) + [immediate_form(0, 7, 0, 1, 0x67)]
    yield "stores behind a trap count for nothing", start + [0x00100073, store_form(0, 5, 0, 2), *constant(7, rv32_model.CONSOLE), store_form(0, 7, 7, 0)]
    illegal = [0, 0xFFFFFFFF, 0x00000073 | 1 << 7, 0x00200073, 0x30200073, 0x10500073, 0x0000100F, 0x00000001]
    illegal += [immediate_form(0, 1, 3, 1, 0x03), immediate_form(0, 1, 6, 1, 0x03), immediate_form(0, 1, 7, 1, 0x03), store_form(0, 1, 0, 3), store_form(0, 1, 0, 7)]
    illegal += [branch_form(8, 0, 0, 2), branch_form(8, 0, 0, 3), immediate_form(8, 1, 1, 1, 0x67), immediate_form(0x20, 1, 1, 1, 0x13), immediate_form(0x820, 1, 5, 1, 0x13)]
    illegal += [register_form(0x20, 1, 2, funct3, 3) for funct3 in (1, 2, 3, 4, 6, 7)] + [register_form(funct7, 1, 2, 0, 3) for funct7 in (2, 0x21, 0x40)]
    illegal += [chance.getrandbits(25) << 7 | opcode for opcode in (0x07, 0x1B, 0x27, 0x2F, 0x3B, 0x43, 0x53, 0x57, 0x5B, 0x6B, 0x77, 0x7B, 0x0B, 0x12)]
    for inst in illegal:
        yield f"the illegal instruction {inst:08x}", start + [inst]


def many_traps(program, core):
    """The first trap that a core tells in another way than the model, or behind which it goes on; or none. `run` tells it, so that a trap costs one run."""
    for name, words in traps():
        wanted, cycle = wanted_log(core, words)
        trace = run(program, ["run"], joined(core, words, cycle + 20)).splitlines()
        told = console.log_of(trace)
        if told.rpartition("stopped")[0] != wanted.rpartition("stopped")[0] or told.split()[-1] != wanted.split()[-1]:
            return f"{name}: {told!r}, not {wanted!r}"
        column = trace[0].split().index("io.exit.valid")
        ends = [line.split()[0] for line in trace[1:] if line.split()[column] == "1"]
        later = run(program, ["vcd", "-", "core.io.store.valid", *WATCHED[:1], "io.console.valid"], joined(core, words, cycle + 20))
        if len(ends) != 1 or any(any(row) for row in [*rows_of(later)][int(ends[0]) + 1 :]):
            return f"{name}: it goes on behind its end in cycle {ends}"
    return None


def fault(check, *words):
    try:
        return check(*words)
    except (AssertionError, subprocess.TimeoutExpired) as error:
        return str(error)


def program_faults(program, name, workers):
    """The cases of a program of the examples, each as a name and why it failed, or none."""
    words, host = image_of(name), (FOLDER / f"programs/{name}.text").read_text("latin-1")
    for core in CORES:
        for count in workers:
            yield f"{name} on {core} by {count} workers, its console", fault(other_log, program, core, words, count, host)
        yield f"{name} on {core}, each instruction", fault(other_steps, program, core, words, "1")


def other_page(program):
    """Why the commands of docs/RV32.md, run as they stand there, don't write what the page shows; or none. Where the compiler isn't installed, or is
    another one that makes another image, the image that comes with the repository stands in its place."""
    blocks = re.findall(r"^```(\w*)\n(.*?)```", (TOP / "docs/RV32.md").read_text(), re.M | re.S)
    shown = (FOLDER / "programs/hello.c").read_text().partition("\n")[2]
    if blocks[0] != ("c", shown):
        return "it doesn't show hello.c"
    with tempfile.TemporaryDirectory() as room:
        for name, path in (("examples", TOP / "examples"), ("wave", TOP / "wave"), ("firsim", program)):
            (Path(room) / name).symlink_to(path)
        own = Path(room) / "hello.hex"
        for number, (kind, text) in enumerate(blocks):
            if kind != "sh":
                continue
            if "programs/build" in text:
                before, build, behind = re.fullmatch(r"(.*?\n)([^\n]*/build [^\n]*\n)(.*)", text, re.S).groups()
                if shutil.which("riscv64-unknown-elf-gcc"):
                    subprocess.run(["bash", "-eu", "-c", before + build], cwd=room, capture_output=True, timeout=PATIENCE, check=True)
                if not own.exists() or own.read_bytes() != (FOLDER / "programs/hello.hex").read_bytes():
                    shutil.copy(FOLDER / "programs/hello.hex", own)
                text = before + behind
            done = subprocess.run(["bash", "-euo", "pipefail", "-c", text], cwd=room, capture_output=True, text=True, timeout=PATIENCE)
            wanted = blocks[number + 1][1] if number + 1 < len(blocks) and blocks[number + 1][0] == "" else ""
            if done.returncode or done.stderr or done.stdout != wanted:
                return f"{text[:60]!r}..: status {done.returncode}, {done.stdout[-200:]!r} {done.stderr[-200:]!r}, not {wanted!r}"
        picture = (Path(room) / "pipeline.svg").read_bytes()
        return None if picture == (TOP / "docs/rv32-pipeline.svg").read_bytes() else "the wave isn't docs/rv32-pipeline.svg"


def faults(program):
    done = subprocess.run([sys.executable, FOLDER / "make_cores.py", "--check"], capture_output=True, text=True)
    yield "the cores are those that make_cores.py writes", done.stderr or None
    for name in PROGRAMS:
        yield from program_faults(program, name, WORKERS)
    for core in CORES:
        for count, made in zip(WORKERS, MADE):
            yield f"{made:,} made instructions on {core} by {count} workers", fault(other_steps, program, core, made_program(made, made), count)
        yield f"hello on {core} from a state", fault(other_rows, program, core, image_of("hello"), 400, "1")
        yield f"traps of {core}", fault(many_traps, program, core)
    yield "the commands of docs/RV32.md", fault(other_page, program)


def main():
    program, names = sys.argv[1], sys.argv[2:] or sorted(path.stem for path in (FOLDER / "programs").glob("*.hex"))
    told = []
    for name in names:
        for case in program_faults(str(Path(program).resolve()), name, WORKERS[:1]):
            told.append(case)
            print(f"FAILED {case[0]}: {case[1]}" if case[1] else f"passed {case[0]}", flush=True)
    failed = sum(why is not None for _, why in told)
    print(f"{len(told) - failed} passed, {failed} failed")
    sys.exit(1 if failed else 0)


if __name__ == "__main__":
    main()
