"""Prints a table: where the machine instructions of `check` go (callgrind), in hundredths, for texts of a megabyte; those of taking and giving back
memory, which all stages do, stand in a row of their own. Functions are told by their names in the program, so one that was renamed is missing.

usage: stages.py PROGRAM
"""
import os
import random
import re
import subprocess
import sys
import tempfile
from collections import Counter, defaultdict
from pathlib import Path

from circuits import mesh
from runs import dense, wide

STAGES = {
    "reading the text": ("fir_lexer::pieces::piece", "fir_parser::parser::read_text", "line_stmts::modules::stand", "Reader::index_lines"),
    "names and types": ("fir_names::walk::walk_statements", "fir_names::gather::push_twice", "type_check::walk::walk_statements"),
    "sizes": ("size_check::measuring::flat_measure",),
    "rules of widths": ("width_solver::walk::walk_statements", "width_gathering::walk::walk_statements"),
    "least widths": ("width_solver::solving::least_widths",),
    "types with these widths": ("width_fit::telling::tell",),
    "driven leaves and clocks": ("drive_check::walk::walk_block", "ModuleTypes::new", "drive_check::names::names_of", "one_clock::checking::find"),
    "ground statements": ("lower_aggregates::lowering::lower_modules",),
    "drivers, the flat circuit, an order": ("sim_engine::passing::order_lowered",),
    "memory, within all of these": ("rattle_alloc", "rattle_realloc", "rattle_dealloc"),
}
MODULES, STATEMENTS = 40, 220


def modules():
    """Modules as Chisel writes them: operations with infos, branches, registers that are reset, and one module that has them all in a chain."""
    dice, text = random.Random(1), ["FIRRTL version 3.0.0", "circuit Top :"]

    def head(name, top):
        text.append(f"  {'public ' * top}module {name} :")
        text.extend(f"    {line}" for line in ("input clock : Clock", "input reset : UInt<1>"))
        text.extend(f"    {way} io_{port} : UInt<32>" for way, port in (("input", "a"), ("input", "b"), ("output", "o")))

    for module in range(MODULES):
        head(f"Mod{module}", False)
        names, registers = ["io_a", "io_b"], []

        def pick():
            return dice.choice(names)

        for k in range(STATEMENTS):
            at = f"@[Mod.scala {k}:31]"
            kind = dice.randrange(5) if registers else 0
            if kind == 0:
                text.append(f"    regreset r{k} : UInt<32>, clock, reset, UInt<32>(0h0) {at}")
                registers.append(f"r{k}")
                names.append(f"r{k}")
            elif kind == 1:
                text.extend((f"    node _T_{k} = add({pick()}, {pick()}) {at}", f"    node _T_{k}_1 = tail(_T_{k}, 1) {at}"))
                names.append(f"_T_{k}_1")
            elif kind == 2:
                text.extend((f"    node _T_{k} = eq({pick()}, {pick()}) {at}", f"    when _T_{k} : {at}"))
                text.extend((f"      connect {dice.choice(registers)}, {pick()} {at}", "    else :"))
                text.append(f"      connect {dice.choice(registers)}, {pick()} {at}")
            elif kind == 3:
                text.append(f"    node _T_{k} = mux(bits({pick()}, 3, 3), xor({pick()}, {pick()}), {pick()}) {at}")
                names.append(f"_T_{k}")
            else:
                text.extend((f"    wire w{k} : UInt<32> {at}", f"    connect w{k}, and({pick()}, UInt<32>(0hff)) {at}"))
                names.append(f"w{k}")
        text.append(f"    connect io_o, {names[-1]}")
    head("Top", True)
    last = "io_a"
    for k in range(MODULES):
        text.append(f"    inst m{k} of Mod{k} @[Top.scala {k}:12]")
        text.extend(f"    connect m{k}.{port}, {source}" for port, source in (("clock", "clock"), ("reset", "reset"), ("io_a", last), ("io_b", "io_b")))
        last = f"m{k}.io_o"
    return "\n".join([*text, f"    connect io_o, {last}", ""])


def costs(path):
    """By function its own instructions, and by caller and callee those of the calls, from what callgrind writes."""
    names, own, calls = {}, Counter(), defaultdict(int)

    def named(word):
        number, name = re.match(r"\((\d+)\)(?: (.*))?$", word).groups()
        return names.setdefault(number, name)

    caller = callee = None
    called = False
    for line in Path(path).read_text().splitlines():
        if line.startswith("fn="):
            caller = named(line[3:])
        elif line.startswith("cfn="):
            callee = named(line[4:])
        elif line.startswith("calls="):
            called = True
        elif line[:1].isdigit() or line[:1] in tuple("+-*"):
            count = int(line.split()[1])
            if called:
                calls[caller, callee] += count
            else:
                own[caller] += count
            called = False
    return own, calls


def shares(program, text, folder):
    """All machine instructions, and the hundredths of each stage."""
    given, out = Path(folder) / "text", Path(folder) / "out"
    given.write_text(text)
    words = ["valgrind", "--tool=callgrind", f"--callgrind-out-file={out}", program, "check", given]
    subprocess.run(words, stdout=subprocess.DEVNULL, stderr=subprocess.DEVNULL, check=True)
    own, calls = costs(out)
    whole, found = sum(own.values()), {}
    for stage, functions in STAGES.items():
        reached = sum(count for (_, callee), count in calls.items() if callee.endswith(functions))
        found[stage] = 100 * reached / whole
    return whole, found


def main():
    program = os.path.realpath(sys.argv[1])
    texts = {"nodes": dense(30_000), "wires": wide(60_000), "mesh": mesh(32, 16), "modules": modules()}
    with tempfile.TemporaryDirectory() as folder:
        columns = [shares(program, text, folder) for text in texts.values()]
    print(f"{'':40}" + "".join(f"{name:>12}" for name in texts))
    print(f"{'bytes':40}" + "".join(f"{len(text):12,}" for text in texts.values()))
    print(f"{'machine instructions, millions':40}" + "".join(f"{whole / 1e6:12,.0f}" for whole, _ in columns))
    for stage in STAGES:
        print(f"{stage:40}" + "".join(f"{found[stage]:12.0f}" for _, found in columns))


main()
