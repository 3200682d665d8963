"""Circuits for timings: they have no input but the clock, so that a stimulus says the number of cycles alone, and one output that never stands still.

Used by cycles.py and workers.py.
"""
from pathlib import Path

FRONT = "FIRRTL version 3.0.0\ncircuit M :\n  module M :\n    input clock : Clock\n    output out : UInt<32>\n"
# Noise from a register that begins at 0: a shift register of 32 bits, fed back by a sum that is turned round.
NOISE = """
reg noise : UInt<32>, clock
node fed = not(xor(xor(bits(noise, 31, 31), bits(noise, 21, 21)), xor(bits(noise, 1, 1), bits(noise, 0, 0))))
connect noise, cat(bits(noise, 30, 0), fed)
"""


def circuit(text):
    return FRONT + "".join(f"    {line}\n" for line in text.strip("\n").splitlines())


def ring(count):
    """A ring of registers, each the sum of the one before and its number, whose sum is watched."""
    lines = [f"reg r{k} : UInt<32>, clock" for k in range(count)]
    lines += [f"connect r{k}, tail(add(r{(k or count) - 1}, UInt<32>({k})), 1)" for k in range(count)]
    lines += ["node s0 = r0"] + [f"node s{k} = tail(add(s{k - 1}, r{k}), 1)" for k in range(1, count)]
    return circuit("\n".join([*lines, f"connect out, s{count - 1}"]))


def mesh(side, rounds):
    """A mesh of registers, each of which mixes its own value with those of two neighbours in so many rounds; one of them is watched."""
    lines = [f"reg r{k} : UInt<32>, clock" for k in range(side * side)]
    for k in range(side * side):
        row, column = divmod(k, side)
        left, above = row * side + (column - 1) % side, (row - 1) % side * side + column
        lines.append(f"node m{k}x0 = tail(add(r{k}, r{left}), 1)")
        for i in range(1, rounds):
            other = f"r{above}" if i % 2 else f"UInt<32>({k + i})"
            step = f"xor(m{k}x{i - 1}, {other})" if i % 2 else f"tail(add(m{k}x{i - 1}, {other}), 1)"
            lines.append(f"node m{k}x{i} = {step}")
        lines.append(f"connect r{k}, m{k}x{rounds - 1}")
    return circuit("\n".join([*lines, f"connect out, r{side * side - 1}"]))


def counter():
    return circuit("reg r : UInt<32>, clock\nconnect r, tail(add(r, UInt<32>(1)), 1)\nconnect out, r")


def gcd():
    """The greatest common divisor of pairs of noise, one pair after the other."""
    return circuit(
        NOISE
        + """
reg x : UInt<16>, clock
reg y : UInt<16>, clock
when eq(y, UInt<16>(0)) :
  connect x, or(bits(noise, 15, 0), UInt<16>(1))
  connect y, bits(noise, 31, 16)
else when gt(x, y) :
  connect x, tail(sub(x, y), 1)
else :
  connect y, tail(sub(y, x), 1)
connect out, x
"""
    )


def uart_loop():
    """A sender of bytes on one wire, four cycles a bit, and a receiver at its other end, which counts the bytes that came otherwise than they were sent."""
    return circuit(
        NOISE
        + """
reg sent : UInt<8>, clock
reg shift : UInt<10>, clock
reg pace : UInt<2>, clock
reg left : UInt<4>, clock
wire line : UInt<1>
connect line, UInt<1>(1)
connect pace, tail(add(pace, UInt<2>(1)), 1)
when eq(left, UInt<4>(0)) :
  when eq(bits(noise, 4, 0), UInt<5>(3)) :
    connect shift, cat(UInt<1>(1), cat(bits(noise, 12, 5), UInt<1>(0)))
    connect sent, bits(noise, 12, 5)
    connect left, UInt<4>(10)
    connect pace, UInt<2>(0)
else :
  connect line, bits(shift, 0, 0)
  when eq(pace, UInt<2>(3)) :
    connect shift, cat(UInt<1>(1), bits(shift, 9, 1))
    connect left, tail(sub(left, UInt<4>(1)), 1)
reg low : UInt<2>, clock
connect low, cat(bits(low, 0, 0), not(line))
node level = not(bits(low, 1, 1))
reg state : UInt<2>, clock
reg wait : UInt<3>, clock
reg bit : UInt<3>, clock
reg data : UInt<8>, clock
reg good : UInt<16>, clock
reg bad : UInt<16>, clock
when eq(state, UInt<2>(0)) :
  when not(level) :
    connect state, UInt<2>(1)
    connect wait, UInt<3>(4)
    connect bit, UInt<3>(0)
else when neq(wait, UInt<3>(0)) :
  connect wait, tail(sub(wait, UInt<3>(1)), 1)
else when eq(state, UInt<2>(1)) :
  connect wait, UInt<3>(3)
  connect data, cat(level, bits(data, 7, 1))
  connect bit, tail(add(bit, UInt<3>(1)), 1)
  when eq(bit, UInt<3>(7)) :
    connect state, UInt<2>(2)
else :
  connect state, UInt<2>(0)
  when and(level, eq(data, sent)) :
    connect good, tail(add(good, UInt<16>(1)), 1)
  else :
    connect bad, tail(add(bad, UInt<16>(1)), 1)
connect out, cat(bad, good)
"""
    )


# A program for the stack machine: sums of squares from 200 down, for ever.
PROGRAM = (
    ("push", 0), ("push", 200), ("dup", 0), ("dup", 0), ("mul", 0), ("rotate", 0), ("add", 0), ("swap", 0),
    ("push", 1), ("sub", 0), ("dup", 0), ("jump if", 2), ("drop", 0), ("show", 0), ("jump", 0), ("jump", 0),
)  # fmt: skip
CODES = {name: code for code, name in enumerate(("push", "add", "sub", "mul", "dup", "swap", "rotate", "jump", "jump if", "show", "drop"))}


def stack_machine():
    """A machine with a stack of 16 words in a vector of registers, and its program in a vector of constants."""
    rom = "".join(f"connect rom[{at}], UInt<12>({CODES[name] * 256 + operand})\n" for at, (name, operand) in enumerate(PROGRAM))

    def on(name, *lines):
        return f"when eq(op, UInt<4>({CODES[name]})) :\n" + "".join(f"  {line}\n" for line in lines)

    def down(count):
        return f"connect depth, tail(sub(depth, UInt<4>({count})), 1)"

    return circuit(
        "wire rom : UInt<12>[16]\n"
        + rom
        + """
reg at : UInt<4>, clock
reg depth : UInt<4>, clock
reg stack : UInt<32>[16], clock
reg shown : UInt<32>, clock
node op = bits(rom[at], 11, 8)
node operand = bits(rom[at], 7, 0)
node top = tail(sub(depth, UInt<4>(1)), 1)
node below = tail(sub(depth, UInt<4>(2)), 1)
node third = tail(sub(depth, UInt<4>(3)), 1)
node a = stack[below]
node b = stack[top]
connect at, tail(add(at, UInt<4>(1)), 1)
"""
        + on("push", "connect stack[depth], operand", "connect depth, tail(add(depth, UInt<4>(1)), 1)")
        + on("add", "connect stack[below], tail(add(a, b), 1)", down(1))
        + on("sub", "connect stack[below], tail(sub(a, b), 1)", down(1))
        + on("mul", "connect stack[below], tail(mul(a, b), 32)", down(1))
        + on("dup", "connect stack[depth], b", "connect depth, tail(add(depth, UInt<4>(1)), 1)")
        + on("swap", "connect stack[top], a", "connect stack[below], b")
        + on("rotate", "connect stack[top], stack[third]", "connect stack[below], b", "connect stack[third], a")
        + on("jump", "connect at, bits(operand, 3, 0)")
        + on("jump if", down(1), "when orr(b) :", "  connect at, bits(operand, 3, 0)")
        + on("show", "connect shown, b", down(1))
        + on("drop", down(1))
        + "connect out, xor(shown, b)\n"
    )


def riscish(folder):
    """The machine of the corpus, which is started again where it halts."""
    text = (folder / "riscish.fir").read_text().replace("circuit RiscTop", "circuit M")
    main = FRONT.split("circuit M :\n")[1]
    lines = ("inst top of RiscTop", "connect top.clock, clock", "reg halted : UInt<1>, clock", "connect halted, top.io.halted")
    lines += ("connect top.reset, halted", "reg last : UInt<32>, clock", "when top.io.out.valid :", "  connect last, top.io.out.bits", "connect out, cat(last, top.io.pc)")
    return text + "\n" + main + "".join(f"    {line}\n" for line in lines)


def dsp48e1():
    """A slice for signals: a pre-adder, a multiplier of 25 by 18 bits, an adder of 48 bits with three operands that are chosen, logic, and a pattern that
    is looked for, in four stages of registers."""
    return circuit(
        NOISE
        + """
reg a : SInt<25>, clock
reg b : SInt<18>, clock
reg c : SInt<48>, clock
reg d : SInt<25>, clock
reg mode : UInt<7>, clock
reg alu : UInt<4>, clock
reg carry : UInt<1>, clock
connect a, asSInt(bits(noise, 24, 0))
connect b, asSInt(bits(noise, 31, 14))
connect c, asSInt(cat(noise, bits(noise, 20, 5)))
connect d, asSInt(cat(bits(noise, 11, 0), bits(noise, 31, 19)))
connect mode, bits(noise, 9, 3)
connect alu, bits(noise, 13, 10)
connect carry, bits(noise, 17, 17)
reg pre : SInt<25>, clock
reg factor : SInt<18>, clock
when bits(alu, 3, 3) :
  when bits(mode, 0, 0) :
    connect pre, asSInt(tail(sub(d, a), 1))
  else :
    connect pre, asSInt(tail(add(d, a), 1))
else :
  connect pre, a
connect factor, b
reg product : SInt<43>, clock
connect product, mul(pre, factor)
reg total : SInt<48>, clock
wire first : SInt<48>
wire second : SInt<48>
wire third : SInt<48>
connect first, SInt<48>(0)
when eq(bits(mode, 1, 0), UInt<2>(1)) :
  connect first, product
else when eq(bits(mode, 1, 0), UInt<2>(2)) :
  connect first, total
else when eq(bits(mode, 1, 0), UInt<2>(3)) :
  connect first, asSInt(cat(asUInt(a), bits(asUInt(c), 22, 0)))
connect second, SInt<48>(0)
when eq(bits(mode, 3, 2), UInt<2>(2)) :
  connect second, SInt<48>(-1)
else when eq(bits(mode, 3, 2), UInt<2>(3)) :
  connect second, c
connect third, SInt<48>(0)
when eq(bits(mode, 6, 4), UInt<3>(2)) :
  connect third, total
else when eq(bits(mode, 6, 4), UInt<3>(3)) :
  connect third, c
else when eq(bits(mode, 6, 4), UInt<3>(5)) :
  connect third, shr(total, 17)
else when eq(bits(mode, 6, 4), UInt<3>(6)) :
  connect third, shr(c, 17)
node bits1 = asUInt(first)
node bits2 = asUInt(second)
node bits3 = asUInt(third)
node carried = cvt(carry)
wire next : SInt<48>
connect next, asSInt(bits(asUInt(add(add(third, first), add(second, carried))), 47, 0))
when eq(alu, UInt<4>(1)) :
  connect next, asSInt(bits(asUInt(sub(add(add(first, second), carried), third)), 47, 0))
else when eq(alu, UInt<4>(3)) :
  connect next, asSInt(bits(asUInt(sub(third, add(add(first, second), carried))), 47, 0))
else when eq(alu, UInt<4>(4)) :
  connect next, asSInt(xor(xor(bits1, bits3), bits2))
else when eq(alu, UInt<4>(12)) :
  connect next, asSInt(mux(bits(mode, 3, 3), or(bits1, bits3), and(bits1, bits3)))
else when eq(alu, UInt<4>(14)) :
  connect next, asSInt(not(and(bits1, bits3)))
connect total, next
reg pattern : UInt<1>, clock
reg turned : UInt<1>, clock
connect pattern, eq(and(asUInt(next), UInt<48>(0h3fff)), UInt<48>(0h1555))
connect turned, eq(and(not(asUInt(next)), UInt<48>(0h3fff)), UInt<48>(0h1555))
connect out, xor(bits(asUInt(total), 31, 0), cat(bits(asUInt(total), 47, 32), cat(pattern, turned)))
"""
    )


def board(cell):
    """The game of life on a torus of 8 by 8 cells, each a register of its own; some cells are turned by noise in one of 32 cycles."""
    lines = ["reg tick : UInt<5>, clock", "connect tick, tail(add(tick, UInt<5>(1)), 1)", "node stir = eq(tick, UInt<5>(0))"]
    lines += [f"reg c{k} : UInt<1>, clock" for k in range(64)]
    for k in range(64):
        row, column = divmod(k, 8)
        near = [f"c{(row + i) % 8 * 8 + (column + j) % 8}" for i in (-1, 0, 1) for j in (-1, 0, 1) if (i, j) != (0, 0)]
        total = near[0]
        for each in near[1:]:
            total = f"add({total}, {each})"
        lines += cell(k, total, f"bits(noise, {k % 32}, {k % 32})")
    shown = "c0"
    for k in range(1, 32):
        shown = f"cat({shown}, c{k * 2})"
    return circuit(NOISE + "\n".join([*lines, f"connect out, {shown}"]))


def life8():
    """The board where each cell's sum of neighbours is a node."""

    def cell(k, total, noise):
        lives = f"or(eq(n{k}, UInt<4>(3)), and(c{k}, eq(n{k}, UInt<4>(2))))"
        return [f"node n{k} = {total}", f"node l{k} = {lives}", f"connect c{k}, mux(stir, xor(l{k}, {noise}), l{k})"]

    return board(cell)


def life8_when():
    """The board where the sum stands in the conditions of each cell, and a stirred cell is the noise."""

    def cell(k, total, noise):
        lines = ["when stir :", f"  connect c{k}, {noise}", f"else when eq({total}, UInt<4>(3)) :", f"  connect c{k}, UInt<1>(1)"]
        return [*lines, f"else when neq({total}, UInt<4>(2)) :", f"  connect c{k}, UInt<1>(0)"]

    return board(cell)


def bram4k():
    """A memory of 128 words in a vector of registers: one port reads, and writes the bytes that are chosen, the other one reads."""
    return circuit(
        NOISE
        + """
reg words : { b3 : UInt<8>, b2 : UInt<8>, b1 : UInt<8>, b0 : UInt<8> }[128], clock
node here = bits(noise, 9, 3)
node there = bits(noise, 20, 14)
reg shown : UInt<32>, clock
reg other : UInt<32>, clock
when bits(noise, 25, 25) :
  when bits(noise, 0, 0) :
    connect words[here].b0, bits(noise, 30, 23)
  when bits(noise, 1, 1) :
    connect words[here].b1, bits(noise, 29, 22)
  when bits(noise, 2, 2) :
    connect words[here].b2, bits(noise, 28, 21)
  when bits(noise, 11, 11) :
    connect words[here].b3, bits(noise, 27, 20)
else :
  connect shown, cat(cat(words[here].b3, words[here].b2), cat(words[here].b1, words[here].b0))
connect other, cat(cat(words[there].b3, words[there].b2), cat(words[there].b1, words[there].b0))
connect out, xor(shown, other)
"""
    )


def register_file(banks=32, rows=32):
    """A register file of banks of rows: two reads, one write, each by two indices."""
    return circuit(
        NOISE
        + f"""
reg words : UInt<32>[{rows}][{banks}], clock
node first = words[bits(noise, 4, 0)][bits(noise, 9, 5)]
node second = words[bits(noise, 14, 10)][bits(noise, 19, 15)]
when bits(noise, 30, 30) :
  connect words[bits(noise, 24, 20)][bits(noise, 29, 25)], noise
connect out, xor(first, second)
"""
    )


def map_table(names=32, registers=64, ways=4):
    """A map table, a free list, ready bits and values by physical register, so many instructions a cycle: vectors of registers that index one another."""
    lines = [f"reg map : UInt<6>[{names}], clock", f"reg free : UInt<6>[{registers}], clock", f"reg ready : UInt<1>[{registers}], clock"]
    lines += [f"reg value : UInt<32>[{registers}], clock", "reg head : UInt<6>, clock", "reg other : UInt<32>, clock", "connect other, xor(noise, shl(bits(other, 26, 0), 5))"]
    for k in range(ways):
        word, low = ("noise", "other")[k % 2], 16 * (k // 2)
        lines += [f"node {name}{k} = bits({word}, {low + high}, {low + high - 4})" for name, high in (("rs", 4), ("rt", 9), ("rd", 14))]
        lines += [f"node valid{k} = bits({word}, {low + 15}, {low + 15})", f"node head{k} = tail(add(head, UInt<6>({k})), 1)"]
        lines += [f"node both{k} = cat(map[rs{k}], cat(map[rt{k}], cat(free[head{k}], map[rd{k}])))", f"node go{k} = and(ready[map[rs{k}]], ready[map[rt{k}]])"]
    for k in range(ways):
        lines += [f"when valid{k} :", f"  connect map[rd{k}], free[head{k}]", f"  connect ready[free[head{k}]], UInt<1>(0)", f"  connect head, tail(add(head, UInt<6>({k + 1})), 1)"]
    lines += ["node back = bits(other, 31, 26)", "when bits(other, 0, 0) :", "  connect ready[map[bits(back, 4, 0)]], UInt<1>(1)", "  connect value[map[bits(back, 4, 0)]], tail(add(value[back], noise), 1)"]
    lines += ["connect free[back], bits(noise, 31, 26)", "wire shown : UInt<32>", "connect shown, value[map[rs0]]"]
    for k in range(ways):
        lines += [f"connect shown, xor(cat(both{k}, go{k}), value[map[rs{k}]])"] if k == ways - 1 else [f"node shown{k} = xor(cat(both{k}, go{k}), value[map[rt{k}]])"]
    mixed = "shown"
    for k in range(ways - 1):
        mixed = f"xor({mixed}, shown{k})"
    return circuit(NOISE + "\n".join([*lines, f"connect out, {mixed}"]))


def crossbar(count=16):
    """Ports of bundles: each output takes the input that its register selects, and the ready goes back."""
    typ = "{ valid : UInt<1>, bits : { data : UInt<32>, id : UInt<4>, last : UInt<1>, strb : UInt<4> } }"
    lines = [f"wire in : {typ}[{count}]", f"wire taken : {typ}[{count}]", f"wire ready : UInt<1>[{count}]", f"reg held : {typ}[{count}], clock", f"reg sel : UInt<4>[{count}], clock"]
    for k in range(count):
        lines += [f"connect in[{k}].valid, bits(noise, {k}, {k})", f"connect in[{k}].bits.data, xor(noise, UInt<32>({k * 77}))", f"connect in[{k}].bits.id, UInt<4>({k})"]
        lines += [f"connect in[{k}].bits.last, bits(noise, {31 - k}, {31 - k})", f"connect in[{k}].bits.strb, bits(noise, {k + 3}, {k})", f"connect ready[{k}], UInt<1>(0)"]
        lines += [f"connect sel[{k}], bits(xor(noise, UInt<32>({k * 11})), 7, 4)"]
    for k in range(count):
        lines += [f"connect taken[{k}], in[sel[{k}]]", f"when in[sel[{k}]].valid :", f"  connect ready[sel[{k}]], UInt<1>(1)"]
    mixed = "UInt<32>(0)"
    for k in range(count):
        lines += [f"when ready[{k}] :", f"  connect held[{k}], taken[{k}]"]
        mixed = f"xor({mixed}, xor(held[{k}].bits.data, cat(held[{k}].bits.id, cat(held[{k}].bits.strb, cat(held[{k}].bits.last, held[{k}].valid)))))"
    return circuit(NOISE + "\n".join([*lines, f"connect out, {mixed}"]))


def reorder_buffer(count=32):
    """Bundles in registers, with a commit and a flush under conditions that are entries themselves."""
    parts = "pc : UInt<32>, rd : UInt<5>, prd : UInt<6>, old : UInt<6>, op : UInt<7>, imm : UInt<20>, br : UInt<1>"
    typ = f"{{ valid : UInt<1>, busy : UInt<1>, exc : UInt<1>, uop : {{ {parts} }}, val : UInt<32> }}"
    lines = [f"reg entries : {typ}[{count}], clock", "reg head : UInt<5>, clock", "reg last : UInt<5>, clock", f"wire new : {typ}", "wire flush : UInt<1>"]
    sources = {"valid": "UInt<1>(1)", "busy": "bits(noise, 3, 3)", "exc": "andr(bits(noise, 9, 4))", "val": "noise", "uop.pc": "not(noise)", "uop.imm": "bits(noise, 19, 0)"}
    sources |= {"uop.rd": "bits(noise, 4, 0)", "uop.prd": "bits(noise, 10, 5)", "uop.old": "bits(noise, 16, 11)", "uop.op": "bits(noise, 23, 17)", "uop.br": "bits(noise, 24, 24)"}
    lines += [f"connect new.{name}, {source}" for name, source in sources.items()]
    lines += ["node back = bits(noise, 31, 27)", "connect flush, UInt<1>(0)", "when bits(noise, 0, 0) :", "  connect entries[last], new", "  connect last, tail(add(last, UInt<5>(1)), 1)"]
    lines += ["when and(bits(noise, 1, 1), entries[back].valid) :", "  connect entries[back].busy, UInt<1>(0)", "  connect entries[back].val, noise"]
    lines += ["when and(entries[head].valid, not(entries[head].busy)) :", "  when entries[head].exc :", "    connect flush, UInt<1>(1)", "    connect entries[last].valid, UInt<1>(0)"]
    lines += ["  else :", "    connect entries[head].valid, UInt<1>(0)", "    connect head, tail(add(head, UInt<5>(1)), 1)"]
    commit = "cat(entries[head].uop.rd, cat(entries[head].uop.prd, cat(entries[head].uop.op, cat(entries[head].valid, flush))))"
    return circuit(NOISE + "\n".join([*lines, f"connect out, xor(xor(entries[head].val, entries[head].uop.pc), {commit})"]))


def branch_table(count=256):
    """Bundles in a vector of registers, read, compared and written back, and a table of constants in wires."""
    typ = "{ tag : UInt<20>, ctr : UInt<2>, target : UInt<32>, valid : UInt<1> }"
    lines = [f"reg entries : {typ}[{count}], clock", "reg shown : UInt<8>, clock", "node here = bits(noise, 15, 8)", "connect shown, bits(noise, 7, 0)", f"wire table : UInt<8>[{count}]"]
    lines += [f"connect table[{k}], UInt<8>({k * 37 % 256})" for k in range(count)]
    lines += ["when bits(noise, 20, 20) :", "  when eq(entries[here].tag, bits(noise, 31, 12)) :", "    connect entries[here].ctr, tail(add(entries[here].ctr, UInt<2>(1)), 1)"]
    lines += ["  else when bits(noise, 21, 21) :", "    connect entries[here], entries[shown]", "  else :", "    connect entries[here].tag, bits(noise, 31, 12)", "    connect entries[here].target, noise"]
    commit = "xor(entries[shown].target, cat(entries[shown].tag, cat(entries[shown].ctr, entries[shown].valid)))"
    return circuit(NOISE + "\n".join([*lines, f"connect out, xor({commit}, table[shown])"]))


CORPUS = Path(__file__).resolve().parent.parent / "tests/corpus"
# Circuits whose vectors are read by indices that are chosen at run time, as generators write them.
INDEXED = {
    "register_file": register_file,
    "map_table": map_table,
    "crossbar": crossbar,
    "reorder_buffer": reorder_buffer,
    "branch_table": branch_table,
}
# Each circuit with its name, in the order of the sizes of their codes; the rings behind the others.
CIRCUITS = {
    "counter": counter,
    "gcd": gcd,
    "uart_loop": uart_loop,
    "riscish": lambda: riscish(CORPUS),
    "stack_machine": stack_machine,
    "dsp48e1": dsp48e1,
    "life8": life8,
    "life8_when": life8_when,
    "bram4k": bram4k,
    "mesh": lambda: mesh(32, 16),
    "ring256": lambda: ring(256),
    "ring4096": lambda: ring(4_096),
}
