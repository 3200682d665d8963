#!/usr/bin/env python3
"""Writes the two cores, rv32.fir and rv32_pipe.fir, into this folder: a text for each module, in which expressions stand within expressions and one
condition behind another, is unfolded as Chisel does it, a node for each operation.

usage: make_cores.py [--check]  (from anywhere)

With --check nothing is written, and the status is 1 where a file isn't what would be written.
"""
import re
import sys
from pathlib import Path

HERE = Path(__file__).resolve().parent
CONSOLE = 0x10000000

# What an instruction asks for. `source` is where operand a comes from: 0 rs1, 1 the instruction's address, 2 nothing.
CONTROL = """{ legal : UInt<1>, rs1 : UInt<5>, rs2 : UInt<5>, rd : UInt<5>, writes : UInt<1>, immediate : UInt<32>, source : UInt<2>, constant : UInt<1>,
 operation : UInt<4>, funct3 : UInt<3>, muldiv : UInt<1>, branch : UInt<1>, jump : UInt<1>, indirect : UInt<1>, load : UInt<1>, store : UInt<1>,
 ecall : UInt<1>, ebreak : UInt<1>}""".replace("\n", "")
# One word of the memory to be read, and bytes of one to be written.
READ = "{ enable : UInt<1>, address : UInt<14>, flip data : UInt<32>}"
WRITE = "{ flip ready : UInt<1>, valid : UInt<1>, bits : { address : UInt<14>, data : UInt<8>[4], mask : UInt<1>[4]}}"
LOAD = "{ flip ready : UInt<1>, valid : UInt<1>, bits : { address : UInt<14>, data : UInt<32>}}"
CHARACTER = "{ valid : UInt<1>, bits : UInt<8>}"
# How a run ends: the code is 0 for ecall, 2 for an illegal instruction, 3 for a misaligned address, 4 for one where nothing is, 5 for ebreak.
EXIT = "{ valid : UInt<1>, bits : { code : UInt<3>, value : UInt<32>, pc : UInt<32>}}"
# An instruction that is done: its address, itself, the register that it writes, or 0, and what.
RETIRE = "{ valid : UInt<1>, bits : { pc : UInt<32>, inst : UInt<32>, rd : UInt<5>, value : UInt<32>}}"
CORE = f"{{ fetch : {READ}, load : {READ}, store : {WRITE}, console : {CHARACTER}, exit : {EXIT}, retire : {RETIRE}}}"


def lookup(selector, default, cases):
    """A chain of choices by a number."""
    text = default
    for number, width, value in reversed(cases):
        text = f"mux(eq({selector}, UInt<{width}>({number})), {value}, {text})"
    return text


def fill(width):
    """The sign of a word, so many times."""
    return f"mux(bits(io.inst, 31, 31), UInt<{width}>({(1 << width) - 1}), UInt<{width}>(0))"


def cat(*parts):
    return parts[0] if len(parts) == 1 else f"cat({parts[0]}, {cat(*parts[1:])})"


def inst(high, low):
    return f"bits(io.inst, {high}, {low})"


DECODER = f"""
module Decoder :
  input clock : Clock
  input reset : UInt<1>
  output io : {{ flip inst : UInt<32>, control : {CONTROL}}}

  node opcode = {inst(6, 0)}
  node funct3 = {inst(14, 12)}
  node funct7 = {inst(31, 25)}
  node plain = eq(funct7, UInt<7>(0))
  node other = eq(funct7, UInt<7>(0x20))
  node right = eq(funct3, UInt<3>(5))
  node left = eq(funct3, UInt<3>(1))
  node immediateI = {cat(fill(20), inst(31, 20))}
  node immediateS = {cat(fill(20), inst(31, 25), inst(11, 7))}
  node immediateB = {cat(fill(20), inst(7, 7), inst(30, 25), inst(11, 8), "UInt<1>(0)")}
  node immediateU = {cat(inst(31, 12), "UInt<12>(0)")}
  node immediateJ = {cat(fill(12), inst(19, 12), inst(20, 20), inst(30, 21), "UInt<1>(0)")}
  wire control : {CONTROL}
  connect control.legal, UInt<1>(0)
  connect control.rs1, UInt<5>(0)
  connect control.rs2, UInt<5>(0)
  connect control.rd, UInt<5>(0)
  connect control.writes, UInt<1>(0)
  connect control.immediate, immediateI
  connect control.source, UInt<2>(0)
  connect control.constant, UInt<1>(0)
  connect control.operation, UInt<4>(0)
  connect control.funct3, funct3
  connect control.muldiv, UInt<1>(0)
  connect control.branch, UInt<1>(0)
  connect control.jump, UInt<1>(0)
  connect control.indirect, UInt<1>(0)
  connect control.load, UInt<1>(0)
  connect control.store, UInt<1>(0)
  connect control.ecall, UInt<1>(0)
  connect control.ebreak, UInt<1>(0)
  when eq(opcode, UInt<7>(0x37)) :
    connect control.legal, UInt<1>(1)
    connect control.immediate, immediateU
    connect control.source, UInt<2>(2)
    connect control.constant, UInt<1>(1)
    connect control.writes, UInt<1>(1)
  else when eq(opcode, UInt<7>(0x17)) :
    connect control.legal, UInt<1>(1)
    connect control.immediate, immediateU
    connect control.source, UInt<2>(1)
    connect control.constant, UInt<1>(1)
    connect control.writes, UInt<1>(1)
  else when eq(opcode, UInt<7>(0x6f)) :
    connect control.legal, UInt<1>(1)
    connect control.immediate, immediateJ
    connect control.jump, UInt<1>(1)
    connect control.writes, UInt<1>(1)
  else when eq(opcode, UInt<7>(0x67)) :
    connect control.legal, eq(funct3, UInt<3>(0))
    connect control.rs1, {inst(19, 15)}
    connect control.jump, UInt<1>(1)
    connect control.indirect, UInt<1>(1)
    connect control.writes, UInt<1>(1)
  else when eq(opcode, UInt<7>(0x63)) :
    connect control.legal, neq(bits(funct3, 2, 1), UInt<2>(1))
    connect control.immediate, immediateB
    connect control.rs1, {inst(19, 15)}
    connect control.rs2, {inst(24, 20)}
    connect control.branch, UInt<1>(1)
  else when eq(opcode, UInt<7>(0x03)) :
    connect control.legal, or(lt(funct3, UInt<3>(3)), eq(bits(funct3, 2, 1), UInt<2>(2)))
    connect control.rs1, {inst(19, 15)}
    connect control.constant, UInt<1>(1)
    connect control.load, UInt<1>(1)
    connect control.writes, UInt<1>(1)
  else when eq(opcode, UInt<7>(0x23)) :
    connect control.legal, lt(funct3, UInt<3>(3))
    connect control.immediate, immediateS
    connect control.rs1, {inst(19, 15)}
    connect control.rs2, {inst(24, 20)}
    connect control.constant, UInt<1>(1)
    connect control.store, UInt<1>(1)
  else when eq(opcode, UInt<7>(0x13)) :
    connect control.legal, mux(left, plain, mux(right, or(plain, other), UInt<1>(1)))
    connect control.rs1, {inst(19, 15)}
    connect control.constant, UInt<1>(1)
    connect control.operation, cat(and(right, other), funct3)
    connect control.writes, UInt<1>(1)
  else when eq(opcode, UInt<7>(0x33)) :
    node multiply = eq(funct7, UInt<7>(1))
    connect control.legal, or(or(plain, multiply), and(other, or(right, eq(funct3, UInt<3>(0)))))
    connect control.rs1, {inst(19, 15)}
    connect control.rs2, {inst(24, 20)}
    connect control.operation, cat(other, funct3)
    connect control.muldiv, multiply
    connect control.writes, UInt<1>(1)
  else when eq(opcode, UInt<7>(0x0f)) :
    connect control.legal, eq(funct3, UInt<3>(0))
  else when eq(io.inst, UInt<32>(0x73)) :
    connect control.legal, UInt<1>(1)
    connect control.rs1, UInt<5>(10)
    connect control.ecall, UInt<1>(1)
  else when eq(io.inst, UInt<32>(0x100073)) :
    connect control.legal, UInt<1>(1)
    connect control.ebreak, UInt<1>(1)
  when and(control.legal, control.writes) :
    connect control.rd, {inst(11, 7)}
  connect io.control, control
"""

ALU = f"""
module Alu :
  input clock : Clock
  input reset : UInt<1>
  output io : {{ flip operation : UInt<4>, flip a : UInt<32>, flip b : UInt<32>, out : UInt<32>}}

  node sum = tail(add(io.a, io.b), 1)
  node difference = tail(sub(io.a, io.b), 1)
  node places = bits(io.b, 4, 0)
  node left = bits(dshl(io.a, places), 31, 0)
  node right = dshr(io.a, places)
  node arithmetic = asUInt(dshr(asSInt(io.a), places))
  node less = lt(asSInt(io.a), asSInt(io.b))
  node below = lt(io.a, io.b)
  connect io.out, {lookup("io.operation", "sum", [(8, 4, "difference"), (1, 4, "left"), (2, 4, "less"), (3, 4, "below"), (4, 4, "xor(io.a, io.b)"), (5, 4, "right"), (13, 4, "arithmetic"), (6, 4, "or(io.a, io.b)"), (7, 4, "and(io.a, io.b)")])}
"""

# A division by 0 gives all bits 1 and leaves the numerator; the least number by -1 gives itself, which is the low half of the quotient.
MULDIV = f"""
module MulDiv :
  input clock : Clock
  input reset : UInt<1>
  output io : {{ flip funct3 : UInt<3>, flip a : UInt<32>, flip b : UInt<32>, out : UInt<32>}}

  node unsigned = mul(io.a, io.b)
  node signed = asUInt(mul(asSInt(io.a), asSInt(io.b)))
  node mixed = asUInt(mul(asSInt(io.a), cvt(io.b)))
  node zero = eq(io.b, UInt<32>(0))
  node quotient = bits(asUInt(div(asSInt(io.a), asSInt(io.b))), 31, 0)
  node rest = bits(asUInt(rem(asSInt(io.a), asSInt(io.b))), 31, 0)
  node divided = mux(zero, UInt<32>(0xffffffff), quotient)
  node dividedU = mux(zero, UInt<32>(0xffffffff), div(io.a, io.b))
  node left = mux(zero, io.a, rest)
  node leftU = mux(zero, io.a, rem(io.a, io.b))
  connect io.out, {lookup("io.funct3", "bits(unsigned, 31, 0)", [(1, 3, "bits(signed, 63, 32)"), (2, 3, "bits(mixed, 63, 32)"), (3, 3, "bits(unsigned, 63, 32)"), (4, 3, "divided"), (5, 3, "dividedU"), (6, 3, "left"), (7, 3, "leftU")])}
"""

BRANCH = f"""
module Branch :
  input clock : Clock
  input reset : UInt<1>
  output io : {{ flip funct3 : UInt<3>, flip a : UInt<32>, flip b : UInt<32>, taken : UInt<1>}}

  wire holds : UInt<1>
  node kind = bits(io.funct3, 2, 1)
  when eq(kind, UInt<2>(0)) :
    connect holds, eq(io.a, io.b)
  else when eq(kind, UInt<2>(2)) :
    connect holds, lt(asSInt(io.a), asSInt(io.b))
  else :
    connect holds, lt(io.a, io.b)
  connect io.taken, xor(holds, bits(io.funct3, 0, 0))
"""

REGISTERS = """
module Registers :
  input clock : Clock
  input reset : UInt<1>
  output io : { flip rs1 : UInt<5>, flip rs2 : UInt<5>, a : UInt<32>, b : UInt<32>, flip write : { enable : UInt<1>, rd : UInt<5>, value : UInt<32>}}

  mem x :
    data-type => UInt<32>
    depth => 32
    read-latency => 0
    write-latency => 1
    reader => first
    reader => second
    writer => result
    read-under-write => undefined
  connect x.first.clk, clock
  connect x.first.en, neq(io.rs1, UInt<5>(0))
  connect x.first.addr, io.rs1
  connect io.a, x.first.data
  connect x.second.clk, clock
  connect x.second.en, neq(io.rs2, UInt<5>(0))
  connect x.second.addr, io.rs2
  connect io.b, x.second.data
  connect x.result.clk, clock
  connect x.result.en, and(io.write.enable, neq(io.write.rd, UInt<5>(0)))
  connect x.result.addr, io.write.rd
  connect x.result.data, io.write.value
  connect x.result.mask, UInt<1>(1)
"""


def ram(latency):
    """The memory of 64 KB, read in the same cycle or in the next one."""
    lines = [
        f"""
module Ram :
  input clock : Clock
  input reset : UInt<1>
  output io : {{ flip fetch : {READ}, flip load : {READ}, flip store : {WRITE}}}

  mem bytes :
    data-type => UInt<8>[4]
    depth => 16384
    read-latency => {latency}
    write-latency => 1
    reader => fetch
    reader => load
    writer => store
    read-under-write => old
"""
    ]
    for port in ("fetch", "load"):
        word = cat(*(f"bytes.{port}.data[{k}]" for k in (3, 2, 1, 0)))
        lines.append(f"  connect bytes.{port}.clk, clock\n  connect bytes.{port}.en, io.{port}.enable\n")
        lines.append(f"  connect bytes.{port}.addr, io.{port}.address\n  connect io.{port}.data, {word}\n")
    lines.append("  connect io.store.ready, UInt<1>(1)\n  connect bytes.store.clk, clock\n  connect bytes.store.en, io.store.valid\n")
    lines.append("  connect bytes.store.addr, io.store.bits.address\n  connect bytes.store.data, io.store.bits.data\n")
    lines.append("  connect bytes.store.mask, io.store.bits.mask\n")
    return "".join(lines)


ARBITER = f"""
module Arbiter :
  input clock : Clock
  input reset : UInt<1>
  output io : {{ flip in : {WRITE}[2], out : {WRITE}}}

  connect io.out.valid, or(io.in[0].valid, io.in[1].valid)
  connect io.out.bits, io.in[1].bits
  when io.in[0].valid :
    connect io.out.bits, io.in[0].bits
  connect io.in[0].ready, io.out.ready
  connect io.in[1].ready, and(io.out.ready, eq(io.in[0].valid, UInt<1>(0)))
"""

# The bytes that a store writes, and what a load takes of a word.
STORED = f"""
module Stored :
  input clock : Clock
  input reset : UInt<1>
  output io : {{ flip funct3 : UInt<3>, flip offset : UInt<2>, flip data : UInt<32>, bytes : UInt<8>[4], mask : UInt<1>[4]}}

  connect io.bytes[0], bits(io.data, 7, 0)
  connect io.bytes[1], bits(io.data, 15, 8)
  connect io.bytes[2], bits(io.data, 23, 16)
  connect io.bytes[3], bits(io.data, 31, 24)
  connect io.mask[0], UInt<1>(1)
  connect io.mask[1], UInt<1>(1)
  connect io.mask[2], UInt<1>(1)
  connect io.mask[3], UInt<1>(1)
  node size = bits(io.funct3, 1, 0)
  when eq(size, UInt<2>(0)) :
    connect io.bytes[1], bits(io.data, 7, 0)
    connect io.bytes[2], bits(io.data, 7, 0)
    connect io.bytes[3], bits(io.data, 7, 0)
    connect io.mask[0], eq(io.offset, UInt<2>(0))
    connect io.mask[1], eq(io.offset, UInt<2>(1))
    connect io.mask[2], eq(io.offset, UInt<2>(2))
    connect io.mask[3], eq(io.offset, UInt<2>(3))
  else when eq(size, UInt<2>(1)) :
    connect io.bytes[2], bits(io.data, 7, 0)
    connect io.bytes[3], bits(io.data, 15, 8)
    node upper = bits(io.offset, 1, 1)
    connect io.mask[0], not(upper)
    connect io.mask[1], not(upper)
    connect io.mask[2], upper
    connect io.mask[3], upper
"""

LOADED = """
module Loaded :
  input clock : Clock
  input reset : UInt<1>
  output io : { flip funct3 : UInt<3>, flip offset : UInt<2>, flip word : UInt<32>, value : UInt<32>}

  node half = mux(bits(io.offset, 1, 1), bits(io.word, 31, 16), bits(io.word, 15, 0))
  node byte = mux(bits(io.offset, 0, 0), bits(half, 15, 8), bits(half, 7, 0))
  node unsigned = bits(io.funct3, 2, 2)
  node size = bits(io.funct3, 1, 0)
  when eq(size, UInt<2>(0)) :
    connect io.value, mux(unsigned, pad(byte, 32), asUInt(pad(asSInt(byte), 32)))
  else when eq(size, UInt<2>(1)) :
    connect io.value, mux(unsigned, pad(half, 32), asUInt(pad(asSInt(half), 32)))
  else :
    connect io.value, io.word
"""

# What an address is: misaligned for its size, in the memory, or the console's.
ADDRESS = f"""
module Address :
  input clock : Clock
  input reset : UInt<1>
  output io : {{ flip funct3 : UInt<3>, flip address : UInt<32>, misaligned : UInt<1>, memory : UInt<1>, console : UInt<1>}}

  node size = bits(io.funct3, 1, 0)
  node half = and(eq(size, UInt<2>(1)), bits(io.address, 0, 0))
  node word = and(eq(size, UInt<2>(2)), orr(bits(io.address, 1, 0)))
  connect io.misaligned, or(half, word)
  connect io.memory, eq(bits(io.address, 31, 16), UInt<16>(0))
  connect io.console, eq(io.address, UInt<32>({CONSOLE:#x}))
"""


def instance(name, module):
    return f"inst {name} of {module}\n  connect {name}.clock, clock\n  connect {name}.reset, reset"


# All of an instruction in one cycle.
SINGLE = f"""
module Core :
  input clock : Clock
  input reset : UInt<1>
  output io : {CORE}

  regreset pc : UInt<32>, clock, reset, UInt<32>(0)
  regreset halted : UInt<1>, clock, reset, UInt<1>(0)
  node running = not(or(halted, reset))
  {instance("decoder", "Decoder")}
  {instance("registers", "Registers")}
  {instance("alu", "Alu")}
  {instance("muldiv", "MulDiv")}
  {instance("branch", "Branch")}
  {instance("place", "Address")}
  {instance("stored", "Stored")}
  {instance("loaded", "Loaded")}
  node astray = orr(bits(pc, 31, 16))
  connect io.fetch.enable, and(running, not(astray))
  connect io.fetch.address, bits(pc, 15, 2)
  connect decoder.io.inst, io.fetch.data
  wire control : {CONTROL}
  connect control, decoder.io.control
  connect registers.io.rs1, control.rs1
  connect registers.io.rs2, control.rs2
  node a = registers.io.a
  node b = registers.io.b

  connect alu.io.operation, control.operation
  connect alu.io.a, {lookup("control.source", "a", [(1, 2, "pc"), (2, 2, "UInt<32>(0)")])}
  connect alu.io.b, mux(control.constant, control.immediate, b)
  connect muldiv.io.funct3, control.funct3
  connect muldiv.io.a, a
  connect muldiv.io.b, b
  connect branch.io.funct3, control.funct3
  connect branch.io.a, a
  connect branch.io.b, b
  node following = tail(add(pc, UInt<32>(4)), 1)
  node base = mux(control.indirect, a, pc)
  node target = {cat("bits(tail(add(base, control.immediate), 1), 31, 1)", "UInt<1>(0)")}
  node taken = or(control.jump, and(control.branch, branch.io.taken))

  connect place.io.funct3, control.funct3
  connect place.io.address, alu.io.out
  node access = or(control.load, control.store)
  node outside = not(or(place.io.memory, and(control.store, place.io.console)))
  node astride = bits(target, 1, 1)
  wire trap : {{ valid : UInt<1>, bits : UInt<3>}}
  connect trap.valid, UInt<1>(0)
  connect trap.bits, UInt<3>(0)
  when astray :
    connect trap.valid, UInt<1>(1)
    connect trap.bits, UInt<3>(4)
  else when not(control.legal) :
    connect trap.valid, UInt<1>(1)
    connect trap.bits, UInt<3>(2)
  else when control.ecall :
    connect trap.valid, UInt<1>(1)
  else when control.ebreak :
    connect trap.valid, UInt<1>(1)
    connect trap.bits, UInt<3>(5)
  else when or(and(taken, astride), and(access, place.io.misaligned)) :
    connect trap.valid, UInt<1>(1)
    connect trap.bits, UInt<3>(3)
  else when and(access, outside) :
    connect trap.valid, UInt<1>(1)
    connect trap.bits, UInt<3>(4)
  node done = and(running, not(trap.valid))

  connect io.load.enable, and(done, control.load)
  connect io.load.address, bits(alu.io.out, 15, 2)
  connect loaded.io.funct3, control.funct3
  connect loaded.io.offset, bits(alu.io.out, 1, 0)
  connect loaded.io.word, io.load.data
  connect stored.io.funct3, control.funct3
  connect stored.io.offset, bits(alu.io.out, 1, 0)
  connect stored.io.data, b
  connect io.store.valid, and(and(done, control.store), place.io.memory)
  connect io.store.bits.address, bits(alu.io.out, 15, 2)
  connect io.store.bits.data, stored.io.bytes
  connect io.store.bits.mask, stored.io.mask
  node told = and(and(done, control.store), place.io.console)
  connect io.console.valid, told
  connect io.console.bits, mux(told, bits(b, 7, 0), UInt<8>(0))

  wire value : UInt<32>
  connect value, alu.io.out
  when control.jump :
    connect value, following
  else when control.load :
    connect value, loaded.io.value
  else when control.muldiv :
    connect value, muldiv.io.out
  connect registers.io.write.enable, and(done, control.writes)
  connect registers.io.write.rd, control.rd
  connect registers.io.write.value, value
  when done :
    connect pc, mux(taken, target, following)
  else when running :
    connect halted, UInt<1>(1)
  node ends = and(running, trap.valid)
  connect io.exit.valid, ends
  connect io.exit.bits.code, UInt<3>(0)
  connect io.exit.bits.value, UInt<32>(0)
  connect io.exit.bits.pc, UInt<32>(0)
  when ends :
    connect io.exit.bits.code, trap.bits
    connect io.exit.bits.value, mux(control.ecall, a, io.fetch.data)
    connect io.exit.bits.pc, pc
  connect io.retire.valid, done
  connect io.retire.bits.pc, pc
  connect io.retire.bits.inst, io.fetch.data
  connect io.retire.bits.rd, control.rd
  connect io.retire.bits.value, mux(neq(control.rd, UInt<5>(0)), value, UInt<32>(0))
"""

# Five stages: an instruction is fetched, decoded (d), executed (x), gets what it loads (m), and writes its register (w).
PIPELINE = f"""
module Forward :
  input clock : Clock
  input reset : UInt<1>
  output io : {{ flip rs : UInt<5>, flip read : UInt<32>, flip near : {{ rd : UInt<5>, value : UInt<32>}}, flip far : {{ rd : UInt<5>, value : UInt<32>}}, value : UInt<32>}}

  connect io.value, io.read
  when eq(io.rs, UInt<5>(0)) :
    connect io.value, UInt<32>(0)
  else when eq(io.rs, io.near.rd) :
    connect io.value, io.near.value
  else when eq(io.rs, io.far.rd) :
    connect io.value, io.far.value

module Core :
  input clock : Clock
  input reset : UInt<1>
  output io : {CORE}

  regreset pc : UInt<32>, clock, reset, UInt<32>(0)
  regreset stopped : UInt<1>, clock, reset, UInt<1>(0)
  regreset dValid : UInt<1>, clock, reset, UInt<1>(0)
  reg d : {{ pc : UInt<32>}}, clock
  regreset xValid : UInt<1>, clock, reset, UInt<1>(0)
  reg x : {{ pc : UInt<32>, inst : UInt<32>, control : {CONTROL}, a : UInt<32>, b : UInt<32>, trap : UInt<1>, code : UInt<3>}}, clock
  regreset mValid : UInt<1>, clock, reset, UInt<1>(0)
  reg m : {{ pc : UInt<32>, inst : UInt<32>, rd : UInt<5>, value : UInt<32>, load : UInt<1>, funct3 : UInt<3>, trap : UInt<1>, code : UInt<3>}}, clock
  regreset wValid : UInt<1>, clock, reset, UInt<1>(0)
  reg w : {{ pc : UInt<32>, inst : UInt<32>, rd : UInt<5>, value : UInt<32>, trap : UInt<1>, code : UInt<3>}}, clock
  {instance("decoder", "Decoder")}
  {instance("registers", "Registers")}
  {instance("alu", "Alu")}
  {instance("muldiv", "MulDiv")}
  {instance("branch", "Branch")}
  {instance("place", "Address")}
  {instance("stored", "Stored")}
  {instance("loaded", "Loaded")}
  {instance("first", "Forward")}
  {instance("second", "Forward")}
  node running = not(reset)
  node wRd = mux(and(wValid, not(w.trap)), w.rd, UInt<5>(0))
  node mRd = mux(and(mValid, not(m.trap)), m.rd, UInt<5>(0))

  wire redirect : UInt<1>
  wire target : UInt<32>
  wire stall : UInt<1>
  wire ending : UInt<1>
  node address = mux(redirect, target, mux(stall, d.pc, pc))
  node fetching = and(running, not(or(stopped, ending)))
  connect io.fetch.enable, and(fetching, not(orr(bits(address, 31, 16))))
  connect io.fetch.address, bits(address, 15, 2)
  connect dValid, fetching
  when fetching :
    connect d.pc, address
    connect pc, tail(add(address, UInt<32>(4)), 1)

  wire inst : UInt<32>
  connect inst, io.fetch.data
  node astray = orr(bits(d.pc, 31, 16))
  connect decoder.io.inst, inst
  wire control : {CONTROL}
  connect control, decoder.io.control
  connect registers.io.rs1, control.rs1
  connect registers.io.rs2, control.rs2
  node waits = and(and(xValid, x.control.load), neq(x.control.rd, UInt<5>(0)))
  node needed = or(eq(x.control.rd, control.rs1), eq(x.control.rd, control.rs2))
  connect stall, and(and(dValid, not(astray)), and(waits, needed))
  connect xValid, and(and(dValid, running), not(or(or(redirect, stall), ending)))
  connect x.pc, d.pc
  connect x.inst, inst
  connect x.control, control
  connect x.a, mux(and(neq(wRd, UInt<5>(0)), eq(wRd, control.rs1)), w.value, registers.io.a)
  connect x.b, mux(and(neq(wRd, UInt<5>(0)), eq(wRd, control.rs2)), w.value, registers.io.b)
  connect x.trap, UInt<1>(1)
  when astray :
    connect x.code, UInt<3>(4)
  else when not(control.legal) :
    connect x.code, UInt<3>(2)
  else when control.ecall :
    connect x.code, UInt<3>(0)
  else when control.ebreak :
    connect x.code, UInt<3>(5)
  else :
    connect x.trap, UInt<1>(0)
    connect x.code, UInt<3>(0)

  connect first.io.rs, x.control.rs1
  connect first.io.read, x.a
  connect first.io.near.rd, mRd
  connect first.io.near.value, m.value
  connect first.io.far.rd, wRd
  connect first.io.far.value, w.value
  connect second.io.rs, x.control.rs2
  connect second.io.read, x.b
  connect second.io.near.rd, mRd
  connect second.io.near.value, m.value
  connect second.io.far.rd, wRd
  connect second.io.far.value, w.value
  node a = first.io.value
  node b = second.io.value
  connect alu.io.operation, x.control.operation
  connect alu.io.a, {lookup("x.control.source", "a", [(1, 2, "x.pc"), (2, 2, "UInt<32>(0)")])}
  connect alu.io.b, mux(x.control.constant, x.control.immediate, b)
  connect muldiv.io.funct3, x.control.funct3
  connect muldiv.io.a, a
  connect muldiv.io.b, b
  connect branch.io.funct3, x.control.funct3
  connect branch.io.a, a
  connect branch.io.b, b
  node base = mux(x.control.indirect, a, x.pc)
  connect target, {cat("bits(tail(add(base, x.control.immediate), 1), 31, 1)", "UInt<1>(0)")}
  node taken = or(x.control.jump, and(x.control.branch, branch.io.taken))
  connect place.io.funct3, x.control.funct3
  connect place.io.address, alu.io.out
  node access = or(x.control.load, x.control.store)
  node outside = not(or(place.io.memory, and(x.control.store, place.io.console)))
  node astride = bits(target, 1, 1)
  wire trap : {{ valid : UInt<1>, bits : UInt<3>}}
  connect trap.valid, x.trap
  connect trap.bits, x.code
  when not(x.trap) :
    when or(and(taken, astride), and(access, place.io.misaligned)) :
      connect trap.valid, UInt<1>(1)
      connect trap.bits, UInt<3>(3)
    else when and(access, outside) :
      connect trap.valid, UInt<1>(1)
      connect trap.bits, UInt<3>(4)
  node execute = and(and(xValid, running), not(trap.valid))
  connect redirect, and(execute, taken)
  connect ending, and(xValid, trap.valid)
  when ending :
    connect stopped, UInt<1>(1)
  connect io.load.enable, and(execute, x.control.load)
  connect io.load.address, bits(alu.io.out, 15, 2)
  connect stored.io.funct3, x.control.funct3
  connect stored.io.offset, bits(alu.io.out, 1, 0)
  connect stored.io.data, b
  connect io.store.valid, and(and(execute, x.control.store), place.io.memory)
  connect io.store.bits.address, bits(alu.io.out, 15, 2)
  connect io.store.bits.data, stored.io.bytes
  connect io.store.bits.mask, stored.io.mask
  node told = and(and(execute, x.control.store), place.io.console)
  connect io.console.valid, told
  connect io.console.bits, mux(told, bits(b, 7, 0), UInt<8>(0))

  connect mValid, and(xValid, running)
  connect m.pc, x.pc
  connect m.inst, x.inst
  connect m.rd, x.control.rd
  connect m.load, x.control.load
  connect m.funct3, x.control.funct3
  connect m.trap, trap.valid
  connect m.code, trap.bits
  connect m.value, alu.io.out
  when x.control.ecall :
    connect m.value, a
  else when x.control.jump :
    connect m.value, tail(add(x.pc, UInt<32>(4)), 1)
  else when x.control.muldiv :
    connect m.value, muldiv.io.out

  connect loaded.io.funct3, m.funct3
  connect loaded.io.offset, bits(m.value, 1, 0)
  connect loaded.io.word, io.load.data
  connect wValid, and(mValid, running)
  connect w.pc, m.pc
  connect w.inst, m.inst
  connect w.rd, m.rd
  connect w.value, mux(m.load, loaded.io.value, m.value)
  connect w.trap, m.trap
  connect w.code, m.code

  node done = and(and(wValid, running), not(w.trap))
  connect registers.io.write.enable, done
  connect registers.io.write.rd, wRd
  connect registers.io.write.value, w.value
  node ends = and(and(wValid, running), w.trap)
  connect io.exit.valid, ends
  connect io.exit.bits.code, UInt<3>(0)
  connect io.exit.bits.value, UInt<32>(0)
  connect io.exit.bits.pc, UInt<32>(0)
  when ends :
    connect io.exit.bits.code, w.code
    connect io.exit.bits.value, mux(eq(w.code, UInt<3>(0)), w.value, w.inst)
    connect io.exit.bits.pc, w.pc
  connect io.retire.valid, done
  connect io.retire.bits.pc, w.pc
  connect io.retire.bits.inst, w.inst
  connect io.retire.bits.rd, w.rd
  connect io.retire.bits.value, mux(neq(w.rd, UInt<5>(0)), w.value, UInt<32>(0))
"""


def computer(name):
    """The core with its memory, its load port and its console."""
    traps = {2: "illegal instruction %x at %x", 3: "misaligned address of %x at %x", 4: "no memory for %x at %x", 5: "breakpoint %x at %x"}
    text = f"""
module {name} :
  input clock : Clock
  input reset : UInt<1>
  output io : {{ flip load : {LOAD}, console : {CHARACTER}, exit : {EXIT}}}

  {instance("core", "Core")}
  {instance("ram", "Ram")}
  {instance("arbiter", "Arbiter")}
  connect ram.io.fetch, core.io.fetch
  connect ram.io.load, core.io.load
  connect arbiter.io.in[0].valid, io.load.valid
  connect arbiter.io.in[0].bits.address, io.load.bits.address
  connect arbiter.io.in[0].bits.data[0], bits(io.load.bits.data, 7, 0)
  connect arbiter.io.in[0].bits.data[1], bits(io.load.bits.data, 15, 8)
  connect arbiter.io.in[0].bits.data[2], bits(io.load.bits.data, 23, 16)
  connect arbiter.io.in[0].bits.data[3], bits(io.load.bits.data, 31, 24)
  connect arbiter.io.in[0].bits.mask[0], UInt<1>(1)
  connect arbiter.io.in[0].bits.mask[1], UInt<1>(1)
  connect arbiter.io.in[0].bits.mask[2], UInt<1>(1)
  connect arbiter.io.in[0].bits.mask[3], UInt<1>(1)
  connect io.load.ready, arbiter.io.in[0].ready
  connect arbiter.io.in[1], core.io.store
  connect ram.io.store, arbiter.io.out
  connect io.console, core.io.console
  connect io.exit, core.io.exit
  when core.io.console.valid :
    printf(clock, UInt<1>(1), "%c", core.io.console.bits) : console
  when core.io.exit.valid :
    when eq(core.io.exit.bits.code, UInt<3>(0)) :
      when eq(core.io.exit.bits.value, UInt<32>(0)) :
        stop(clock, UInt<1>(1), 0) : passed
      else :
        printf(clock, UInt<1>(1), "exit %d\\n", core.io.exit.bits.value) : failure
        stop(clock, UInt<1>(1), 1) : failed
"""
    for code, words in traps.items():
        text += f"""    else when eq(core.io.exit.bits.code, UInt<3>({code})) :
      printf(clock, UInt<1>(1), "{words}\\n", core.io.exit.bits.value, core.io.exit.bits.pc) : told_{code}
      stop(clock, UInt<1>(1), {code}) : stop_{code}
"""
    return text


# Unfolding: a node for each operation, and an `else` of its own for a condition that needs nodes.

CALL = re.compile(r"(\w+)\(")


def arguments(text):
    """What stands between the brackets of a call, part by part."""
    found, depth, begin = [], 0, 0
    for at, byte in enumerate(text):
        depth += (byte in "([") - (byte in ")]")
        if byte == "," and depth == 0:
            found.append(text[begin:at].strip())
            begin = at + 1
    return [*found, text[begin:].strip()]


class Unfolded:
    """The lines of a module, and how often each name of a node was taken."""

    def __init__(self):
        self.lines, self.taken = [], {}

    def say(self, depth, line):
        self.lines.append("  " * depth + line if line else "")

    def simple(self, text, base, depth):
        """An expression without operations within operations."""
        found = CALL.match(text)
        if not found:
            return text
        parts = [self.name(part, base, depth) for part in arguments(text[found.end() : -1])]
        return f"{found[1]}({', '.join(parts)})"

    def name(self, text, base, depth):
        """An expression without operations, whose nodes are said before."""
        text = self.simple(text, base, depth)
        if not CALL.match(text):
            return text
        number = self.taken[base] = self.taken.get(base, -1) + 1
        node = f"_{base}_T_{number}" if number else f"_{base}_T"
        self.say(depth, f"node {node} = {text}")
        return node

    def statement(self, line, depth):
        word, _, rest = line.partition(" ")
        if word == "connect":
            left, right = rest.split(", ", 1)
            line = f"connect {left}, {self.name(right, re.sub(r'[^0-9A-Za-z]+', '_', left).strip('_'), depth)}"
        elif word == "node":
            name, right = rest.split(" = ", 1)
            line = f"node {name} = {self.simple(right, name, depth)}"
        self.say(depth, line)

    def block(self, items, depth):
        """Statements with the blocks below them."""
        at = 0
        while at < len(items):
            line, below = items[at]
            at += 1
            if line.startswith("when "):
                arms = [(line[5:-2], below)]
                while at < len(items) and items[at][0].startswith("else"):
                    line, below = items[at]
                    arms.append((line[10:-2] if line.startswith("else when ") else None, below))
                    at += 1
                self.arms(arms, depth)
            else:
                self.statement(line, depth)
                for each, _ in below:
                    self.say(depth + 1, each)

    def arms(self, arms, depth):
        for number, (condition, below) in enumerate(arms):
            if number and condition is None:
                self.say(depth, "else :")
            elif number and CALL.match(condition):
                self.say(depth, "else :")
                self.arms(arms[number:], depth + 1)
                return
            else:
                told = self.name(condition, "when", depth)
                self.say(depth, f"else when {told} :" if number else f"when {told} :")
            self.block(below, depth + 1)


def tree(lines):
    """Lines, each with those that are indented below it."""
    found = []
    open_ = [(-1, found)]
    for line in lines:
        indent, item = len(line) - len(line.lstrip()), (line.strip(), [])
        while open_[-1][0] >= indent:
            open_.pop()
        open_[-1][1].append(item)
        open_.append((indent, item[1]))
    return found


def unfolded(text):
    lines = []
    for module in re.split(r"(?m)^(?=module )", text.strip())[1:]:
        head, *body = module.rstrip().splitlines()
        made = Unfolded()
        made.block(tree([line for line in body if line.strip()]), 2)
        lines += [f"  {head}", *made.lines, ""]
    return lines


def numbers(text):
    """Literals in hexadecimal digits, as Chisel writes them."""
    return re.sub(r"(UInt<\d+>)\((0x[0-9a-f]+|\d+)\)", lambda found: f"{found[1]}(0h{int(found[2], 0):x})", text)


def circuit(name, core, latency):
    parts = [DECODER, ALU, MULDIV, BRANCH, REGISTERS, ram(latency), ARBITER, STORED, LOADED, ADDRESS, core, computer(name)]
    lines = ["FIRRTL version 3.0.0", f"circuit {name} :"]
    for part in parts:
        lines += unfolded(numbers(part))
    return "\n".join(lines).rstrip() + "\n"


def main():
    check, current = "--check" in sys.argv[1:], True
    for file, text in (("rv32.fir", circuit("Rv32", SINGLE, 0)), ("rv32_pipe.fir", circuit("Rv32Pipe", PIPELINE, 1))):
        if check:
            current &= (HERE / file).is_file() and (HERE / file).read_text() == text
        else:
            (HERE / file).write_text(text)
    sys.exit(0 if current else "make_cores: the cores aren't those that this script writes")


main()
