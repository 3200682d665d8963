"""A model of RV32IM, written from the unprivileged manual of the RISC-V instruction set alone: a machine with 64 KB of memory from address 0 on and a
console at 0x10000000. It knows nothing of FIRRTL or of the cores of examples/rv32. Used by rv32_cases.py.
"""

CONSOLE, SIZE, MASK = 0x10000000, 0x10000, 0xFFFFFFFF
# How a run ends, by the codes of the cores.
ECALL, ILLEGAL, MISALIGNED, NOWHERE, EBREAK = 0, 2, 3, 4, 5


class Ended(Exception):
    """The machine stops: a code, a value that tells more, and the address of the instruction."""


def signed(value, bits=32):
    """The number that these bits are in two's complement."""
    value &= (1 << bits) - 1
    return value - (1 << bits) if value >> (bits - 1) else value


def toward_zero(a, b):
    """Quotient and rest of integers, the quotient cut toward 0."""
    quotient = abs(a) // abs(b) * (1 if (a < 0) == (b < 0) else -1)
    return quotient, a - b * quotient


# Registers and registers, by funct7 and funct3: chapters "RV32I Base Integer Instruction Set" and "M" of the manual.

COMPUTED = {
    (0x00, 0): lambda a, b: a + b,  # ADD
    (0x20, 0): lambda a, b: a - b,  # SUB
    (0x00, 1): lambda a, b: a << (b & 31),  # SLL
    (0x00, 2): lambda a, b: int(signed(a) < signed(b)),  # SLT
    (0x00, 3): lambda a, b: int(a < b),  # SLTU
    (0x00, 4): lambda a, b: a ^ b,  # XOR
    (0x00, 5): lambda a, b: a >> (b & 31),  # SRL
    (0x20, 5): lambda a, b: signed(a) >> (b & 31),  # SRA
    (0x00, 6): lambda a, b: a | b,  # OR
    (0x00, 7): lambda a, b: a & b,  # AND
    (0x01, 0): lambda a, b: a * b,  # MUL
    (0x01, 1): lambda a, b: signed(a) * signed(b) >> 32,  # MULH
    (0x01, 2): lambda a, b: signed(a) * b >> 32,  # MULHSU
    (0x01, 3): lambda a, b: a * b >> 32,  # MULHU
    (0x01, 4): lambda a, b: toward_zero(signed(a), signed(b))[0] if b else -1,  # DIV
    (0x01, 5): lambda a, b: a // b if b else -1,  # DIVU
    (0x01, 6): lambda a, b: toward_zero(signed(a), signed(b))[1] if b else a,  # REM
    (0x01, 7): lambda a, b: a % b if b else a,  # REMU
}
BRANCHES = {
    0: lambda a, b: a == b,  # BEQ
    1: lambda a, b: a != b,  # BNE
    4: lambda a, b: signed(a) < signed(b),  # BLT
    5: lambda a, b: signed(a) >= signed(b),  # BGE
    6: lambda a, b: a < b,  # BLTU
    7: lambda a, b: a >= b,  # BGEU
}
# Bytes, and whether the sign counts: LB, LH, LW, LBU, LHU.
LOADS = {0: (1, True), 1: (2, True), 2: (4, True), 4: (1, False), 5: (2, False)}
STORES = {0: 1, 1: 2, 2: 4}


class Machine:
    """Registers, memory and what the console was told."""

    def __init__(self, words):
        self.memory = bytearray(SIZE)
        for address, word in enumerate(words):
            self.memory[4 * address : 4 * address + 4] = word.to_bytes(4, "little")
        self.x, self.pc, self.told = [0] * 32, 0, []

    def word(self, address):
        return int.from_bytes(self.memory[address : address + 4], "little")

    def access(self, address, count, store):
        """Refuses an address that is misaligned or where nothing is."""
        if address % count:
            raise Ended(MISALIGNED, self.inst, self.pc)
        if not (address < SIZE or store and address == CONSOLE):
            raise Ended(NOWHERE, self.inst, self.pc)

    def jump(self, target):
        if target % 4:
            raise Ended(MISALIGNED, self.inst, self.pc)
        self.following = target

    def step(self):
        """An instruction: its address, the register that it writes, or 0, and what it writes there."""
        self.inst = 0
        if self.pc >= SIZE:
            raise Ended(NOWHERE, 0, self.pc)
        pc, inst = self.pc, self.word(self.pc)
        self.inst, self.following = inst, (pc + 4) & MASK
        rd, value = self.execute(inst, inst & 0x7F)
        value &= MASK
        if rd:
            self.x[rd] = value
        self.pc = self.following
        return pc, rd, value if rd else 0

    def execute(self, inst, opcode):
        """The register that is written, or 0, and what."""
        rd, funct3, funct7 = inst >> 7 & 31, inst >> 12 & 7, inst >> 25
        a, b = self.x[inst >> 15 & 31], self.x[inst >> 20 & 31]
        immediate = signed(inst >> 20, 12)
        if opcode == 0x37:  # LUI
            return rd, inst & 0xFFFFF000
        if opcode == 0x17:  # AUIPC
            return rd, self.pc + (inst & 0xFFFFF000)
        if opcode == 0x6F:  # JAL
            offset = inst >> 31 << 20 | (inst >> 12 & 0xFF) << 12 | (inst >> 20 & 1) << 11 | (inst >> 21 & 0x3FF) << 1
            link = self.following
            self.jump((self.pc + signed(offset, 21)) & MASK)
            return rd, link
        if opcode == 0x67 and funct3 == 0:  # JALR
            link = self.following
            self.jump((a + immediate) & MASK & ~1)
            return rd, link
        if opcode == 0x63 and funct3 in BRANCHES:
            offset = inst >> 31 << 12 | (inst >> 7 & 1) << 11 | (inst >> 25 & 0x3F) << 5 | (inst >> 8 & 0xF) << 1
            if BRANCHES[funct3](a, b):
                self.jump((self.pc + signed(offset, 13)) & MASK)
            return 0, 0
        if opcode == 0x03 and funct3 in LOADS:
            count, sign = LOADS[funct3]
            address = (a + immediate) & MASK
            self.access(address, count, False)
            value = int.from_bytes(self.memory[address : address + count], "little")
            return rd, signed(value, 8 * count) if sign else value
        if opcode == 0x23 and funct3 in STORES:
            count = STORES[funct3]
            address = (a + signed(funct7 << 5 | rd, 12)) & MASK
            self.access(address, count, True)
            if address == CONSOLE:
                self.told.append(chr(b & 0xFF))
            else:
                self.memory[address : address + count] = (b & ((1 << 8 * count) - 1)).to_bytes(count, "little")
            return 0, 0
        if opcode == 0x13 and funct3 not in (1, 5):  # ADDI, SLTI, SLTIU, XORI, ORI, ANDI
            return rd, COMPUTED[0, funct3](a, immediate & MASK)
        if opcode == 0x13 and (funct7 == 0 or funct7 == 0x20 and funct3 == 5):  # SLLI, SRLI, SRAI
            return rd, COMPUTED[funct7, funct3](a, inst >> 20 & 31)
        if opcode == 0x33 and (funct7, funct3) in COMPUTED:
            return rd, COMPUTED[funct7, funct3](a, b)
        if opcode == 0x0F and funct3 == 0:  # FENCE
            return 0, 0
        if inst == 0x00000073:
            raise Ended(ECALL, self.x[10], self.pc)
        if inst == 0x00100073:
            raise Ended(EBREAK, inst, self.pc)
        raise Ended(ILLEGAL, inst, self.pc)


def ran(words, most=1_000_000):
    """The machine behind at most so many steps, these steps, and how it ended, or none."""
    machine, steps = Machine(words), []
    try:
        for _ in range(most):
            steps.append(machine.step())
    except Ended as end:
        return machine, steps, end.args
    return machine, steps, None


def log_of(machine, end):
    """What the console was told, and how the run ended as the cores print it; the code of `stopped`."""
    code, value, pc = end
    text = "".join(machine.told)
    words = {ILLEGAL: "illegal instruction", MISALIGNED: "misaligned address of", NOWHERE: "no memory for", EBREAK: "breakpoint"}
    if code == ECALL:
        return text + (f"exit {value}\n" if value else ""), int(value != 0)
    return text + f"{words[code]} {value:x} at {pc:x}\n", code
