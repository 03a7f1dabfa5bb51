"""Words of RV64IMA instructions, after the ISA manual, and code with labels made of them."""

LOADS = {"lb": 0, "lh": 1, "lw": 2, "ld": 3, "lbu": 4, "lhu": 5, "lwu": 6}
STORES = {"sb": 0, "sh": 1, "sw": 2, "sd": 3}
BRANCHES = {"beq": 0, "bne": 1, "blt": 4, "bge": 5, "bltu": 6, "bgeu": 7}
IMMEDIATES = {"addi": 0, "slti": 2, "sltiu": 3, "xori": 4, "ori": 6, "andi": 7}
# name: opcode, funct3, bits 31 to 26; the distance has 6 bits, or 5 under opcode 1b
SHIFTS = {
    "slli": (0x13, 1, 0), "srli": (0x13, 5, 0), "srai": (0x13, 5, 0x10),
    "slliw": (0x1B, 1, 0), "srliw": (0x1B, 5, 0), "sraiw": (0x1B, 5, 0x10),
}
# name: opcode, funct3, funct7
REGISTERS = {
    "add": (0x33, 0, 0), "sll": (0x33, 1, 0), "slt": (0x33, 2, 0), "sltu": (0x33, 3, 0),
    "xor": (0x33, 4, 0), "srl": (0x33, 5, 0), "or": (0x33, 6, 0), "and": (0x33, 7, 0),
    "sub": (0x33, 0, 0x20), "sra": (0x33, 5, 0x20),
    "mul": (0x33, 0, 1), "mulh": (0x33, 1, 1), "mulhsu": (0x33, 2, 1), "mulhu": (0x33, 3, 1),
    "div": (0x33, 4, 1), "divu": (0x33, 5, 1), "rem": (0x33, 6, 1), "remu": (0x33, 7, 1),
    "addw": (0x3B, 0, 0), "sllw": (0x3B, 1, 0), "srlw": (0x3B, 5, 0),
    "subw": (0x3B, 0, 0x20), "sraw": (0x3B, 5, 0x20), "mulw": (0x3B, 0, 1),
    "divw": (0x3B, 4, 1), "divuw": (0x3B, 5, 1), "remw": (0x3B, 6, 1), "remuw": (0x3B, 7, 1),
}
# name: bits 31 to 27
ATOMICS = {
    "lr": 2, "sc": 3, "amoswap": 1, "amoadd": 0, "amoxor": 4, "amoand": 0xC, "amoor": 8,
    "amomin": 0x10, "amomax": 0x14, "amominu": 0x18, "amomaxu": 0x1C,
}
ECALL, EBREAK = 0x73, 0x100073

CLOSE, READ, WRITE, EXIT, EXIT_GROUP, FUTEX = 57, 63, 64, 93, 94, 98
YIELD, GETTID, BRK, MUNMAP, CLONE, MMAP = 124, 178, 214, 215, 220, 222
# CLONE_VM and CLONE_THREAD; these with the clear place; these with the parent's place too
THREAD_FLAGS, CLEARED_FLAGS, NAMED_FLAGS = 0x10100, 0x210100, 0x310100

ZERO, RA, SP, A0, A1, A2, A3, A4, A5, A7 = 0, 1, 2, 10, 11, 12, 13, 14, 15, 17


def i_word(opcode, funct3, rd, rs1, value):
    """A word of the I format."""
    return (value & 0xFFF) << 20 | rs1 << 15 | funct3 << 12 | rd << 7 | opcode


def s_word(opcode, funct3, rs1, rs2, value):
    """A word of the S format."""
    return ((value >> 5 & 0x7F) << 25 | rs2 << 20 | rs1 << 15 | funct3 << 12
            | (value & 0x1F) << 7 | opcode)


def b_word(funct3, rs1, rs2, distance):
    """A word of the B format."""
    return ((distance >> 12 & 1) << 31 | (distance >> 5 & 0x3F) << 25 | rs2 << 20 | rs1 << 15
            | funct3 << 12 | (distance >> 1 & 0xF) << 8 | (distance >> 11 & 1) << 7 | 0x63)


def j_word(rd, distance):
    """A word of the J format."""
    return ((distance >> 20 & 1) << 31 | (distance >> 1 & 0x3FF) << 21
            | (distance >> 11 & 1) << 20 | (distance >> 12 & 0xFF) << 12 | rd << 7 | 0x6F)


def shift_word(name, rd, rs1, distance):
    """A shift by a constant."""
    opcode, funct3, top = SHIFTS[name]
    return i_word(opcode, funct3, rd, rs1, top << 6 | distance)


def register_word(name, rd, rs1, rs2):
    """A word of the R format."""
    opcode, funct3, funct7 = REGISTERS[name]
    return funct7 << 25 | rs2 << 20 | rs1 << 15 | funct3 << 12 | rd << 7 | opcode


def atomic_word(name, wide, rd, rs1, rs2):
    """An atomic instruction on 8 bytes if `wide`, else on 4."""
    funct3 = 3 if wide else 2
    return ATOMICS[name] << 27 | rs2 << 20 | rs1 << 15 | funct3 << 12 | rd << 7 | 0x2F


class Code:
    """Instructions from an address on. Jumps and branches name labels of this code."""

    def __init__(self, base=0x10000):
        self.base = base
        self.words = []
        self.places = {}
        self.open = []

    def here(self):
        """The address of the next instruction."""
        return self.base + 4 * len(self.words)

    def label(self, name):
        """The next instruction has this name."""
        self.places[name] = self.here()

    def word(self, word):
        """Any word."""
        self.words.append(word & 0xFFFFFFFF)

    def op(self, name, *parts):
        """An instruction without a label; a load or store as rd or rs2, distance, rs1."""
        if name in REGISTERS:
            self.word(register_word(name, *parts))
        elif name in IMMEDIATES:
            self.word(i_word(0x13, IMMEDIATES[name], *parts))
        elif name in SHIFTS:
            self.word(shift_word(name, *parts))
        elif name in LOADS:
            self.word(i_word(0x03, LOADS[name], parts[0], parts[2], parts[1]))
        elif name in STORES:
            self.word(s_word(0x23, STORES[name], parts[2], parts[0], parts[1]))
        elif name == "lui":
            self.word((parts[1] & 0xFFFFF) << 12 | parts[0] << 7 | 0x37)
        elif name == "jalr":
            self.word(i_word(0x67, 0, *parts))
        else:
            raise ValueError(name)

    def atomic(self, name, wide, rd, rs1, rs2=0):
        """An atomic instruction."""
        self.word(atomic_word(name, wide, rd, rs1, rs2))

    def jump(self, name, rd=ZERO):
        """JAL to a label."""
        self.open.append((len(self.words), "jal", (rd,), name))
        self.word(0)

    def branch(self, kind, rs1, rs2, name):
        """A branch to a label."""
        self.open.append((len(self.words), kind, (rs1, rs2), name))
        self.word(0)

    def put(self, rd, value):
        """The register has this value, which fits 32 bits with a sign, by two instructions."""
        low = (value & 0xFFF) - (0x1000 if value & 0x800 else 0)
        self.op("lui", rd, value - low >> 12)
        self.word(i_word(0x1B, 0, rd, rd, low))

    def call(self, number, *values):
        """A system call with constant arguments; None leaves a register as it is."""
        for place, value in enumerate(values):
            if value is not None:
                self.put(A0 + place, value)
        self.op("addi", A7, ZERO, number)
        self.word(ECALL)

    def bytes(self):
        """The bytes, with each label's distance in place."""
        words = list(self.words)
        for index, kind, registers, name in self.open:
            distance = self.places[name] - (self.base + 4 * index)
            if kind == "jal":
                words[index] = j_word(registers[0], distance)
            else:
                words[index] = b_word(BRANCHES[kind], *registers, distance)
        return b"".join(word.to_bytes(4, "little") for word in words)
