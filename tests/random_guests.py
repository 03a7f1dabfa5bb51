"""Random guests: functions that compute, store, call each other, make calls and meet faults.

Register x8 holds the data's address, x9 counts the turns of the main loop, x18 is the hart's own
number. All others but ra and sp hold anything.
"""
import guest_code as words
from elf_files import Symbol, plain_elf
from guest_code import Code

DATA, DATA_SIZE = 0x20000, 8192
ANY = [5, 6, 7, 10, 11, 12, 13, 14, 15, 16, 28, 29, 30, 31]
TEMPORARY = [0, *ANY]
MOST_FUNCTIONS = 5
# Ends of ranges, as a number and how far it is shifted: of words, of pages, of the data and the
# heap, of the area of mapped pages.
ENDS = [(0, 0), (1, 0), (-1, 0), (1, 63), (1, 31), (1, 32), (1, 12), (-1, 12), (0x10, 13),
        (0x11, 13), (0x7F, 31), (0xFF, 30), (1, 26), (1, 30)]


class Guest:
    """A guest as it is made from a source of random numbers."""

    def __init__(self, random, ports):
        self.random = random
        self.ports = ports
        self.code = Code()
        self.functions = [f"f{number}" for number in range(random.randrange(1, MOST_FUNCTIONS))]
        self.labels = 0

    def made(self):
        """The code: the start, the main loop, the functions."""
        self.start()
        self.body(self.random.randrange(2, 12), len(self.functions), [self.fault] * (
            self.random.random() < 0.1))
        self.code.op("addi", 9, 9, -1)
        self.code.branch("bne", 9, 0, "again")
        self.ending()
        for place, name in enumerate(self.functions):
            self.function(name, place)
        return self.code

    def start(self):
        """Registers, and some harts."""
        code, random = self.code, self.random
        code.put(8, DATA)
        code.put(9, random.choice([1, 1, 2, 3, 10, 1000]))
        code.op("addi", 18, 0, 0)
        for register in random.sample(ANY, 6):
            code.put(register, self.value())
        for number in range(random.choice([0, 0, 0, 1, 2, 3, 7])):
            flags = random.choice([words.THREAD_FLAGS, words.CLEARED_FLAGS, words.NAMED_FLAGS])
            parent = DATA + 4 * random.randrange(8)
            code.call(words.CLONE, flags, DATA + DATA_SIZE - 512 * number - 512, parent, 0,
                      DATA + 4 * random.randrange(8))
            code.branch("beq", words.A0, 0, "again")
            code.op("addi", 18, 18, 1)
        code.label("again")

    def value(self):
        """A number that is small, an address, or at an end of a range."""
        random = self.random
        return random.choice([0, 1, -1, random.randrange(-2048, 2048), 0x7FFFFFFF, -0x80000000,
                              DATA + random.randrange(DATA_SIZE), DATA + DATA_SIZE - 4,
                              0x10000 + 4 * random.randrange(64), random.randrange(-2**31, 2**31)])

    def ending(self):
        """How a hart ends."""
        kind = self.random.randrange(10)
        if kind < 6:
            self.code.call(words.EXIT, self.random.randrange(300))
        elif kind < 8:
            self.code.call(words.EXIT_GROUP, self.random.randrange(300))
        elif kind == 8:
            self.code.jump("again")
        self.code.word(self.random.choice([0, words.EBREAK]))

    def function(self, name, place):
        """A function, which calls those behind it, and seldom itself or those before it."""
        code, random = self.code, self.random
        code.label(name)
        if random.random() < 0.1:
            code.jump(random.choice(self.functions))
        deep = 16 * random.randrange(1, 4)
        code.op("addi", words.SP, words.SP, -deep)
        code.op("sd", words.RA, 0, words.SP)
        self.body(random.randrange(1, 10), len(self.functions) - place - 1, [self.fault] * 2)
        if random.random() < 0.95:
            code.op("ld", words.RA, 0, words.SP)
            code.op("addi", words.SP, words.SP, deep)
        code.op("jalr", 0, words.RA, 0)

    def body(self, count, callees, faults):
        """So many pieces in a row."""
        pieces = [self.compute] * 5 + [self.access] * 5 + [self.atomic] * 2 + [self.skip] * 2 + [
            self.system] * 4 + [self.call_at_ends] + faults
        pieces += [lambda: self.call(callees)] * (8 if callees else 1)
        for _ in range(count):
            self.random.choice(pieces)()

    def compute(self):
        """Instructions on registers."""
        code, random = self.code, self.random
        for _ in range(random.randrange(1, 5)):
            rd, rs1, rs2 = (random.choice(TEMPORARY) for _ in range(3))
            kind = random.randrange(4)
            if kind == 0:
                code.op(random.choice(list(words.IMMEDIATES)), rd, rs1,
                        random.randrange(-2048, 2048))
            elif kind == 1:
                name = random.choice(list(words.SHIFTS))
                code.op(name, rd, rs1, random.randrange(32 if name.endswith("w") else 64))
            elif kind == 2:
                code.op(random.choice(list(words.REGISTERS)), rd, rs1, rs2)
            else:
                code.put(random.choice(ANY), self.value())

    def access(self):
        """Loads and stores: in the data, on the stack, seldom anywhere."""
        code, random = self.code, self.random
        for _ in range(random.randrange(1, 4)):
            base = random.choices([8, words.SP, random.choice(ANY)], [40, 10, 1])[0]
            distance = random.randrange(-2048, 2048)
            if base == words.SP:
                distance = random.randrange(8, 16)
            elif base == 8 and random.random() < 0.98:
                distance = random.randrange(0, 2040)
            name = random.choice([*words.LOADS, *words.STORES, *words.STORES])
            code.op(name, random.choice(ANY), distance, base)

    def atomic(self):
        """An atomic instruction in the data, seldom across its width or anywhere."""
        code, random = self.code, self.random
        place, wide = random.choice(ANY), random.random() < 0.5
        if random.random() < 0.95:
            code.op("addi", place, 8, random.randrange(0, 64, 4 if random.random() < 0.1 else 8))
        if random.random() < 0.3:
            code.atomic("lr", wide, random.choice(ANY), place)
            self.compute()
            code.atomic("sc", wide, random.choice(ANY), place, random.choice(ANY))
        else:
            name = random.choice(list(words.ATOMICS))
            code.atomic(name, wide, random.choice(ANY), place,
                        0 if name == "lr" else random.choice(ANY))

    def skip(self):
        """A branch over a piece, or the piece in a short loop."""
        code, random = self.code, self.random
        self.labels += 1
        name = f"skip{self.labels}"
        kind, rs1, rs2 = random.choice(list(words.BRANCHES)), random.choice(ANY), random.choice(ANY)
        if random.random() < 0.94:
            code.branch(kind, rs1, rs2, name)
            random.choice([self.compute, self.access])()
            code.label(name)
        else:
            code.label(name)
            random.choice([self.compute, self.access])()
            code.branch(kind, rs1, rs2, name)

    def call(self, callees):
        """A call of a function that stands behind, or of any."""
        if callees and self.random.random() < 0.93:
            name = self.random.choice(self.functions[len(self.functions) - callees:])
        else:
            name = self.random.choice(self.functions)
        self.code.jump(name, words.RA)

    def fault(self):
        """An act that mostly is a fault."""
        code, random = self.code, self.random
        kind = random.randrange(6)
        if kind == 0:
            code.op("ld", 5, random.randrange(0, 2048), 0)
        elif kind == 1:
            code.op("sd", 5, random.randrange(-2048, 0), 8)
        elif kind == 2:
            code.word(random.choice([words.EBREAK, random.randrange(2**32)]))
        elif kind == 3:
            code.op("jalr", random.choice([0, 1]), random.choice(ANY), random.randrange(4))
        elif kind == 4:
            code.op("lw", words.A2, 0, 8)
            code.call(words.FUTEX, DATA, 0, None, 0)
        else:
            code.op("jalr", words.RA, 8, random.choice([0, 2]))

    def system(self):
        """A call with arguments that are mostly good."""
        code, random = self.code, self.random
        place = DATA + random.randrange(DATA_SIZE) if random.random() < 0.9 else self.value()
        size = random.choice([0, 1, 2, 8, 16, 4096, 65535, 65536, 2**31 - 1, -1])
        size = random.randrange(64) if random.random() < 0.7 else size
        fd = random.randrange(self.ports + 4) if random.random() < 0.95 else self.value()
        pages = 4096 * random.choice([0, 1, 1, 2, 3, 16, 16384, 16385]) + random.choice([0, 0, 5])
        mapped = 0x7FFFF000 if random.random() < 0.05 else 0
        number, *values = random.choice([
            (words.READ, random.choice([0, fd]), place, size),
            (words.WRITE, random.choice([1, fd]), place, size),
            (words.WRITE, random.choice([1, 2, fd]), place, size),
            (words.CLOSE, fd if random.random() < 0.2 else 9),
            (words.FUTEX, DATA + 4 * random.randrange(8), 1 + random.choice([0, 128]), 1, 0),
            (words.FUTEX, place & -4, random.choice([0, 128]), self.value(), 0),
            (words.YIELD,), (words.GETTID,),
            (words.BRK, 0x22000 + random.randrange(-4096, 65536)),
            (words.MMAP, 0, pages, random.randrange(5), random.choice([0x22, 0x22, 0x4022, 0x21])),
            (words.MUNMAP, mapped, pages),
            (random.randrange(300), self.value(), self.value()),
        ])
        if number == words.MUNMAP and not mapped:
            self.unmap(pages)
        else:
            code.call(number, *values)

    def call_at_ends(self):
        """A call whose arguments lie at the ends of ranges, or one beside them."""
        code, random = self.code, self.random
        for register in range(words.A0, words.A0 + 3):
            number, shift = random.choice(ENDS)
            code.op("addi", register, 0, number)
            code.op("slli", register, register, shift)
            code.op("addi", register, register, random.choice([0, 0, 0, -1, 1]))
        code.put(words.A0 + 3, 0x22)
        code.call(random.choice([words.BRK, words.MMAP, words.MUNMAP, words.MUNMAP, words.READ,
                                 words.WRITE, words.CLOSE, words.FUTEX, words.CLONE]))

    def unmap(self, pages):
        """MUNMAP of the first pages of the area, or of the answer of an MMAP before."""
        code, random = self.code, self.random
        if random.random() < 0.5:
            code.call(words.MMAP, 0, 8192, 3, 0x22)
            code.op("sd", 5, random.randrange(0, 2040), words.A0)
        else:
            code.op("addi", words.A0, 0, 0x7F)
            code.op("slli", words.A0, words.A0, 31)
        code.call(words.MUNMAP, None, pages)


def random_guest(random, ports):
    """The ELF of a guest, and its functions as pairs of name and address."""
    code = Guest(random, ports).made()
    functions = [(name, place) for name, place in code.places.items() if name[0] == "f"]
    symbols = [Symbol(name.encode(), place, 4 * random.randrange(20)) for name, place in functions]
    data = random.randbytes(random.randrange(64))
    return plain_elf(code, data, DATA_SIZE, DATA, symbols), functions
