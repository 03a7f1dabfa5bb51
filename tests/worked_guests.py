"""Guests whose runs are worked out by hand, as ELF files with their rescue files."""
import guest_code as words
from elf_files import Elf, Load, Symbol, plain_elf
from guest_code import A0, A1, A2, A3, A7, ECALL, RA, SP, ZERO, Code
from rescue_points import Point, points_text

DATA = 0x20000
THREADS_AND_TID_PLACES = 0x350F00


def smallest():
    """Exits with 7."""
    code = Code()
    code.op("addi", A7, ZERO, words.EXIT)
    code.op("addi", A0, ZERO, 7)
    code.word(ECALL)
    return plain_elf(code, data_size=0)


def server():
    """Two harts with a port each: a request is read, handled under a point, answered K or E."""
    code = Code()
    server_start(code)
    server_requests(code)
    server_ending(code)
    handle = server_handle(code)
    symbols = [Symbol(b"_start", code.base), Symbol(b"handle", handle, 36)]
    points = points_text([Point(handle, -1, name="handle")], 1)
    return plain_elf(code, symbols=symbols), points


def server_start(code):
    """The child is made, and each hart has its port in x9."""
    code.op("lui", 8, DATA >> 12)
    code.op("addi", 9, ZERO, 3)
    code.put(A0, THREADS_AND_TID_PLACES)
    code.op("lui", A1, (DATA >> 12) + 1)
    code.op("addi", A2, 8, 0)
    code.op("addi", A3, ZERO, 0)
    code.op("addi", 14, 8, 0)
    code.call(words.CLONE)
    code.branch("bne", A0, ZERO, "parent")
    code.op("addi", 9, ZERO, 4)
    code.label("parent")


def server_requests(code):
    """Each hart reads its request, has it handled, and writes its answer."""
    code.op("slli", 18, 9, 6)
    code.op("add", 18, 18, 8)
    code.op("addi", A0, 9, 0)
    code.op("addi", A1, 18, 0)
    code.op("addi", A2, ZERO, 16)
    code.call(words.READ)
    code.op("addi", A1, A0, 0)
    code.op("addi", A0, 18, 0)
    code.jump("handle", RA)
    code.op("addi", 5, ZERO, ord("K"))
    code.branch("bge", A0, ZERO, "good")
    code.op("addi", 5, ZERO, ord("E"))
    code.label("good")
    code.op("sb", 5, 32, 18)
    code.op("addi", A0, 9, 0)
    code.op("addi", A1, 18, 32)
    code.op("addi", A2, ZERO, 1)
    code.call(words.WRITE)


def server_ending(code):
    """The first hart waits for the child's end, and then the run ends."""
    code.op("addi", 5, ZERO, 4)
    code.branch("beq", 9, 5, "gone")
    code.label("waits")
    code.op("lw", A2, 0, 8)
    code.branch("beq", A2, ZERO, "gone")
    code.op("addi", A0, 8, 0)
    code.op("addi", A1, ZERO, 0)
    code.op("addi", A3, ZERO, 0)
    code.call(words.FUTEX)
    code.jump("waits")
    code.label("gone")
    code.op("addi", A0, ZERO, 0)
    code.call(words.EXIT)


def server_handle(code):
    """The point: it loads from 0 where the request begins with an x."""
    handle = code.here()
    code.label("handle")
    code.op("addi", SP, SP, -16)
    code.op("lbu", 5, 0, A0)
    code.op("sb", 5, 15, SP)
    code.op("addi", 6, ZERO, ord("x"))
    code.branch("bne", 5, 6, "answers")
    code.op("ld", 7, 0, ZERO)
    code.label("answers")
    code.op("addi", A0, A1, 0)
    code.op("addi", SP, SP, 16)
    code.op("jalr", ZERO, RA, 0)
    return handle


def nested():
    """A call of a point stores and writes under another one, which faults behind it."""
    code = Code()
    code.op("lui", 8, DATA >> 12)
    code.jump("outer", RA)
    code.op("lbu", 5, 0, 8)
    code.op("add", A0, A0, 5)
    code.op("addi", A7, ZERO, words.EXIT)
    code.word(ECALL)
    code.label("outer")
    code.op("addi", SP, SP, -16)
    code.op("sd", RA, 0, SP)
    code.jump("inner", RA)
    code.op("ld", 7, 0, ZERO)
    code.label("inner")
    code.op("addi", 5, ZERO, 34)
    code.op("sb", 5, 0, 8)
    code.op("addi", A0, ZERO, 1)
    code.op("addi", A1, 8, 0)
    code.op("addi", A2, ZERO, 1)
    code.call(words.WRITE)
    code.op("jalr", ZERO, RA, 0)
    points = points_text([Point(code.places["outer"], -2), Point(code.places["inner"], -3)], 1)
    return plain_elf(code, b"\x11"), points


def harts_and_pages():
    """Three harts map, fill and unmap pages under nested points, of which some fault."""
    code = Code()
    code.op("lui", 8, DATA >> 12)
    for number in (1, 2):
        code.call(words.CLONE, words.CLEARED_FLAGS, DATA + 0x1000 * number, 0, 0, DATA)
        code.branch("beq", A0, ZERO, "works")
    code.label("works")
    code.op("addi", 9, ZERO, 4)
    code.label("again")
    code.jump("outer", RA)
    code.op("addi", 9, 9, -1)
    code.branch("bne", 9, ZERO, "again")
    code.call(words.WRITE, 1, DATA, 8)
    code.call(words.EXIT, 0)
    outer_and_inner(code)
    points = [Point(code.places["outer"], -1, {"breakpoint": "void"}, 9),
              Point(code.places["inner"], -2)]
    return plain_elf(code, b"\x01" * 8, 0x4000), points_text(points)


def outer_and_inner(code):
    """Outer maps pages, moves the break and calls inner, which stores, clones and may fault."""
    code.label("outer")
    code.op("addi", SP, SP, -16)
    code.op("sd", RA, 0, SP)
    code.call(words.MMAP, 0, 12288, 3, 0x22)
    code.op("addi", 19, A0, 0)
    code.call(words.BRK, DATA + 0x6000)
    code.jump("inner", RA)
    code.op("addi", A0, 19, 0)
    code.call(words.MUNMAP, None, 8192)
    code.op("andi", 5, 9, 2)
    code.branch("beq", 5, ZERO, "well")
    code.word(words.EBREAK)
    code.label("well")
    code.op("ld", RA, 0, SP)
    code.op("addi", SP, SP, 16)
    code.op("jalr", ZERO, RA, 0)
    code.label("inner")
    code.op("sd", 9, 8, 19)
    code.op("sd", 9, 0x700, 8)
    code.call(words.WRITE, 1, DATA, 1)
    code.op("andi", 5, 9, 1)
    code.branch("beq", 5, ZERO, "ends")
    code.op("sd", 9, 0, ZERO)
    code.label("ends")
    code.op("jalr", ZERO, RA, 0)


def two_names():
    """The smallest program with two symbols of one name, and one of another."""
    elf = smallest()
    elf.symbols = [Symbol(b"f", 0x10000), Symbol(b"f", 0x10004), Symbol(b"alone", 0x10008)]
    return elf


RESCUE_FILES = {
    "": None,
    'version = 1\n[[point]]\nfunction = "alone"\nreturns = -1\nkind = "blocking"\n': None,
    '[[point]]\nfunction = "f"\nreturns = 0\n': "ambiguous at 0",
    '[[point]]\nfunction = "g"\nreturns = 0\n': "unknown-function at 0",
    "[[point]]\nentry = 65538\nreturns = 0\n": "misaligned at 0",
    "[[point]]\nentry = 65536\nreturns = 0\n[[point]]\nentry = 65536\nreturns = 1\n": "twice at 1",
    '[[point]]\nentry = 65536\nreturns = "x"\n': "bad-return at 0",
}

__all__ = ["smallest", "server", "nested", "harts_and_pages", "two_names", "RESCUE_FILES",
           "Elf", "Load"]
