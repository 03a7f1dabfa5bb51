"""Guests and files that ask for as much as the limits allow: each is one row of docs/LIMITS.md."""
import struct
from dataclasses import dataclass

import guest_code as words
from elf_files import Elf, Load, Symbol, plain_elf, section_header
from guest_code import A0, RA, SP, ZERO, Code
from rescue_points import Point, points_text
from worked_guests import smallest

DATA = 0x20000
AREA = 64 << 20


@dataclass
class Dear:
    """A row: its name, its steps (none for a file), words and files."""
    name: str
    steps: int | None
    words: list
    files: dict


def loop(code):
    """The plain loop that others are measured by."""
    code.label("again")
    code.op("addi", 5, 5, 1)
    code.jump("again")


def call_of_point(body):
    """A loop of a call of a point, with this word as its whole body."""
    def put(code):
        code.label("again")
        code.jump("point", RA)
        code.op("addi", 5, 5, 1)
        code.jump("again")
        code.label("point")
        code.word(body)
    return put


RETURN, FAULT = 0x00008067, words.EBREAK


def sixteen_frames(last):
    """A point calls itself 16 times and stores to the same 256 pages each time."""
    def put(code):
        code.put(8, DATA)
        code.put(20, 4096)
        code.label("again")
        code.op("addi", 9, ZERO, 16)
        code.jump("point", RA)
        code.jump("again")
        code.label("point")
        code.op("addi", SP, SP, -16)
        code.op("sd", RA, 0, SP)
        code.put(21, 256)
        code.op("addi", 22, 8, 0)
        code.label("stores")
        code.op("sd", 21, 0, 22)
        code.op("add", 22, 22, 20)
        code.op("addi", 21, 21, -1)
        code.branch("bne", 21, ZERO, "stores")
        code.op("addi", 9, 9, -1)
        code.branch("beq", 9, ZERO, "ends")
        code.jump("point", RA)
        code.label("ends")
        code.op("ld", RA, 0, SP)
        code.op("addi", SP, SP, 16)
        code.word(last)
    return put


def waiters(code):
    """63 harts wait on one word, and are woken one by one."""
    code.put(9, 63)
    code.label("makes")
    code.call(words.CLONE, words.THREAD_FLAGS)
    code.branch("beq", A0, ZERO, "waits")
    code.op("addi", 9, 9, -1)
    code.branch("bne", 9, ZERO, "makes")
    code.label("wakes")
    code.call(words.FUTEX, DATA, 1, 1)
    code.call(words.YIELD)
    code.jump("wakes")
    code.label("waits")
    code.call(words.FUTEX, DATA, 0, 0, 0)
    code.jump("waits")


def clones(code):
    """A hart is made and ends, again and again."""
    code.label("again")
    code.call(words.CLONE, words.THREAD_FLAGS)
    code.branch("beq", A0, ZERO, "ends")
    code.call(words.YIELD)
    code.jump("again")
    code.label("ends")
    code.call(words.EXIT, 0)


def bytes_moved(number, fd):
    """Reads or writes of one byte."""
    def put(code):
        code.put(11, DATA)
        code.op("addi", 12, ZERO, 1)
        code.op("addi", 17, ZERO, number)
        code.label("again")
        code.op("addi", A0, ZERO, fd)
        code.word(words.ECALL)
        code.jump("again")
    return put


def map_pages(code, count):
    """So many calls of mmap of one page."""
    code.put(9, count)
    code.label("maps")
    code.call(words.MMAP, 0, 4096, 3, 0x22)
    code.op("addi", 9, 9, -1)
    code.branch("bne", 9, ZERO, "maps")


def page_by_page(code):
    """16,384 pages are mapped one by one, and unmapped one by one from the lowest."""
    code.label("again")
    map_pages(code, 16384)
    code.put(9, 16384)
    code.put(19, 4096)
    code.op("addi", 18, ZERO, 0x7F)
    code.op("slli", 18, 18, 31)
    code.label("unmaps")
    code.op("addi", A0, 18, 0)
    code.call(words.MUNMAP, None, 4096)
    code.op("add", 18, 18, 19)
    code.op("addi", 9, 9, -1)
    code.branch("bne", 9, ZERO, "unmaps")
    code.jump("again")


def last_page(code):
    """The last page of a full area comes and goes."""
    map_pages(code, 16383)
    code.label("again")
    code.call(words.MMAP, 0, 4096, 3, 0x22)
    code.call(words.MUNMAP, None, 4096)
    code.jump("again")


def area_at_once(code):
    """The whole area comes and goes."""
    code.label("again")
    code.call(words.MMAP, 0, AREA, 3, 0x22)
    code.call(words.MUNMAP, None, AREA)
    code.jump("again")


def break_at_once(code):
    """The whole heap comes and goes."""
    code.label("again")
    code.call(words.BRK, AREA)
    code.call(words.BRK, DATA + 0x1000)
    code.jump("again")


def area_taken_back(code):
    """A point unmaps the whole area and faults, so that all pages are put back."""
    code.call(words.MMAP, 0, AREA, 3, 0x22)
    code.label("again")
    code.jump("point", RA)
    code.jump("again")
    code.label("point")
    code.op("addi", A0, ZERO, 0x7F)
    code.op("slli", A0, A0, 31)
    code.call(words.MUNMAP, None, AREA)
    code.word(words.EBREAK)


def stores_in_point(code):
    """A point that only stores, to the same 32 bytes."""
    code.put(8, DATA)
    code.jump("point", RA)
    code.label("point")
    code.op("addi", 5, ZERO, 1)
    code.label("stores")
    for distance in range(0, 32, 8):
        code.op("sd", 5, distance, 8)
    code.jump("stores")


def pages_in_point(code):
    """A point in which one page comes and goes."""
    code.jump("point", RA)
    code.label("point")
    code.op("addi", 5, ZERO, 1)
    code.label("again")
    code.call(words.MMAP, 0, 4096, 3, 0x22)
    code.call(words.MUNMAP, None, 4096)
    code.jump("again")


def guest_row(name, steps, put, harts=8, data=4096):
    """A row of a guest: its point is the label `point` where it has one."""
    code = Code()
    put(code)
    files = {"guest": plain_elf(code, data_size=data).bytes()}
    line = ["alone", f"--budget={steps}", f"--harts={harts}"]
    if "point" in code.places:
        files["points.toml"] = points_text([Point(code.places["point"], -1)]).encode()
        line += ["--points", "points.toml"]
    return Dear(name, steps, [*line, "guest"], files)


def guest_rows():
    """The rows of guests. The first is what the others are measured by."""
    return [
        guest_row("a plain loop", 20_000_000, loop),
        guest_row("a point entered at every fourth step", 200_000, call_of_point(RETURN)),
        guest_row("the same with 64 slots", 100_000, call_of_point(RETURN), 64),
        guest_row("a point rescued at every third step", 60_000, call_of_point(FAULT)),
        guest_row("the same with 64 slots", 60_000, call_of_point(FAULT), 64),
        guest_row("16 frames store to the same 256 pages, and return", 500_000,
                  sixteen_frames(RETURN), data=1 << 20),
        guest_row("the same, and each is rescued", 500_000, sixteen_frames(FAULT), data=1 << 20),
        guest_row("one call of a point, with 16,000,000 stores", 20_000_000, stores_in_point),
        guest_row("one call of a point, in which a page comes and goes", 100_000, pages_in_point),
        guest_row("63 wait, one is woken", 500_000, waiters, 64),
        guest_row("clones and exits", 500_000, clones, 64),
        guest_row("writes of one byte", 100_000, bytes_moved(words.WRITE, 1)),
        guest_row("reads of one byte", 100_000, bytes_moved(words.READ, 0)),
        guest_row("16,384 pages mapped and unmapped one by one", 250_000, page_by_page),
        guest_row("the last page of 16,384 mapped and unmapped", 250_000, last_page),
        guest_row("16,384 pages mapped and unmapped at once", 100, area_at_once),
        guest_row("the break moved by 16,384 pages", 100, break_at_once),
        guest_row("16,384 pages unmapped in a point, and put back", 40, area_taken_back),
    ]


def many_sections():
    """65,535 section headers, the symbols' last."""
    elf = smallest().bytes()
    table = struct.pack("<IBBHQQ", 1, 2, 0, 1, 0x10000, 0)
    start = len(elf) + len(table) + 3
    headers = bytes(64) * 65533 + section_header(3, len(elf) + len(table), 3, 0, 0)
    headers += section_header(2, len(elf), len(table), 65533, 24)
    return with_sections(elf + table + b"\0f\0" + headers, start, 65535)


def with_sections(contents, start, count):
    """The file with its section headers there."""
    whole = bytearray(contents)
    struct.pack_into("<Q", whole, 40, start)
    struct.pack_into("<HH", whole, 58, 64, count)
    return bytes(whole)


def many_symbols(count, length):
    """So many symbols with names of their own, so long."""
    elf = smallest()
    elf.loads[0].size = 4096
    elf.symbols = [Symbol(f"f{number}".ljust(length, "_").encode(), 0x10000 + 4 * (number % 1024))
                   for number in range(count)]
    return elf.bytes()


def overlapping_names(count, length):
    """So many symbols whose names are the ends of one that is so long."""
    elf = smallest().bytes()
    names = b"\0" + b"a" * length + b"\0"
    table = b"".join(struct.pack("<IBBHQQ", 1 + number, 2, 0, 1, 0x10000, 0)
                     for number in range(count))
    start = len(elf) + len(names) + len(table)
    headers = (bytes(64) + section_header(2, len(elf) + len(names), len(table), 2, 24)
               + section_header(3, len(elf), len(names), 0, 0))
    return with_sections(elf + names + table + headers, start, 3)


def names_that_nearly_fit(count, points, length):
    """The symbols of so many points, and up to a count more whose names differ in the last byte."""
    smaller = smallest()
    smaller.loads[0].size = 4096
    elf = smaller.bytes()
    wanted = [f"f{number}".ljust(length, "_").encode() for number in range(points)]
    names = wanted + [name[:-1] + b"x" for name in wanted]
    table = bytearray()
    for number in range(count):
        name = number if number < points else points + number % points
        value = 0x10000 + 4 * (number % 1024)
        table += struct.pack("<IBBHQQ", 1 + name * (length + 1), 2, 0, 1, value, 0)
    strings = b"\0" + b"\0".join(names) + b"\0"
    start = len(elf) + len(strings) + len(table)
    headers = (bytes(64) + section_header(2, len(elf) + len(strings), len(table), 2, 24)
               + section_header(3, len(elf), len(strings), 0, 0))
    return with_sections(elf + strings + table + headers, start, 3)


def many_loads():
    """64 loads of 1 MiB each, zero in the file."""
    text = smallest()
    loads = [Load(0x100000 * (number + 1), b"", 0xFF000, 6) for number in range(63)]
    return Elf([*text.loads, *loads], text.entry).bytes()


def long_text():
    """16 MiB of instructions."""
    code = smallest().loads[0].contents
    text = code + bytes((16 << 20) - 4096 - len(code))
    return Elf([Load(0x10000, text, len(text), 5)], 0x10000).bytes()


def named_points(count, length, lines=""):
    """A rescue file of so many points by names so long, with further lines at each."""
    texts = [f'[[point]]\nfunction = "{f"f{number}".ljust(length, "_")}"\nreturns = -1\n{lines}'
             for number in range(count)]
    return "".join(texts).encode()


def file_rows():
    """The rows of files."""
    line, pointed = ["list", "guest"], ["alone", "--points", "points.toml", "guest"]
    names = {"guest": many_symbols(340_000, 24), "points.toml": named_points(256, 24)}
    keys = "".join(f"k{number} = 1\n" for number in range(100_000)).encode()
    return [
        Dear("65,535 sections", None, line, {"guest": many_sections()}),
        Dear("340,000 symbols with names of 24 bytes, listed", None, line, names),
        Dear("the same, and 256 points by name", None, pointed, names),
        Dear("256 points in 1 MiB, by names of 4,000 bytes", None, pointed,
             {"guest": many_symbols(256, 4000), "points.toml": named_points(256, 4000)}),
        Dear("340,000 symbols, 256 points by names of 4,000 bytes that nearly fit", None, pointed,
             {"guest": names_that_nearly_fit(340_000, 256, 4000),
              "points.toml": named_points(256, 4000)}),
        Dear("1,000 symbols whose names are ends of one of 100,000 bytes", None, pointed,
             {"guest": overlapping_names(1000, 100_000), "points.toml": b""}),
        Dear("the same with 1,000,000 bytes", None, pointed,
             {"guest": overlapping_names(1000, 1_000_000), "points.toml": b""}),
        Dear("100,000 keys in a rescue file", None, pointed,
             {"guest": smallest().bytes(), "points.toml": keys[:1 << 20]}),
        Dear("64 loads with 64 MiB", None, ["alone", "guest"], {"guest": many_loads()}),
        Dear("a text of 16 MiB", None, ["alone", "guest"], {"guest": long_text()}),
    ]
