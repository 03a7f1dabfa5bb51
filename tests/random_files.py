"""ELF files and rescue files that are broken at random, and random words of a command line."""
import struct

EDGES = [0, 1, 2, 3, 7, 23, 24, 25, 56, 63, 64, 65, 4095, 4096, 2**16 - 1, 2**31, 2**32 - 1,
         2**63 - 1, 2**63, 2**64 - 16, 2**64 - 1, 0x10000, 0x20000, 0x3F00000000]
FORMATS = {2: "<H", 4: "<I", 8: "<Q"}
# Offsets and widths of the fields of a header, a program header, a section header and a symbol.
HEADER = [(16, 2), (18, 2), (20, 4), (24, 8), (32, 8), (40, 8), (48, 4), (52, 2), (54, 2), (56, 2),
          (58, 2), (60, 2), (62, 2)]
PROGRAM_HEADER = [(0, 4), (4, 4), (8, 8), (16, 8), (32, 8), (40, 8)]
SECTION_HEADER = [(0, 4), (4, 4), (24, 8), (32, 8), (40, 4), (56, 8)]
SYMBOL = [(0, 4), (6, 2), (8, 8), (16, 8)]

LINES = ["version = 1", "version = 2", "version = 3", "version = 4", 'version = "2"', "[[point]]",
         "[point]", "point = []", "point = [1]", "[[point.codes]]", "entry = -4", "entry = 0x10000",
         "entry = 65538", "entry = 9223372036854775807", "entry = 9223372036854775808",
         "entry = 1.0", "entry = true", 'function = "f0"', 'function = "nowhere"', "function = 7",
         "returns = -1", "returns = 'void'", 'returns = "x"', "returns = 1.5", "limit = 0",
         "limit = 1", "limit = 1000001", "codes = {}", "codes = { illegal = 1 }",
         "codes = { load = 1 }", "codes = 3", 'kind = "off"', 'kind = "loose"', 'kind = "blocking"',
         'kind = "none"', "unknown = 1", "# a comment", "\t", "\u00e9 = 1", '"entry" = 65536',
         "entry = 1_0", "[[point", "a.b = 1", 'x = """', "returns = 1979-05-27", "[version]"]
COMMAND_WORDS = ["alone", "run", "list", "load", "--seed", "--seed=1", "--harts", "--harts=2",
                 "--budget", "--budget=100", "--points", "--points=points.toml", "program",
                 "points.toml", "0", "1", "64", "65", "20000000", "20000001", "-1", "+1", "01",
                 "18446744073709551615", "18446744073709551616", "in3:out3", ":", "a:", ":b",
                 "a:b:c", "nowhere", "--", "-", "-s", "--help", "--version", "-h", "-V", "",
                 "--seed=", "--unknown", "help", " ", "\u00e9", "1001", "1e3", "0x10"]


def broken_elf(random, elf):
    """The bytes of this file with some fields changed, cut, or mixed up."""
    whole = bytearray(elf.bytes())
    for _ in range(random.choice([1, 1, 1, 2, 3])):
        if len(whole) < 200:
            break
        random.choice([change_field] * 6 + [change_byte, cut, repeat])(random, elf, whole)
    return bytes(whole)


def change_field(random, elf, whole):
    """One field has a number at an edge, or near what it had."""
    starts = [(0, HEADER)] * 3
    starts += [(64 + 56 * place, PROGRAM_HEADER) for place in range(len(elf.loads))] * 2
    if elf.places:
        sections, symbols = elf.places["sections"], elf.places["symbols"]
        starts += [(sections + 64 * place, SECTION_HEADER) for place in range(3)]
        starts += [(symbols + 24 * place, SYMBOL) for place in range(len(elf.symbols))]
    start, fields = random.choice(starts)
    offset, width = random.choice(fields)
    place = start + offset
    if place + width > len(whole):
        return
    old = struct.unpack_from(FORMATS[width], whole, place)[0]
    new = random.choice([*EDGES, len(whole), old + 1, old - 1, old + 4096, old ^ 4, old * 2])
    struct.pack_into(FORMATS[width], whole, place, new % 256**width)


def change_byte(random, _elf, whole):
    """One byte is any."""
    place = random.randrange(random.choice([64, 200, len(whole)]))
    whole[place] = random.randrange(256)


def cut(random, _elf, whole):
    """The file ends early."""
    del whole[random.randrange(len(whole)):]


def repeat(random, _elf, whole):
    """A part of the file stands once more."""
    start, end = sorted(random.randrange(len(whole)) for _ in range(2))
    place = random.randrange(len(whole))
    whole[place:place] = whole[start:end]


def broken_points(random, text):
    """The bytes of a rescue file with lines added, taken away or mixed, or bytes changed."""
    lines = text.splitlines()
    for _ in range(random.choice([0, 1, 1, 2, 3, 8])):
        place = random.randrange(len(lines) + 1)
        kind = random.randrange(10)
        if kind < 6 and lines:
            place %= len(lines)
            key = lines[place].split(" ")[0]
            lines[place] = random.choice([line for line in LINES if line.split(" ")[0] == key])
        elif kind < 8:
            lines.insert(place, random.choice(LINES))
        elif lines:
            del lines[place % len(lines)]
    if random.random() < 0.1:
        random.shuffle(lines)
    whole = bytearray("\n".join(lines).encode())
    if whole and random.random() < 0.2:
        for _ in range(random.randrange(1, 4)):
            whole[random.randrange(len(whole))] = random.randrange(256)
    if random.random() < 0.05:
        whole[0:0] = random.choice([b"\xef\xbb\xbf", b"\xff\xfe", b"\0", b"\r\n", b"[" * 300])
    return bytes(whole)


def random_words(random):
    """Words of a command line, mostly near a good one."""
    words = random.choice([["alone", "--budget", "1000", "program"], ["list", "program"],
                           ["alone", "--points", "points.toml", "--budget=500", "program"],
                           ["load", "1"], []])
    words = list(words)
    for _ in range(random.choice([1, 1, 2, 3])):
        place = random.randrange(len(words) + 1)
        if words and random.random() < 0.4:
            words[place % len(words)] = random.choice(COMMAND_WORDS)
        else:
            words.insert(place, random.choice(COMMAND_WORDS))
    return words
