#!/usr/bin/env python3
"""Tries three tables of hostile files and failing devices through the built program.

    tests/tables.py RESCUE

The smallest program cut at every length, the server of two ports with one failing call after the
other, and files whose program headers, sections or rescue points break one rule. Statuses and
lines are those of the manual. Says where one differs, and ends with 1.
"""
import os
import struct

import outcome
import worked_guests as guests
from workplace import parser, workplace

Q = 64
SECOND_SECTION = 64


def write(**files):
    """Writes files into this folder."""
    for name, contents in files.items():
        with open(name, "wb") as file:
            file.write(contents)


def cut_rows():
    """The smallest program at every length: contents, status, line."""
    whole = guests.smallest().bytes()
    for length in range(len(whole) + 1):
        if length < 64:
            line = f"elf too-short at {length}"
        elif length < 120:
            line = "elf headers-outside at 32"
        else:
            line = "elf segment-outside at 72"
        yield whole[:length], b"", line if length < len(whole) else None


def changed(contents, place, form, value):
    """The bytes with one field changed."""
    whole = bytearray(contents)
    struct.pack_into(form, whole, place, value)
    return bytes(whole)


def segment_rows():
    """The smallest program with a hostile program header."""
    whole = guests.smallest().bytes()
    two = changed(changed(whole, Q + 32, "<Q", 2), Q + 40, "<Q", 2)
    yield changed(two, Q + 8, "<Q", 2**64 - 1), b"", f"elf segment-outside at {Q + 8}"
    none = changed(whole, Q + 32, "<Q", 0)
    yield changed(none, Q + 40, "<Q", 2**64 - 1), b"", f"elf segment-place at {Q + 16}"
    yield changed(whole, Q + 4, "<I", 7), b"", f"elf write-execute at {Q + 4}"


def section_rows():
    """The server with a hostile symbol table."""
    elf = guests.server()[0]
    whole, q = elf.bytes(), elf.places["sections"] + SECOND_SECTION
    for place, form, value, line in [
            (q + 56, "<Q", 23, f"entry-size at {q + 56}"),
            (q + 32, "<Q", 25, f"entry-size at {q + 32}"),
            (q + 24, "<Q", 2**64 - 16, f"table-outside at {q + 24}"),
            (q + 32, "<Q", 2**64 - 16, f"table-outside at {q + 24}"),
            (q + 40, "<I", 3, f"string-section at {q + 40}"),
            (elf.places["symbols"] + 24, "<I", 2**32 - 1,
             f"name-outside at {elf.places['symbols'] + 24}")]:
        yield changed(whole, place, form, value), b"", f"symbols {line}"


def point_rows():
    """The smallest program with a hostile rescue file."""
    whole = guests.smallest().bytes()
    yield whole, b"[[point]]\n" * 257, "points too-many at top"
    yield whole, b"[[point]]\nentry = -4\nreturns = 0\n", "points bad-value at 0"
    yield whole, b"\xff\xfe", "points toml at top"


STATUSES = {"elf": 68, "symbols": 69, "points": 73}


def file_faults(rescue):
    """What differs in the tables of files."""
    rows = [*cut_rows(), *segment_rows(), *section_rows(), *point_rows()]
    for number, (program, points, line) in enumerate(rows):
        write(program=program, points=points)
        came = outcome.run(rescue, ["alone", "--points", "points", "program"])
        if line is None:
            good = came.status == 7 and came.report()
        else:
            refused = came.refusal() == f"refused: {line}".encode()
            good = refused and (came.status, came.out) == (STATUSES[line.split()[0]], b"")
        if not good:
            yield f"file {number}: {came.status} {came.err!r} in place of {line}"


# The failing call; files of IN and OUT of both ports; what these were given, or None where that
# can't be seen; rescues; status. A folder can be opened and not read, a full device not be written.
FAILING = [
    ("none", "a", "b", "c", "d", b"K", b"E", 1, 0),
    ("the first port's read", ".", "b", "c", "d", b"E", b"E", 1, 0),
    ("the first port's write", "a", "/dev/full", "c", "d", None, b"E", 1, 0),
    ("the second port's read", "a", "b", ".", "d", b"K", b"E", 0, 0),
    ("the second port's write", "a", "b", "c", "/dev/full", b"K", None, 1, 0),
]


def device_faults(rescue):
    """What differs where a device of the server fails."""
    elf, points = guests.server()
    write(server=elf.bytes(), points=points.encode(), a=b"ok\n", c=b"x\n")
    for name, first_in, first_out, second_in, second_out, first, second, rescues, status in FAILING:
        came = outcome.run(rescue, ["alone", "--points", "points", "server",
                                    f"{first_in}:{first_out}", f"{second_in}:{second_out}"])
        report = came.report()
        counts = (int(report.group(2)), int(report.group(3))) if report else None
        if (came.status, counts) != (status, (4, rescues)):
            yield f"{name} fails: {came.status} {came.err!r}"
        for path, text in ((first_out, first), (second_out, second)):
            if text is not None and read(path) != text:
                yield f"{name} fails: {path} has {read(path)!r} in place of {text!r}"


def read(path):
    """What a file holds."""
    with open(path, "rb") as file:
        return file.read()


def told_faults(rescue):
    """What differs where the report, the program or the rescue file fails: a refused command leaves
    the files of the ports as they are."""
    line = f"{rescue} alone --points points server a:b c:d 2> /dev/full"
    if os.waitstatus_to_exitcode(os.system(line)) != 74 or (read("b"), read("d")) != (b"K", b"E"):
        yield "the report fails: another status, or other bytes at the ports"
    for words, text in [(["--points", "points", "nowhere"], b"refused: program unreadable\n"),
                        (["--points", "nowhere", "server"], b"refused: points unreadable\n")]:
        text += b"  'nowhere': no such file\n"
        came = outcome.run(rescue, ["alone", *words, "a:b", "c:d"])
        if came != outcome.Outcome(66, b"", text) or (read("b"), read("d")) != (b"K", b"E"):
            yield f"{text!r}: {came.status} {came.err!r}"


def main():
    """Tries all."""
    rescue = parser(__doc__).parse_args().rescue
    with workplace():
        differing = [*file_faults(rescue), *device_faults(rescue), *told_faults(rescue)]
    print("\n".join(differing) or "all is as the tables say")
    return 1 if differing else 0


if __name__ == "__main__":
    raise SystemExit(main())
