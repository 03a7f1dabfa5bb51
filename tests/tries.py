#!/usr/bin/env python3
"""Tries points on call paths that are worked out by hand.

    tests/tries.py RESCUE

A path of 70 functions, of which 64 are tried; a fault before any call; a function that calls itself;
one that another jumps to in place of its own return, while it runs and behind it; a fault in a hart
that has the slot of one that is gone; a program without a fault. The text is that of the manual.
Says where one differs, and ends with 1.
"""
import guest_code as words
import outcome
from elf_files import Symbol, plain_elf
from guest_code import A0, RA, SP, ZERO, Code
from workplace import parser, workplace

DATA = 0x20000


def faults(code):
    """Reads at a null pointer."""
    code.label("fault")
    code.op("ld", 7, 0, ZERO)


def enter(code, name):
    """The beginning of a function that calls others."""
    code.label(name)
    code.op("addi", SP, SP, -16)
    code.op("sd", RA, 0, SP)


def leave(code):
    """Its end."""
    code.op("ld", RA, 0, SP)
    code.op("addi", SP, SP, 16)
    code.op("jalr", ZERO, RA, 0)


def ends(code):
    """Ends the program with what the last call returned."""
    code.op("addi", words.A7, ZERO, words.EXIT_GROUP)
    code.word(words.ECALL)


def deep():
    """Seventy functions, each of which calls the next; the last one faults."""
    code = Code()
    code.jump("f0", RA)
    ends(code)
    for number in range(69):
        enter(code, f"f{number}")
        code.jump(f"f{number + 1}", RA)
        leave(code)
    code.label("f69")
    faults(code)
    return code, [f"f{number}" for number in range(69, 5, -1)], 0


def at_start():
    """A fault before any call."""
    code = Code()
    code.label("_start")
    faults(code)
    return code, [], 0


def in_itself():
    """A function that calls itself twice, within another one."""
    code = Code()
    code.jump("outer", RA)
    ends(code)
    enter(code, "outer")
    code.op("addi", 9, ZERO, 3)
    code.jump("inner", RA)
    leave(code)
    enter(code, "inner")
    code.op("addi", 9, 9, -1)
    code.branch("beq", 9, ZERO, "fault")
    code.jump("inner", RA)
    leave(code)
    faults(code)
    return code, ["inner", "outer"], 0


def jumped_to():
    """A function that jumps to another one, which faults: both are there."""
    code = Code()
    code.jump("first", RA)
    ends(code)
    code.label("first")
    code.jump("second")
    code.label("second")
    faults(code)
    return code, ["second", "first"], 0


def jumped_behind():
    """The same, but both have returned when another function faults."""
    code = Code()
    code.jump("first", RA)
    code.jump("third", RA)
    ends(code)
    code.label("first")
    code.jump("second")
    code.label("second")
    code.op("jalr", ZERO, RA, 0)
    code.label("third")
    faults(code)
    return code, ["third"], 0


def in_a_slot():
    """A hart ends within a function; the next hart in its slot faults in another."""
    code = Code()
    code.call(words.CLONE, words.THREAD_FLAGS, DATA + 0x800, 0, 0, 0)
    code.branch("beq", A0, ZERO, "gone")
    code.label("again")
    code.call(words.CLONE, words.THREAD_FLAGS, DATA + 0x800, 0, 0, 0)
    code.branch("beq", A0, ZERO, "next")
    code.branch("blt", A0, ZERO, "again")
    code.label("wait")
    code.call(words.YIELD)
    code.jump("wait")
    code.label("gone")
    code.jump("early", RA)
    code.label("next")
    code.jump("late", RA)
    ends(code)
    code.label("early")
    code.call(words.EXIT, 0)
    code.label("late")
    faults(code)
    return code, ["late"], 1


LABELS = ("fault", "again", "wait", "gone", "next")


def text(code, path, hart):
    """What is to be put, where each function returns 0 and so ends the program well."""
    yield "try-report 1"
    yield f"fault load-rights hart {hart} pc {code.places['fault']:016x}"
    for name in path:
        yield f"try {code.places[name]:016x} {name} end exit 0 rescues 1"
    for name in path:
        yield f"good {code.places[name]:016x} {name}"
    yield f"count {len(path)}"


def differing(rescue):
    """What differs."""
    for make in (deep, at_start, in_itself, jumped_to, jumped_behind, in_a_slot):
        code, path, hart = make()
        symbols = [Symbol(name.encode(), place) for name, place in code.places.items()
                   if name not in LABELS]
        with open("guest", "wb") as file:
            file.write(plain_elf(code, symbols=symbols).bytes())
        wanted = "".join(f"{line}\n" for line in text(code, path, hart)).encode()
        came = outcome.run(rescue, ["try", "--harts=2", "--returns=0", "guest", "/dev/null"])
        if came != outcome.Outcome(0, wanted, b""):
            yield f"{make.__name__}: {came.status} {came.out!r} {came.err!r}, not {wanted!r}"
    code = Code()
    code.call(words.EXIT, 7)
    with open("guest", "wb") as file:
        file.write(plain_elf(code).bytes())
    came = outcome.run(rescue, ["try", "guest", "/dev/null"])
    if came != outcome.Outcome(79, b"end exit 7\n", b""):
        yield f"no fault: {came.status} {came.out!r} {came.err!r}"


def main():
    """Tries all."""
    rescue = parser(__doc__).parse_args().rescue
    with workplace():
        found = list(differing(rescue))
    print("\n".join(found) or "all is as worked out")
    raise SystemExit(bool(found))


if __name__ == "__main__":
    main()
