#!/usr/bin/env python3
"""Makes the guests of the gate's programs, or says where one that is kept is another."""
import argparse
import os

import guest_code as words
from elf_files import Elf, Load, EXECUTE, READ, plain_elf
from guest_code import A0, A2, A7, ECALL, ZERO, Code

CRATES = os.path.join(os.path.dirname(os.path.dirname(os.path.abspath(__file__))), "crates")
TEXT = b"through the file\n"
DATA, ROOM = 0x20000, 0x20100


def through_ports():
    """Writes a text to the first port, reads from the second one, and puts out what it read."""
    code = Code()
    code.call(words.WRITE, 3, DATA, len(TEXT))
    code.call(words.READ, 4, ROOM, 64)
    code.op("addi", A2, A0, 0)
    code.put(A0, 1)
    code.op("addi", A7, ZERO, words.WRITE)
    code.word(ECALL)
    code.call(words.EXIT, 0)
    return plain_elf(code, TEXT)


def exits_with(status):
    """Exits with this status, and does nothing else."""
    code = Code()
    code.call(words.EXIT, status)
    text = code.bytes()
    return Elf([Load(code.base, text, len(text), READ | EXECUTE)], code.base)


GUESTS = {"gate_ports": through_ports(), "gate_status": exits_with(200)}


def main():
    """Compares the guests with those that are kept, or writes them."""
    parser = argparse.ArgumentParser(description=__doc__)
    parser.add_argument("--write", action="store_true", help="write the guests into the crates")
    options = parser.parse_args()
    differing = 0
    for name, elf in GUESTS.items():
        path = os.path.join(CRATES, name, "data", "guest")
        if options.write:
            os.makedirs(os.path.dirname(path), exist_ok=True)
            with open(path, "wb") as file:
                file.write(elf.bytes())
            continue
        with open(path, "rb") as file:
            if file.read() != elf.bytes():
                print(f"{path} is another")
                differing = 1
    return differing


if __name__ == "__main__":
    raise SystemExit(main())
