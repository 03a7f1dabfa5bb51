"""The input of a load: `rescue load N` makes a program and N times 1,000 bytes, each a request.
examples/load has the program as a file, whose runs can be saved, seen and swept; these are the
bytes.

    python3 -m rescue_tools.loads N > input
    python3 -m rescue_tools.loads N --faults-last > input

The second way all zeros, which fault, stand behind a line feed at the end: a line that a sweep can
leave out.
"""

from __future__ import annotations

import struct
import sys
from collections.abc import Iterator, Sequence

from .refusal import RefusalError, guarded

MOST = 1000
MASK = 2**64 - 1
TIMES = 6364136223846793005
SPREAD = 11634580027462260723


def input_of(number: int) -> bytes:
    """The input of a load: words of the generator that the number seeds, modulo 16."""
    words = _words(number)
    return bytes(next(words) % 16 for _ in range(1000 * number))


def _words(seed: int) -> Iterator[int]:
    """The words of PCG XSH RR 64/32, seeded as Rust's rand_core does it."""
    parts = []
    for _ in range(4):
        seed = (seed * TIMES + SPREAD) & MASK
        parts.append(_word(seed))
    state, step = struct.unpack("<QQ", struct.pack("<4I", *parts))
    step |= 1
    state = ((state + step) * TIMES + step) & MASK
    while True:
        yield _word(state)
        state = (state * TIMES + step) & MASK


def _word(state: int) -> int:
    """The word that a state of the generator gives."""
    mixed, turned = (state >> 18 ^ state) >> 27 & 0xFFFFFFFF, state >> 59
    return (mixed >> turned | mixed << (-turned & 31)) & 0xFFFFFFFF


def faults_last(given: bytes) -> bytes:
    """The same with a line feed and then all zeros at the end."""
    return given.replace(b"\0", b"") + b"\n" + b"\0" * given.count(0)


def write_input(words: Sequence[str]) -> int:
    """Writes the input of a load to standard output."""
    number, *further = [*words, ""]
    if not number.isdecimal() or not 1 <= int(number) <= MOST or further[:-1] not in (
            [], ["--faults-last"]):
        raise RefusalError(f"one number from 1 to {MOST} is wanted, and maybe --faults-last")
    given = input_of(int(number))
    sys.stdout.buffer.write(faults_last(given) if further[:-1] else given)
    return 0


if __name__ == "__main__":
    sys.exit(guarded("rescue_tools.loads", write_input, None))
