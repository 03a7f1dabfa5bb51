#!/usr/bin/env python3
"""Refuses each allocation of the built program in turn, one alone and all from it on; and, on
`run`, each thread and all behind it.

    tests/refusals.py RESCUE [--only WORD] [--every N]

The program runs under refuse.c, which the C compiler builds first. With any allocation refused the
outcome is want of memory (its line and status 75, and output that is a beginning of the whole
run's) or the run's own, to the byte. Nothing crashes or hangs. Ends with 1 at any other outcome.
`--every 7` tries each seventh allocation only.
"""
import os
import subprocess
from dataclasses import dataclass, field

import outcome
import worked_guests as guests
from elf_files import Symbol
from workplace import parser, workplace

# The slots of a run, each with a worker; the last needs no thread of its own.
THREADS = 8


@dataclass
class Run:
    """A run: its words, the files that it needs, whether its line goes to standard output, and
    whether its harts come in any order, so that two whole runs may tell different things."""
    name: str
    words: list
    files: dict
    ports: list = field(default_factory=list)
    told_out: bool = False
    any_order: bool = False
    saves: bool = False

    def written(self):
        """Writes the files anew, so that each run has the same."""
        for name, contents in self.files.items():
            with open(name, "wb") as file:
                file.write(contents)
        for name in self.ports:
            if os.path.exists(name):
                os.remove(name)


def contents(name):
    """What is in this file; nothing where it wasn't made."""
    if not os.path.exists(name):
        return b""
    with open(name, "rb") as file:
        return file.read()


def ending(came):
    """The status, and the last line that was told."""
    return came.status, came.err.splitlines()[-1:]


def with_symbols():
    """The guest of two nested calls, with the names of its functions."""
    elf = guests.nested()[0]
    elf.symbols = [Symbol(b"outer", 0x10018), Symbol(b"inner", 0x10028)]
    return {"nested": elf.bytes()}


# of the smallest guest: 8 harts, 5,000,000 steps, two acts and the exit with 7
HISTORY = (b"rescueh1\x08" + bytes(8) + (5000000).to_bytes(8, "little")
           + (2).to_bytes(8, "little") + b"\x01\x00\x02\0\0\0\x05\0\0\x07")


def runs():
    """The runs whose allocations are refused."""
    server, points = guests.server()
    smallest = {"smallest": guests.smallest().bytes()}
    ports = {"a": b"ok\n", "c": b"x\n", "server": server.bytes(), "server.toml": points.encode()}
    made = [
        Run("server", ["alone", "--points", "server.toml", "server", "a:b", "c:d"], ports,
            ["b", "d"]),
        Run("server of run", ["run", "--points", "server.toml", "server", "a:b", "c:d"], ports,
            ["b", "d"]),
        Run("list", ["list", "server"], ports, told_out=True),
        Run("words", ["alone"], {}),
        Run("no program", ["alone", "nowhere"], {}),
    ]
    for name, guest in [("nested", guests.nested()), ("harts and pages", guests.harts_and_pages())]:
        files = {"guest": guest[0].bytes(), "guest.toml": guest[1].encode()}
        for command in ("alone", "run"):
            made.append(Run(f"{name}, {command}", [command, "--points", "guest.toml", "guest"],
                            files, any_order=command == "run"))
    for number, text in enumerate(guests.RESCUE_FILES):
        files = {"names": guests.two_names().bytes(), "names.toml": text.encode()}
        made.append(Run(f"rescue file {number}", ["alone", "--points", "names.toml", "names"],
                        files))
    made += [Run("a word too many", ["alone", "--budget=20M", "server"], ports),
             Run("try", ["try", "nested", "/dev/null"], with_symbols(), told_out=True),
             Run("saved", ["alone", "--save=kept", "smallest"], smallest, ["kept"], saves=True),
             Run("audit", ["audit", "kept", "smallest", *["/dev/null"] * 3],
                 {**smallest, "kept": HISTORY}, told_out=True)]
    return [*made, Run("load", ["load", "1"], {}, told_out=True)]


class Refusals:
    """The program under refuse.c, in the folder where it stands."""

    def __init__(self, rescue):
        self.rescue = rescue
        source = os.path.join(os.path.dirname(os.path.abspath(__file__)), "refuse.c")
        subprocess.run(["cc", "-O2", "-shared", "-fPIC", "-o", "refuse.so", source], check=True)
        self.environment = {**os.environ, "LD_PRELOAD": os.path.abspath("refuse.so"),
                            "REFUSE_COUNT": os.path.abspath("count")}

    def made(self, run, refused):
        """The outcome with this refusal, the bytes of the ports, and the number of calls."""
        run.written()
        if os.path.exists("count"):
            os.remove("count")
        came = outcome.run(self.rescue, run.words, environment={**self.environment, **refused})
        ports = [contents(name) for name in run.ports]
        with open("count", encoding="ascii") as file:
            return came, ports, int(file.read())

    def fault(self, run, whole, refused):
        """What is wrong with the run under this refusal, or None."""
        try:
            came, ports, _ = self.made(run, refused)
        except (outcome.Hung, OSError) as error:
            return f"no outcome: {error!r}"
        if (came, ports) == whole[:2] or run.any_order and ending(came) == ending(whole[0]):
            return None
        if came.status != 75:
            return f"status {came.status}, {(came.err or came.out)[-60:]!r}"
        told, silent = (came.out, came.err) if run.told_out else (came.err, came.out)
        if run.saves:
            told = told.removeprefix(whole[0].err)  # the report may stand before
        if run.told_out and not told:
            told = silent  # memory was wanting for the words
        if told != b"refused: memory\n":
            return f"another line than that of memory: {told[-60:]!r}"
        if not run.told_out and not run.any_order and not whole[0].out.startswith(silent):
            return "other output than the whole run's"
        if not all(full.startswith(part) for full, part in zip(whole[1], ports)):
            return "a port was given other bytes than by the whole run"
        return None


def tried(refusals, run, every):
    """Tries each allocation of a run, and says what is wrong. The number of findings."""
    whole = refusals.made(run, {})
    if whole[0].err == b"refused: words threads\n":
        print(f"{run.name}: the program has no threads", flush=True)
        return 0
    found = {}
    for number in range(1, whole[2] + 1, every):
        for name in ("REFUSE_AT", "REFUSE_FROM"):
            fault = refusals.fault(run, whole, {name: str(number)})
            if fault:
                found.setdefault((name, fault), []).append(number)
    for number in range(1, THREADS + 1) if run.words[0] == "run" else []:
        fault = refusals.fault(run, whole, {"REFUSE_THREADS": str(number)})
        if fault:
            found.setdefault(("REFUSE_THREADS", fault), []).append(number)
    for (name, fault), numbers in found.items():
        some = ", ".join(map(str, numbers[:5]))
        print(f"  {name} {some} ({len(numbers)} in all): {fault}")
    print(f"{run.name}: {whole[2]} allocations, {len(found)} findings", flush=True)
    return len(found)


def main():
    """Runs all, and ends with 1 where anything is wrong."""
    words = parser(__doc__)
    words.add_argument("--only", default="", metavar="WORD",
                       help="only the runs whose names have this word")
    words.add_argument("--every", type=int, default=1, metavar="N",
                       help="refuse each Nth allocation only (default: 1)")
    options = words.parse_args()
    with workplace():
        refusals = Refusals(options.rescue)
        found = sum(tried(refusals, run, options.every) for run in runs()
                    if options.only in run.name)
    return 1 if found else 0


if __name__ == "__main__":
    raise SystemExit(main())
