#!/usr/bin/env python3
"""Measures what a saved history costs: to spell it, to read it, and to audit it.

    speed/audit.py RESCUE [--only WORD]

Host instructions by callgrind, as in speed.py; few and many calls or turns are compared, so that
what a run costs anyway falls out. A history with one byte behind it is read whole and refused
there: that is what reading costs alone. Ends with 1 where a limit is passed.
"""
import os
import subprocess

from speed import BUDGET, Figures, POINTS, built, counted, parser, steps_of, workplace

# name, guest, how many, its way, what the figure is for, the greatest to spell and to read of each
FILES = [
    ("a byte of a call's entry", "calls", (1000, 21000), 1, 1, 40),
    ("an entry of a row of acts", "alu", (10000, 210000), None, 6, 150),
]
# name, guest, its defines, the greatest host instructions of `audit` beside those of `alone`
AUDITS = [
    ("registers", "alu", {"N": 100000}, 1.5),
    ("loads and stores", "mem", {"N": 20}, 1.5),
    ("a mix", "mix", {"N": 2}, 1.5),
    ("writes of one byte", "calls", {"N": 20000, "WAY": 1}, 1.5),
    ("points, entered and returned", "points", {"N": 5000, "WAY": 0}, 1.8),
    ("points, entered and rescued", "points", {"N": 5000, "WAY": 1}, 85),
]


def points_of(guest):
    """The words for the rescue file of a guest that has a point."""
    return ["--points", "points.toml"] if os.path.basename(guest).startswith("points") else []


class Audits:
    """The program, with the words of its runs."""

    def __init__(self, rescue, figures):
        self.rescue, self.figures = rescue, figures
        for name, text in (("points.toml", POINTS), ("none", "")):
            with open(name, "w", encoding="ascii") as file:
                file.write(text)

    def alone(self, guest, *words):
        """The words of a run."""
        return [self.rescue, "alone", *BUDGET, *points_of(guest), *words, guest]

    def saved(self, guest, name):
        """Saves the history of a run and what it wrote. Their paths."""
        with open(f"{name}.out", "wb") as out:
            subprocess.run(self.alone(guest, "--save", f"{name}.history"), stdout=out,
                           stdin=subprocess.DEVNULL, stderr=subprocess.DEVNULL, check=False)
        return f"{name}.history", f"{name}.out"

    def audit(self, history, guest, out):
        """The words of an audit."""
        return [self.rescue, "audit", *points_of(guest), history, guest, "none", out, "none"]

    def spelled(self, guest):
        """What a run costs more when it saves its history."""
        return counted(self.alone(guest, "--save", "spelled")) - counted(self.alone(guest))

    def read(self, guest, history, out):
        """What it costs to read a history, and to find a byte behind it."""
        with open(history, "rb") as file:
            whole = file.read()
        with open("longer", "wb") as file:
            file.write(whole + b"\0")
        return counted(self.audit("longer", guest, out))

    def files(self):
        """Spelling and reading, by the difference of two histories."""
        for name, guest, sizes, way, unit, most in FILES:
            if not self.figures.wants(name):
                continue
            spelled, read, length = [], [], []
            for size in sizes:
                path = built(guest, N=size, **({} if way is None else {"WAY": way}))
                history, out = self.saved(path, "few" if size == sizes[0] else "many")
                length.append(os.path.getsize(history))
                spelled.append(self.spelled(path))
                read.append(self.read(path, history, out))
            units = (length[1] - length[0]) / unit
            for what, costs in (("spelled", spelled), ("read", read)):
                self.figures.put(f"{what}: {name}", (costs[1] - costs[0]) / units, most,
                                 f"{units:,.0f} more")

    def audits(self):
        """Audits beside the runs that they audit."""
        for name, guest, defines, most in AUDITS:
            if not self.figures.wants(name):
                continue
            path = built(guest, **defines)
            history, out = self.saved(path, "audited")
            ran, audited = counted(self.alone(path)), counted(self.audit(history, path, out))
            read = self.read(path, history, out)
            self.figures.put(f"audit: {name}", (audited - read) / ran, most,
                             f"and {read / ran:.2f} for the reading, {steps_of(self.alone(path)):,} steps")


def main():
    """Measures all, and ends with 1 where a limit is passed."""
    words = parser(__doc__)
    words.add_argument("--only", default="", metavar="WORD",
                       help="only the figures whose names have this word")
    options = words.parse_args()
    figures = Figures(options.only)
    print(f"{'':<36}{'figure':>14}{'limit':>12}")
    with workplace():
        audits = Audits(options.rescue, figures)
        audits.files()
        audits.audits()
    if figures.past:
        print(f"past their limits: {', '.join(figures.past)}")
    return 1 if figures.past else 0


if __name__ == "__main__":
    raise SystemExit(main())
