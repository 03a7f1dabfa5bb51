#!/usr/bin/env python3
"""Runs the built program on random guests, ELF files, rescue files and words.

    tests/campaign.py RESCUE [--seed N] [--first N] [--cases N]

Checks of each case what needs no model: the program ends, by a status of the manual's table, with
a refusal or with a report that adds up; the output, the report and the files of ports are the same
bytes at a second run, with one hart also under another seed; and `run`, where it is built, ends so
too, with one hart exactly as `alone`. Of every third guest the history is saved and audited, as it
is and changed, and the functions on the way to its fault are tried, each also by hand. Want of
memory is a finding too, as no case needs much. A case is made of the seed and its number alone:
`--first N --cases 1` makes it again. Files of a finding stay in a folder that is named. Ends with 1
if there are any.
"""
import os
import re
import shutil
import tempfile
from random import Random

import further_cases
import outcome
from outcome import Expected
from random_files import broken_elf, broken_points, random_words
from random_guests import random_guest
from rescue_points import points_text, random_points
from workplace import parser, workplace

LISTED = re.compile(rb"([0-9a-f]{16}) (\d+) (.*)")
# first words that show a text, whatever stands behind them
SHOWN = (["--help"], ["-h"], ["help"], ["--version"])
SUMMARY = re.compile(rb"load \d+\nbytes \d+\nsum (?:\d+|none)\nsteps \d+\nrecords \d+\n"
                     rb"rescues \d+\nend [^\n]*\n")

# The status of a run that memory was wanting for.
WANTING = 75


class Case:
    """One case: its files lie in the folder it is made in."""

    def __init__(self, seed, number):
        random = Random(f"{seed} {number}")
        self.random = random
        self.ports = random.choice([0, 0, 0, 1, 2])
        self.elf, self.functions = random_guest(random, self.ports)
        self.program = self.elf.bytes()
        self.points = random_points(random, self.functions)
        self.text = points_text(self.points).encode()
        self.kind = random.choices(["guest", "elf", "points", "words"], [70, 14, 11, 5])[0]
        self.harts = random.choice([1, 1, 2, 3, 4, 8, 64])
        self.budget = random.choice([1, 2, 50, 500, 2000, 2000, 4000, 4000])
        self.spoil()
        self.write()

    def spoil(self):
        """Breaks what the case's kind is about."""
        random = self.random
        if self.kind == "elf":
            self.program = broken_elf(random, self.elf)
        elif self.kind == "points":
            self.text = broken_points(random, self.text.decode())

    def write(self):
        """Writes the files of the case, in place of those of the one before."""
        for port in range(self.ports):
            if os.path.exists(f"out{3 + port}"):
                os.remove(f"out{3 + port}")
        size = self.random.choice([0, 10, 100, 70000])
        contents = {"program": self.program, "points.toml": self.text,
                    "input": self.random.randbytes(size)}
        contents |= {f"in{3 + port}": self.random.randbytes(30) for port in range(self.ports)}
        for name, text in contents.items():
            with open(name, "wb") as file:
                file.write(text)

    def words(self):
        """The words of the case under `alone`, without a seed."""
        if self.kind == "words":
            return random_words(self.random)
        words = ["alone", f"--harts={self.harts}", f"--budget={self.budget}"]
        if self.kind == "points" or self.random.random() < 0.8:
            words += ["--points", "points.toml"]
        elif self.kind == "elf" and self.random.random() < 0.5:
            return ["list", "program"]
        return words + ["program"] + [f"in{3 + port}:out{3 + port}" for port in range(self.ports)]

    def expected(self, words):
        """What is known of the case."""
        if self.kind == "words":
            return Expected()
        points = {point.entry: point for point in self.points} if "--points" in words else {}
        known = self.kind == "guest"
        return Expected(self.harts, self.budget, points if known else None)


class Runs:
    """The runs of a case, each with what it wrote."""

    def __init__(self, rescue, case, threads):
        self.rescue, self.case, self.threads = rescue, case, threads

    def made(self, words):
        """An outcome, and the bytes of the ports."""
        came = outcome.run(self.rescue, words, "input")
        texts = []
        for port in range(self.case.ports):
            if os.path.exists(f"out{3 + port}"):
                with open(f"out{3 + port}", "rb") as file:
                    texts.append(file.read())
        return came, texts

    def findings(self):
        """What is wrong with the case, as texts."""
        words = self.case.words()
        alone = words[:1] == ["alone"] and self.case.kind != "words"
        seed = self.case.random.randrange(2**64)
        again = seed ^ 1 if self.case.harts == 1 else seed
        first = self.made(seeded(words, seed) if alone else words)
        findings = self.checked(words, first[0])
        second = seeded(words, again) if alone else words
        if words[:1] != ["run"] and self.made(second) != first:
            findings.append("a second run differs")
        if alone and self.threads:
            findings += self.threaded(["run", *words[1:]], first)
        if self.case.kind == "guest" and self.case.random.random() < 1 / 3:
            findings += self.further(seed)
        return findings

    def further(self, seed):
        """What is wrong with the audits and the trials of a guest, which has no ports here."""
        case = self.case
        limits = [f"--seed={seed}", f"--harts={case.harts}", f"--budget={case.budget}"]
        points = ["--points=points.toml"] if case.random.random() < 0.8 else []
        found = further_cases.audits(self.rescue, case.random, limits, points)
        return found + further_cases.trials(self.rescue, case.random, limits)

    def threaded(self, words, first):
        """What is wrong with `run` on the same files."""
        came = self.made(words)
        findings = ["run: " + text for text in self.checked(words, came[0])]
        if self.case.harts == 1 and came != first and b"loose-here" not in first[0].err:
            findings.append("run: with one hart it differs from alone")
        return findings

    def checked(self, words, came):
        """What is wrong with an outcome of these words."""
        if came.status == WANTING and came.report() is None:
            return ["memory was wanting"]
        if words[:1] in SHOWN:
            return shown_faults(came)
        if came.refusal() is None and words[:1] in (["list"], ["load"]):
            return told_faults(words, came)
        return outcome.faults_of(came, self.case.expected(words))


def seeded(words, seed):
    """The words with this seed."""
    return [words[0], f"--seed={seed}", *words[1:]]


def shown_faults(came):
    """What is wrong with the help or the version, or the refusal of words behind them."""
    if came.err:
        return ["text on standard error"]
    if came.out.startswith(b"refused: "):
        return outcome.faults_of(outcome.Outcome(came.status, b"", came.out), Expected())
    return [] if came.out.startswith(b"rescue ") and came.status == 0 else ["another text"]


def told_faults(words, came):
    """What is wrong with a list or a summary, or their refusals, on standard output."""
    if came.err:
        return ["text on standard error"]
    if came.out.startswith(b"refused: "):
        return outcome.faults_of(outcome.Outcome(came.status, b"", came.out), Expected())
    if words[0] == "load":
        good = SUMMARY.fullmatch(came.out) and came.status == 0
        return [] if good else ["a summary of another form"]
    rows = [LISTED.fullmatch(line) for line in came.out.splitlines()]
    if None in rows or came.status != 0:
        return ["a list of another form"]
    keys = [(row.group(1), row.group(3), int(row.group(2))) for row in rows]
    return [] if keys == sorted(keys) else ["a list that isn't sorted"]


def has_threads(rescue):
    """The program of this folder isn't refused because `run` isn't there."""
    return b"threads" not in outcome.run(rescue, ["run", "program"], "input").err


def keep(number, findings):
    """Copies the case's files, and says what was found."""
    kept = tempfile.mkdtemp(prefix=f"campaign-{number}-")
    shutil.copytree(".", kept, dirs_exist_ok=True)
    print(f"case {number}: {'; '.join(findings)}: {kept}", flush=True)


def words_read():
    """The script's words."""
    words = parser(__doc__)
    words.add_argument("--seed", type=int, default=1, metavar="N",
                       help="what all cases are made of (default: 1)")
    words.add_argument("--first", type=int, default=0, metavar="N",
                       help="the number of the first case (default: 0)")
    words.add_argument("--cases", type=int, default=1000, metavar="N",
                       help="how many cases are run (default: 1000)")
    return words.parse_args()


def main():
    """Runs the cases."""
    options = words_read()
    rescue = options.rescue
    found, threads, kinds = 0, None, {}
    with workplace("/dev/shm" if os.path.isdir("/dev/shm") else None):
        for number in range(options.first, options.first + options.cases):
            case = Case(options.seed, number)
            if threads is None:
                threads = has_threads(rescue)
            try:
                findings = Runs(rescue, case, threads).findings()
            except outcome.Hung:
                findings = ["it doesn't end"]
            kinds[case.kind] = kinds.get(case.kind, 0) + 1
            if findings:
                found += 1
                keep(number, findings)
            if (number + 1) % 1000 == 0:
                print(f"{number + 1} cases, {found} findings, {kinds}", flush=True)
    print(f"{options.cases} cases, {found} findings")
    return 1 if found else 0


if __name__ == "__main__":
    raise SystemExit(main())
