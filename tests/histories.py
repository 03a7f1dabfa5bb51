#!/usr/bin/env python3
"""Saves the histories of the examples and audits them, as they are and changed.

    tests/histories.py RESCUE [--changes N] [--seed N]

Each example is run by `alone` and by `run` with `--save` and `--report`. The audit has to say yes,
with the sums of the report. Then single bytes of the history, of the output and of the input are
changed, the history is cut and made longer, and its device files are exchanged: the audit has to
say no, or, where a change leaves a run of the program (an input that isn't read, say), yes; it may
never end otherwise. Says which audits differ, and ends with 1 if any does. An example that isn't
built is left out.
"""
import os
import random
import subprocess
import sys

from workplace import parser, workplace

EXAMPLES = os.path.join(os.path.dirname(os.path.dirname(os.path.abspath(__file__))), "examples")
NAMES = ("hello", "server", "nested", "workers", "threads", "words", "json", "xml", "lua")


class Saved:
    """A run with its history, its device files and the sums of its report."""

    def __init__(self, rescue, name, command):
        folder = os.path.join(EXAMPLES, name)
        points = os.path.join(folder, "points.toml")
        self.rescue, self.what = rescue, f"{name}, {command}"
        self.guest = os.path.join(folder, name)
        self.points = ["--points", points] if os.path.exists(points) else []
        stdin = os.path.join(folder, "input")
        with open(stdin if os.path.exists(stdin) else "/dev/null", "rb") as file:
            self.input = file.read()
        came = subprocess.run([rescue, command, "--budget", "20000000", *self.points, "--save",
                               "history", "--report", "report", self.guest], input=self.input,
                              capture_output=True, check=False)
        self.status, self.out, self.err = came.returncode, came.stdout, came.stderr
        with open("history", "rb") as file:
            self.history = file.read()
        with open("report", encoding="ascii") as file:
            lines = [line.split() for line in file.read().splitlines()]
        self.sums = [line[1] for line in lines if line[0] in ("steps", "records", "rescues")]

    def audit(self, **changed):
        """The status and the line of an audit of these files, some of them changed."""
        names = []
        for name in ("history", "input", "out", "err"):
            names.append(f"audited-{name}")
            with open(names[-1], "wb") as file:
                file.write(changed.get(name, getattr(self, name)))
        came = subprocess.run([self.rescue, "audit", *self.points, names[0], self.guest,
                               *names[1:]], capture_output=True, check=False)
        return came.returncode, came.stdout.decode(errors="replace") + came.stderr.decode(
            errors="replace")

    def yes(self):
        """What is wrong with the audit of what was saved, as texts."""
        steps, records, rescues = self.sums
        line = f"audit yes steps {steps} records {records} rescues {rescues}\n"
        answer = self.audit()
        return [] if answer == (0, line) else [f"{answer}, and not {line.strip()}"]

    def changed(self, what, where, value):
        """The files with one byte changed."""
        data = bytearray(getattr(self, what))
        data[where] ^= value
        return {what: bytes(data)}

    def no(self, files, may_be_yes=False):
        """What is wrong with the audit of changed files, as texts."""
        status, line = self.audit(**files)
        if status == 78 and line.startswith("audit no ") and line.count("\n") == 1:
            return []
        if may_be_yes and status == 0 and line.startswith("audit yes "):
            return []
        return [f"{list(files)} changed: {status} {line.strip()}"]


def differences(saved, changes, words):
    """What is wrong with the audits of one run, as texts."""
    faults = saved.yes()
    faults += saved.no({"history": saved.history + b"\0"})
    faults += saved.no({"history": saved.history[:words.randrange(len(saved.history))]})
    faults += saved.no({"out": saved.out + b"x"})
    if saved.out != saved.input:
        faults += saved.no({"out": saved.input, "input": saved.out})
    for _ in range(changes):
        what = words.choice([name for name in ("history", "out", "input")
                             if getattr(saved, name)])
        files = saved.changed(what, words.randrange(len(getattr(saved, what))),
                              words.randrange(1, 256))
        # another budget or more slots for harts, or bytes that aren't read, leave a run
        faults += saved.no(files, may_be_yes=what != "out")
    return faults


def main():
    """Audits each example."""
    options = parser(__doc__)
    options.add_argument("--changes", type=int, default=100, metavar="N",
                         help="how many changes of each run are audited (default: 100)")
    options.add_argument("--seed", type=int, default=1, metavar="N",
                         help="which changes (default: 1)")
    options = options.parse_args()
    words = random.Random(options.seed)
    different = 0
    with workplace():
        for name in NAMES:
            if not os.path.exists(os.path.join(EXAMPLES, name, name)):
                print(f"{name}: left out, it isn't built")
                continue
            for command in ("alone", "run"):
                saved = Saved(options.rescue, name, command)
                faults = differences(saved, options.changes, words)
                different += len(faults)
                for fault in faults:
                    print(f"{saved.what}: {fault}")
                print(f"{saved.what}: {len(saved.history):,} bytes, audited", flush=True)
    sys.exit(1 if different else 0)


if __name__ == "__main__":
    main()
