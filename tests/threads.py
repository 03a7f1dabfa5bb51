#!/usr/bin/env python3
"""Runs the examples with threads under `run`, many times.

    tests/threads.py RESCUE [--runs N]

Each run has to end by itself with status 0, the output that stands beside the example (its lines
in any order) and a report that adds up. A guest that isn't built is left out (`make -C examples/words`).
Says which runs differ and the longest time of one, and ends with 1 if any differs.
"""
import os
import sys
import time

from outcome import Expected, Hung, faults_of, run
from workplace import parser, workplace

EXAMPLES = os.path.join(os.path.dirname(os.path.dirname(os.path.abspath(__file__))), "examples")


class Example:
    """A guest of examples/, its words and what it answers."""

    def __init__(self, name):
        self.name = name
        folder = os.path.join(EXAMPLES, name)
        self.guest = os.path.join(folder, name)
        points, stdin = (os.path.join(folder, file) for file in ("points.toml", "input"))
        self.words = ["run", *(["--points", points] if os.path.exists(points) else []), self.guest]
        self.stdin = stdin if os.path.exists(stdin) else "/dev/null"
        with open(os.path.join(folder, "output"), "rb") as output:
            self.lines = sorted(output.read().splitlines())

    def differences(self, program):
        """What is wrong with one run, as texts."""
        try:
            outcome = run(program, self.words, self.stdin)
        except Hung:
            return ["it didn't end"]
        faults = faults_of(outcome, Expected())
        if outcome.status != 0:
            faults.append(f"status {outcome.status}")
        if sorted(outcome.out.splitlines()) != self.lines:
            faults.append("another output")
        return faults


def main():
    """Runs each example so many times."""
    words = parser(__doc__)
    words.add_argument("--runs", type=int, default=1000, metavar="N",
                       help="how often each example is run (default: 1000)")
    options = words.parse_args()
    examples = [example for example in map(Example, ("workers", "threads", "words"))
                if os.path.exists(example.guest)]
    different = 0
    with workplace():
        for example in examples:
            longest = 0.0
            for number in range(options.runs):
                began = time.monotonic()
                faults = example.differences(options.rescue)
                longest = max(longest, time.monotonic() - began)
                different += bool(faults)
                for fault in faults:
                    print(f"{example.name}, run {number}: {fault}")
            print(f"{example.name}: {options.runs} runs, the longest {longest:.2f} s", flush=True)
    sys.exit(1 if different else 0)


if __name__ == "__main__":
    main()
