#!/usr/bin/env python3
"""Stands for `rescue alone` and `rescue try` in the tests of the sweep: it takes the same words,
and writes a report, or trials, as the program does. Its guest adds numbers up, a request a line;
`bad` is a fault, `leak` one that leaves something in the sum, `say` one behind a write, `wait` is
stuck, `spin` spends the budget, `sleep` takes long."""

import sys
import time

FAULTS = ("bad", "leak", "say")


def tries() -> int:
    """What points on the way to the first fault come to."""
    with open(sys.argv[-1], encoding="ascii") as file:
        if not set(file.read().split()) & set(FAULTS):
            print("end exit 0")
            return 79
    print("try-report 1", "fault load-rights hart 0 pc 0000000000010600",
          "try 00000000000104a8 handle end exit 0 rescues 1",
          "try 00000000000104a9 nobody end exit 255 rescues 1",
          "good 00000000000104a8 handle", "count 1", sep="\n")
    return 0


def main() -> None:
    """Serves standard input."""
    points = "--points" in sys.argv
    total, rescues, end = 0, [], "exit 0"
    for line in sys.stdin.read().split():
        if line in FAULTS and not points:
            end = "fault load-rights hart 0 pc 0000000000010600"
            break
        if line in FAULTS:
            total += line == "leak"
            rescues.append(f"rescue depth 0 hart 0 point 00000000000104a8 fault load-rights pc "
                           f"0000000000010600 steps 9 records {int(line == 'say')} code -1")
            print("error")
        elif line in ("wait", "spin"):
            end = {"wait": "stuck", "spin": "budget"}[line]
            break
        elif line == "sleep":
            time.sleep(30)
        else:
            total += int(line)
            print(total)
    sys.stdout.flush()
    print("rescue-report 1", "steps 100", "records 5", f"rescues {len(rescues)}", *rescues,
          f"end {end}", sep="\n", file=sys.stderr)


if sys.argv[1] == "try":
    sys.exit(tries())
main()
