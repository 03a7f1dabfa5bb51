#!/usr/bin/env python3
"""Measures the built program on guests and files that ask for as much as the limits allow.

    tests/limits.py RESCUE [--only WORD]

Prints the table of docs/LIMITS.md: processor time beside that of a plain loop of as many steps (of
a file: of the 5,000,000 steps of the default budget), and the greatest memory. Each run has at most
1 GiB of addresses, a file of 300 MB and 60 seconds of processor time; a run that wants more is
named by how it ended.
"""
import subprocess
import sys

from dear_guests import file_rows, guest_rows
from workplace import parser, workplace

# Runs the program from a small process, since memory counts from that of its parent.
LAUNCH = """
import os, resource, sys
for kind, most in ((resource.RLIMIT_AS, 1 << 30), (resource.RLIMIT_FSIZE, 300 << 20),
                   (resource.RLIMIT_CPU, 60)):
    resource.setrlimit(kind, (most, most))
write = os.O_WRONLY | os.O_CREAT | os.O_TRUNC
child = os.posix_spawn(sys.argv[1], sys.argv[1:], os.environ, file_actions=[
    (os.POSIX_SPAWN_OPEN, 0, "/dev/null", os.O_RDONLY, 0),
    (os.POSIX_SPAWN_OPEN, 1, "stdout", write, 0o600),
    (os.POSIX_SPAWN_OPEN, 2, "stderr", write, 0o600)])
_, code, used = os.wait4(child, 0)
print(os.waitstatus_to_exitcode(code), used.ru_utime + used.ru_stime, used.ru_maxrss / 1024)
"""
DEFAULT_BUDGET = 5_000_000


def measured(rescue, row):
    """Status, seconds and MiB of a row's run."""
    for name, contents in row.files.items():
        with open(name, "wb") as file:
            file.write(contents)
    done = subprocess.run([sys.executable, "-S", "-c", LAUNCH, rescue, *row.words], check=True,
                          capture_output=True, text=True)
    status, seconds, memory = done.stdout.split()
    return int(status), float(seconds), float(memory)


def ending(row, status):
    """How a run ended, where it isn't as it should."""
    wanted = 72 if row.steps else (0 if row.words[0] == "list" else 7)
    if status == wanted or (status == 73 and "keys" in row.name):
        return ""
    return " (refused: memory)" if status == 75 else f" (status {status})"


def main():
    """Prints the table."""
    words = parser(__doc__)
    words.add_argument("--only", default="", metavar="WORD",
                       help="only the rows whose names have this word")
    options = words.parse_args()
    rescue = options.rescue
    rows = guest_rows()
    print("| Guest or file | Steps | Seconds | Times the plain loop | MiB |\n|---|---|---|---|---|")
    with workplace():
        _, seconds, _ = measured(rescue, rows[0])
        step = seconds / rows[0].steps
        for row in rows + file_rows():
            if options.only not in row.name:
                continue
            status, seconds, memory = measured(rescue, row)
            times = seconds / (step * (row.steps or DEFAULT_BUDGET))
            steps = f"{row.steps:,}" if row.steps else "-"
            print(f"| {row.name}{ending(row, status)} | {steps} | {seconds:.2f} | {times:,.1f} "
                  f"| {memory:.0f} |", flush=True)


if __name__ == "__main__":
    main()
