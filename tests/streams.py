#!/usr/bin/env python3
"""Tries streams and files out of the ordinary, as the manual's section on them says.

    tests/streams.py RESCUE

`echo` is a guest that reads up to 16 bytes from standard input and writes them to standard output,
`port` one that does so with descriptor 3; each exits with the last call's answer, so with 251 where
it is -EIO. Says where status or line is another, and ends with 1.
"""
import os
import signal
import subprocess

import guest_code as words
import worked_guests as guests
from elf_files import plain_elf
from guest_code import A0, A2, A7, ECALL, ZERO, Code
from workplace import parser, workplace

NOTHING, REPORT = "", "rescue-report 1"
SECONDS = 300


def copier(source, target):
    """A guest that copies up to 16 bytes from one descriptor to another."""
    code = Code()
    code.call(words.READ, source, 0x20000, 16)
    code.branch("bge", ZERO, A0, "ends")
    code.op("addi", A2, A0, 0)
    code.op("addi", A0, ZERO, target)
    code.op("addi", A7, ZERO, words.WRITE)
    code.word(ECALL)
    code.label("ends")
    code.op("addi", A7, ZERO, words.EXIT)
    code.word(ECALL)
    return plain_elf(code).bytes()


# What it is, a line of the shell, the status, the first line on standard error (None: it can't be
# read there).
TRIED = [
    ("as it should be", "$R alone echo < input", 14, REPORT),
    ("input closed", "$R alone echo <&-", 251, REPORT),
    ("output closed", "$R alone echo < input >&-", 251, REPORT),
    ("error closed", "$R alone echo < input 2>&-", 74, NOTHING),
    ("error closed, refused", "$R alone nowhere 2>&-", 66, NOTHING),
    ("list to a closed output", "$R list server >&-", 74, NOTHING),
    ("output full", "$R alone echo < input > /dev/full", 251, REPORT),
    ("error full", "$R alone echo < input 2> /dev/full", 74, NOTHING),
    ("error full, refused", "$R alone nowhere 2> /dev/full", 66, NOTHING),
    ("list to a full output", "$R list server > /dev/full", 74, NOTHING),
    ("load to a full output", "$R load 1 > /dev/full", 74, NOTHING),
    ("output broken", "(sleep 0.3; $R alone echo < input; echo $? > st) | true; exit $(cat st)",
     251, REPORT),
    ("error broken", "(sleep 0.3; $R alone echo < input 2>&1 > /dev/null; echo $? > st) | true; "
     "exit $(cat st)", 74, NOTHING),
    ("list to a broken output", "(sleep 0.3; $R list server; echo $? > st) | true; exit $(cat st)",
     74, NOTHING),
    ("a folder as input", "$R alone echo < .", 251, REPORT),
    ("a folder as PROGRAM", "$R alone .", 66, "refused: program unreadable"),
    ("a folder as FILE", "$R alone --points . echo", 66, "refused: points unreadable"),
    ("a folder as IN", "$R alone port .:out", 251, REPORT),
    ("a folder as OUT", "$R alone port input:.", 251, REPORT),
    ("OUT on a full device", "$R alone port input:/dev/full", 251, REPORT),
    ("no IN", "$R alone port nowhere:out", 251, REPORT),
    ("a port as it should be", "$R alone port input:out && false; cmp input out && exit 14", 14,
     REPORT),
    ("IN and OUT one file", "cp input same; $R alone port same:same", 0, REPORT),
    ("OUT is PROGRAM", "cp port gone; $R alone gone input:gone && false; cmp input gone && exit 14",
     14, REPORT),
    ("OUT of a refused command", "cp input out; $R alone /dev/null input:out; st=$?; "
     "cmp input out && exit $st", 68, "refused: elf too-short at 0"),
    ("OUT of a refused rescue file", "cp input out; $R alone --points echo port input:out; st=$?; "
     "cmp input out && exit $st", 73, "refused: points toml at top"),
    ("OUT of a refused command isn't made", "$R alone nowhere input:out; st=$?; "
     "test ! -e out && exit $st", 66, "refused: program unreadable"),
    ("an empty device as PROGRAM", "$R alone /dev/null", 68, "refused: elf too-short at 0"),
    ("an endless device as PROGRAM", "$R alone /dev/zero", 67, "refused: program too long"),
    ("an endless device as FILE", "$R alone --points /dev/zero echo", 67,
     "refused: points too long"),
    ("a pipe as PROGRAM", "mkfifo pipe; cat echo > pipe & $R alone pipe < input", 14, REPORT),
    ("a pipe as FILE", "mkfifo pipe; : > pipe & $R alone --points pipe echo < input", 14, REPORT),
    ("a pipe without a writer", "mkfifo pipe; timeout 1 $R alone pipe", 124, NOTHING),
    ("PROGRAM from standard input", "cat echo | $R alone /dev/stdin", 0, REPORT),
    ("a file that grows past the limit", "(while :; do head -c 999999 /dev/zero; done >> grown) & "
     "sleep 0.1; while [ $(stat -c %s grown) -lt 17000000 ]; do $R alone grown 2> e; done; "
     "kill $!; $R alone grown", 67, "refused: program too long"),
    ("a file cut while it is read", "(while :; do cp echo cut; : > cut; done) & for n in 1 2 3 4 5 "
     "6 7 8 9; do $R alone cut < input 2>> e; case $? in 14|66|68) ;; *) echo $? >&2;; esac; done; "
     "kill $!; exit 0", 0, NOTHING),
    ("a name that isn't UTF-8", "$R alone $(printf 'a\\377') < input", 64, "refused: words line"),
    ("a first word that isn't UTF-8", "$R $(printf 'a\\377')", 64, "refused: words line"),
    ("an empty name", "$R alone ''", 66, "refused: program unreadable"),
    ("input and output closed, with a port", "$R alone echo input:out <&- >&-; st=$?; "
     "test ! -s out && exit $st", 251, REPORT),
    ("output closed, with a port", "$R alone echo input:out < input >&-; st=$?; "
     "test ! -s out && exit $st", 251, REPORT),
    ("error closed, with a port", "$R alone port input:out 2>&-; st=$?; cmp input out && exit $st",
     74, NOTHING),
]


def tried(row, rescue):
    """Runs a row in a folder of its own. What differs, or None."""
    name, line, status, first = row
    files = {"echo": copier(0, 1), "port": copier(3, 3), "server": guests.server()[0].bytes(),
             "input": b"one two\nthree\n"}
    with workplace():
        for path, contents in files.items():
            with open(path, "wb") as file:
                file.write(contents)
        came, told = of_shell(line, rescue)
    lines = told.decode(errors="replace").splitlines() or [""]
    if (came, lines[0]) == (status, first):
        return None
    return f"{name}: status {came} in place of {status}, line {lines[0]!r}"


def of_shell(line, rescue):
    """The status of a line of the shell, and what came on standard error. All that it started
    ends with it."""
    with subprocess.Popen(["bash", "-c", line], env={**os.environ, "R": rescue},
                          stdout=subprocess.DEVNULL, stderr=subprocess.PIPE,
                          start_new_session=True) as shell:
        try:
            _, told = shell.communicate(timeout=SECONDS)
        except BaseException:
            os.killpg(shell.pid, signal.SIGKILL)
            raise
    return shell.returncode, told


def main():
    """Tries all."""
    rescue = parser(__doc__).parse_args().rescue
    differing = [text for text in (tried(row, rescue) for row in TRIED) if text]
    print("\n".join(differing) or f"{len(TRIED)} are as the manual says")
    return 1 if differing else 0


if __name__ == "__main__":
    raise SystemExit(main())
