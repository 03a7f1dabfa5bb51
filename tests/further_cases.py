"""What else a random guest is put through: its history is saved and audited, as it is and changed,
and the functions on the way to its fault are tried, each also by hand under `alone`."""
import os
import re
import struct

import outcome

TRY = re.compile(rb"try ([0-9a-f]{16}) (.*) end (.*) rescues (\d+)")
AUDIT = re.compile(rb"audit (?:yes steps (\d+) records (\d+) rescues (\d+)|no .*)\n")
# the ends of the ranges of a field
ENDS = (0, 1, 2**7, 2**8 - 1, 2**15, 2**16, 2**31, 2**32 - 1, 2**63 - 1, 2**63, 2**64 - 1)


def write(name, contents):
    """A file of this folder."""
    with open(name, "wb") as file:
        file.write(contents)


def read(name):
    """What it holds."""
    with open(name, "rb") as file:
        return file.read()


def changed(random, history):
    """A history with a byte or a field changed, cut, longer, or with a part of it a second time."""
    data = bytearray(history)
    place = random.randrange(len(data))
    way = random.choice(["byte", "field", "cut", "longer", "twice"])
    if way == "byte":
        data[place] ^= random.randrange(1, 256)
    elif way == "field":
        form = random.choice(["<B", "<I", "<Q"])
        place = random.randrange(max(1, len(data) - 7))
        field = random.choice(ENDS) % 2 ** (8 * struct.calcsize(form))
        data[place:place + struct.calcsize(form)] = struct.pack(form, field)
    elif way == "cut":
        del data[place:]
    elif way == "longer":
        data += random.randbytes(random.randrange(1, 9))
    else:
        data[place:place] = data[place:place + random.randrange(1, 40)]
    return bytes(data)


def audits(rescue, random, limits, points):
    """What is wrong with the audits of a guest's saved run, as texts."""
    for name in ("history", "report"):
        if os.path.exists(name):
            os.remove(name)
    ran = outcome.run(rescue, ["alone", *limits, *points, "--save=history", "--report=report",
                               "program"], "input")
    if not os.path.exists("history"):
        return [f"no history is saved: {ran.status}"] if ran.status in (70, 71, 72) else []
    history, report = read("history"), read("report")
    write("out", ran.out)
    write("err", ran.err)
    words = ["audit", *points, "history", "program", "input", "out", "err"]
    came = outcome.run(rescue, words)
    sums = re.search(rb"steps (\d+)\nrecords (\d+)\nrescues (\d+)\n", report).groups()
    wanted = b"audit yes steps %s records %s rescues %s\n" % sums
    found = [] if (came.status, came.out, came.err) == (0, wanted, b"") else [
        f"audit: {came.status} {came.out!r} in place of {wanted!r}"]
    for _ in range(3):
        write("history", changed(random, history))
        came = outcome.run(rescue, words)
        line = AUDIT.fullmatch(came.out)
        if came.status not in (0, 78) or not line or came.err or (
                (came.status == 0) != (line.group(1) is not None)):
            found.append(f"audit of a changed history: {came.status} {came.out!r} {came.err!r}")
    return found


def by_hand(rescue, limits, entry, returns):
    """The end and the rescues of a run with this only point."""
    write("points-one", b"[[point]]\nentry = %d\nreturns = %d\n" % (entry, returns))
    came = outcome.run(rescue, ["alone", *limits, "--points=points-one", "program"], "input")
    report = came.report()
    return (came.err.splitlines()[-1][4:], int(report.group(3))) if report else (came.err, 0)


def trials(rescue, random, limits):
    """What is wrong with the trials of a guest, as texts."""
    base = outcome.run(rescue, ["alone", *limits, "program"], "input")
    returns = random.choice([-1, 0, 0, 7, -2**63, 2**63 - 1])
    came = outcome.run(rescue, ["try", *limits, f"--returns={returns}", "program", "input"])
    if base.report() is None or came.err:
        return [f"try: {came.err!r}, and {base.err!r} of alone"]
    end = base.err.splitlines()[-1]
    if not end.startswith(b"end fault "):
        good = (came.status, came.out) == (79, end + b"\n")
        return [] if good else [f"try: {came.status} {came.out!r} in place of {end!r}"]
    rows = [row.groups() for row in map(TRY.fullmatch, came.out.splitlines()) if row]
    lines, entries = [b"try-report 1", end[4:]], [int(row[0], 16) for row in rows]
    for entry, name, _, _ in rows:
        ended, rescues = by_hand(rescue, limits, int(entry, 16), returns)
        lines.append(b"try %s %s end %s rescues %d" % (entry, name, ended, rescues))
    good = [(row[0], row[1]) for row in rows if row[2] == b"exit 0"]
    lines += [b"good %s %s" % pair for pair in good] + [b"count %d" % len(good), b""]
    wanted = b"\n".join(lines)
    if (came.status, came.out) != (0, wanted) or len(set(entries)) < len(entries) or (
            len(entries) > 64):
        return [f"try: {came.status} {came.out!r} in place of {wanted!r}"]
    return []
