"""Runs the built program, and checks what needs no model: the line, the report, the status."""
import os
import re
import signal
from dataclasses import dataclass

SECONDS = 300
FAULTS = ("fetch-misaligned fetch-rights illegal load-rights store-rights atomic-misaligned "
          "breakpoint blocked-in-point").split()
FAULT = "(?:" + "|".join(FAULTS) + ")"
ELF_NAMES = ("too-short magic class data version type machine flags header-table headers-outside "
             "dynamic segment-sizes segment-outside segment-place write-execute page-clash large "
             "entry")
SYMBOL_NAMES = ("section-size sections-outside entry-size table-outside string-section "
                "strings-outside name-outside")
POINT_NAMES = ("toml unknown-key bad-version bad-value too-many missing both bad-return bad-codes "
               "bad-limit bad-kind mixed unknown-function ambiguous misaligned outside-text twice "
               "loose-here")


def one_of(names):
    """A pattern of any of these names."""
    return "(?:" + "|".join(names.split()) + ")"


# The lines of refusals, and their statuses.
REFUSALS = [(re.compile(("refused: " + pattern).encode()), status) for pattern, status in [
    ("words (?:no-command|unknown-command|line|port|threads)", 64),
    (r"ports named \d+ handed \d+", 65),
    ("(?:program|points) unreadable", 66),
    ("(?:program|points) too long", 67),
    ("elf " + one_of(ELF_NAMES) + r" at \d+", 68),
    ("symbols " + one_of(SYMBOL_NAMES) + r" at \d+", 69),
    ("points " + one_of(POINT_NAMES) + r" at (?:top|\d+)", 73),
    ("memory", 75),
]]
REPORT = re.compile((
    r"rescue-report 1\nsteps (\d+)\nrecords (\d+)\nrescues (\d+)\n"
    r"((?:rescue [^\n]*\n)*)((?:spent point [0-9a-f]{16}\n)*)end ([^\n]*)\n\Z").encode())
RESCUE = re.compile((
    r"rescue depth (\d+) hart (\d+) point ([0-9a-f]{16}) fault (" + FAULT + r") pc ([0-9a-f]{16}) "
    r"steps (\d+) records (\d+) code (-?\d+|void)").encode())
ENDS = [
    (re.compile(rb"exit (\d+)"), None),
    (re.compile(("fault " + FAULT + r" hart \d+ pc [0-9a-f]{16}").encode()), 70),
    (re.compile(rb"stuck"), 71),
    (re.compile(rb"budget"), 72),
]


@dataclass
class Outcome:
    """What came of a run: a negative status is a signal's number."""
    status: int
    out: bytes
    err: bytes

    def report(self):
        """The match of the report at the end of what came on standard error, or None."""
        at = self.err.rfind(b"rescue-report 1\n")
        return REPORT.match(self.err, at) if at >= 0 else None

    def refusal(self):
        """The first line of a refusal that is all that came on standard error, or None. The lines
        that explain it begin with two spaces."""
        line, *further = self.err.splitlines(keepends=True) or [b""]
        explained = all(hint.startswith(b"  ") and hint.endswith(b"\n") for hint in further)
        whole = line.startswith(b"refused: ") and line.endswith(b"\n") and explained
        return line[:-1] if whole else None


class Hung(Exception):
    """The program didn't end in time."""


def stop_waiting(_number, _frame):
    """What the alarm does."""
    raise Hung


def run(program, words, stdin="/dev/null", environment=None):
    """Runs the program in this folder; standard output and error go to files here."""
    write = os.O_WRONLY | os.O_CREAT | os.O_TRUNC
    actions = [(os.POSIX_SPAWN_OPEN, 0, stdin, os.O_RDONLY, 0),
               (os.POSIX_SPAWN_OPEN, 1, "stdout", write, 0o600),
               (os.POSIX_SPAWN_OPEN, 2, "stderr", write, 0o600)]
    signal.signal(signal.SIGALRM, stop_waiting)
    child = os.posix_spawn(program, [program, *words], environment or os.environ,
                           file_actions=actions)
    signal.alarm(SECONDS)
    try:
        _, code = os.waitpid(child, 0)
    except BaseException:
        os.kill(child, signal.SIGKILL)
        os.waitpid(child, 0)
        raise
    finally:
        signal.alarm(0)
    with open("stdout", "rb") as out, open("stderr", "rb") as err:
        return Outcome(os.waitstatus_to_exitcode(code), out.read(), err.read())


@dataclass
class Expected:
    """What is known of a run: harts, budget, and the points by entry, where these are known."""
    harts: int = 64
    budget: int | None = None
    points: dict | None = None


def faults_of(outcome, expected):
    """What is wrong with an outcome of `alone` or `run`, as texts."""
    if outcome.refusal() is not None:
        return refusal_faults(outcome)
    report = outcome.report()
    if report is None:
        return ["neither a report nor a refusal"]
    steps, records, count = (int(number) for number in report.groups()[:3])
    faults = end_faults(outcome, report.group(6), steps, expected)
    rescues = [RESCUE.fullmatch(line) for line in report.group(4).splitlines()]
    if None in rescues:
        return faults + ["a rescue line of another form"]
    if len(rescues) != count:
        faults.append("another number of rescue lines")
    if len(outcome.out) > records * 65536:
        faults.append("more was written than the records can")
    return (faults + sum_faults(steps, records, rescues)
            + point_faults(rescues, report.group(5), expected))


def refusal_faults(outcome):
    """What is wrong with a refusal: its line, its status, that nothing else came."""
    for pattern, status in REFUSALS:
        if pattern.fullmatch(outcome.refusal()):
            faults = [] if outcome.status == status else ["another status than the line's"]
            if outcome.out and status != 75:
                faults.append("output before a refusal")
            return faults
    return ["an unknown refusal"]


def end_faults(outcome, end, steps, expected):
    """What is wrong with the end line, beside the status and the steps."""
    for pattern, status in ENDS:
        found = pattern.fullmatch(end)
        if found:
            wanted = int(found.group(1)) if status is None else status
            faults = [] if wanted == outcome.status else ["another status than the end's"]
            budget = steps if expected.budget is None else expected.budget
            if steps > budget or (end == b"budget" and steps != budget):
                faults.append("the steps don't fit the budget")
            return faults
    return ["an unknown end"]


def sum_faults(steps, records, rescues):
    """Each level holds the steps, the jumps and the records of the rescues within it."""
    levels = [[steps, records, None]]
    for rescue in rescues:
        depth, hart = int(rescue.group(1)), int(rescue.group(2))
        if depth >= len(levels):
            return ["a rescue line that lies in none"]
        del levels[depth + 1:]
        inner = [int(rescue.group(6)), int(rescue.group(7)), hart]
        outer = levels[depth]
        outer[0] -= inner[0] + 1
        outer[1] -= inner[1]
        if min(outer[:2]) < 0:
            return ["the rescues' steps or records don't add up"]
        if outer[2] not in (None, hart):
            return ["a rescue within one of another hart"]
        levels.append(inner)
    return []


def point_faults(rescues, spent, expected):
    """What the rescue lines and the spent points say beside the rescue file."""
    faults = []
    if any(int(rescue.group(2)) >= expected.harts for rescue in rescues):
        faults.append("a hart past the slots")
    if expected.points is None:
        return faults
    counts = dict.fromkeys(expected.points, 0)
    for rescue in rescues:
        entry = int(rescue.group(3), 16)
        if entry not in counts or expected.points[entry].kind == "off":
            return faults + ["a point that the file doesn't have"]
        counts[entry] += 1
        if expected.points[entry].code(rescue.group(4).decode()) != rescue.group(8).decode():
            faults.append("another code than the file's")
    wanted = [entry for entry, point in expected.points.items()
              if point.limit is not None and counts[entry] >= point.limit]
    if [int(line.split()[2], 16) for line in spent.splitlines()] != wanted:
        faults.append("other spent points than the limits say")
    return faults
