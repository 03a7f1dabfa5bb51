"""Points of a rescue file, and the file's text."""
from dataclasses import dataclass, field

from outcome import FAULTS


@dataclass
class Point:
    """A point: what it returns is an integer or the text void."""
    entry: int
    returns: object
    codes: dict = field(default_factory=dict)
    limit: int | None = None
    kind: str = "blocking"
    name: str | None = None

    def code(self, fault):
        """What the report prints for a rescue from this fault."""
        return printed(self.codes.get(fault, self.returns))


def printed(code):
    """A code as the report has it: a signed number of 64 bits."""
    return str((code + 2**63) % 2**64 - 2**63) if isinstance(code, int) else code


def value_text(code):
    """A code as the rescue file has it."""
    return f'"{code}"' if isinstance(code, str) else str(code)


def points_text(points, version=3):
    """The rescue file of these points."""
    lines = [f"version = {version}"]
    for point in points:
        lines.append("[[point]]")
        if point.name is None:
            lines.append(f"entry = {point.entry}")
        else:
            lines.append(f'function = "{point.name}"')
        lines.append(f"returns = {value_text(point.returns)}")
        if point.codes:
            pairs = ", ".join(f"{name} = {value_text(code)}" for name, code in point.codes.items())
            lines.append(f"codes = {{ {pairs} }}")
        if point.limit is not None:
            lines.append(f"limit = {point.limit}")
        lines.append(f'kind = "{point.kind}"')
    return "\n".join(lines) + "\n"


def random_code(random):
    """A code: small, at an end of its range, or void."""
    return random.choice([-1, 0, 1, -14, -38, 2**31, 2**63 - 1, -2**63, "void",
                          random.randrange(-2**63, 2**63)])


def random_points(random, functions):
    """Points at some of the functions, which are pairs of a name and an entry."""
    points = []
    for name, entry in functions:
        if random.random() < 0.25:
            continue
        some = random.sample(FAULTS, random.choice([0, 0, 1, 3, 8]))
        points.append(Point(
            entry, random_code(random), {fault: random_code(random) for fault in some},
            random.choice([None, None, None, 1, 2, 5, 1000000]),
            "off" if random.random() < 0.08 else "blocking",
            name if random.random() < 0.5 else None))
    random.shuffle(points)
    return points
