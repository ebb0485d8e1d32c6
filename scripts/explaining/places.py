"""Where a line of a scenario stands: the section that is open there, what stands before it, and what is taken there."""
import re
from dataclasses import dataclass

from .grammar import LINES, MOST_LINES, MOST_SESSIONS, MOST_STEPS, SHAPES

# what a section is called, and one of its lines
CALLED = {"vcpu": ("vCPU's section", "instruction"), "session": ("session", "request"), "order": ("order", "step")}
MOST_INSIDE = {"vcpu": MOST_LINES, "order": MOST_STEPS}
LABEL = re.compile(rb"at ([A-Za-z0-9_-]{1,32})")


@dataclass
class Section:
    """A section: its kind, the lines where it opens and where its `end` stands, and the first of these lines."""

    kind: str
    first: int
    head: bytes
    last: int = None

    def called(self):
        """The section, as a sentence names it."""
        return f"the {CALLED[self.kind][0]} that line {self.first} opens"

    def part(self):
        return CALLED[self.kind][1]

    def number(self):
        """The number of a vCPU's section."""
        return int(self.head.split(b" ")[1])


def sections(lines):
    """The sections of lines that are right, the last of which may be open."""
    found, is_open = [], False
    for number, line in enumerate(lines, 1):
        if not is_open:
            found.append(Section(line.split(b" ", 1)[0].decode("latin-1"), number, line))
        elif line == b"end":
            found[-1].last = number
        is_open = not is_open or line != b"end"
    return found


class Place:
    """Where a line stands that is the first to fail, by all lines of its scenario and its number."""

    def __init__(self, lines, number):
        self.lines, self.number = lines, number
        self.before = sections(lines[: number - 1])
        self.open = self.before[-1] if self.before and self.before[-1].last is None else None
        self.kind = self.open.kind if self.open else "outside"

    def of(self, *kinds):
        """The sections of these kinds before the line."""
        return [section for section in self.before if section.kind in kinds]

    def is_full(self):
        """Whether the open section can have no further line but its end."""
        return self.open is not None and self.number - 1 - self.open.first >= MOST_INSIDE.get(self.kind, self.number)

    def section_lines(self):
        """The lines of the open section with their numbers, up to its end or to the text's."""
        behind = self.lines[self.open.first:]
        return list(enumerate(behind[: behind.index(b"end")] if b"end" in behind else behind, self.open.first + 1))

    def labels(self):
        """The labels of the open section, each with its line."""
        return [(line[3:], number) for number, line in self.section_lines() if LABEL.fullmatch(line)]


# ---- what is taken there


def openings(place):
    """The lines that are taken outside of the sections."""
    if place.of("order"):
        return []
    vcpus = place.of("vcpu")
    is_early = not place.of("session") and (not vcpus or vcpus[-1].number() < 15)
    return ["vcpu N FUEL"] * is_early + ["session"] * (len(place.of("session")) < MOST_SESSIONS) + ["order"]


def taken(place):
    """The lines that are taken in a place."""
    if place.open is None:
        return openings(place)
    return ["end"] if place.is_full() else list(LINES[place.kind])


def shapes(place):
    """What the letters stand for in the lines that are taken there."""
    letters = {word for form in taken(place) for word in form.split()[1:]}
    return [f"{names}: {text}" for names, text in SHAPES.get(place.kind, {}).items() if letters & set(names.split(", "))]
