"""The line of a refused scenario: which one it is, what is wrong with it, and what would have been taken there."""
import re

from .places import Place, shapes, taken
from .reasons import REASONS, SENTENCES
from .slips import slip
from .units import cut, shown, wrapped

REFUSAL = re.compile(rb"^chv: line (\d+): ([A-Za-z]+)\n?$")
NOT_PLAYED = ("vcpu N FUEL", "order")


def is_refusal(text):
    return REFUSAL.match(text) is not None


def view(lines, number):
    """The line between those beside it."""
    width = len(str(number + 1))
    rows = []
    for n in range(max(1, number - 2), min(len(lines), number + 1) + 1):
        rows.append(f"  {'>' if n == number else ' '} {n:>{width}} | {cut(shown(lines[n - 1]), 120)}")
    if number > len(lines):
        rows.append(f"  > {number:>{width}} | (the text ends before this line)")
    return rows


def wrong(reason, line, place):
    """What is wrong with the line: a slip that people make, or else what its reason says."""
    sentence = slip(reason, line, place) or SENTENCES[reason](line, place)
    return sentence[0].lower() + sentence[1:]


def taken_there(reason, place):
    """The lines that would have been taken there, and what their letters stand for."""
    lines = [f"`{line}`" + (" (read, and not played yet)" if line in NOT_PLAYED else "") for line in taken(place)]
    lines += [] if place.open else ["the end of the text"]
    label = "Taken there:   " + ("a line with its line feed: " if reason == "Unended" else "")
    return wrapped(label, lines) + [f"      {text}" for text in shapes(place)]


def of_line(lines, number, reason):
    """What is wrong with the line of this number, and what would have been taken there."""
    line = lines[number - 1] if number <= len(lines) else b""
    try:
        place = Place(lines, number)
        return ["What is wrong: " + wrong(reason, line, place)] + taken_there(reason, place)
    except (AttributeError, IndexError, KeyError, ValueError):
        raise ValueError(f"line {number} of the scenario is not refused so: it is not the one that was refused") from None


def without(number, reason):
    """The reason alone, where the scenario is not at hand."""
    return [
        f"Line {number} is the first line of the scenario that fails, and nothing was played: {reason}.", "",
        f"  {reason}: {REASONS.get(reason, 'docs/API.md has it not yet')}.", "",
        "To see the line, and what would have been taken there: scripts/explain --scenario SCENARIO",
    ]


def explain(text, told):
    number, reason = REFUSAL.match(text).groups()
    number, reason = int(number), reason.decode()
    if told is None or reason not in SENTENCES:
        return without(number, reason)
    lines = told.split(b"\n")
    if lines[-1] == b"":
        lines.pop()
    if number > len(lines) + 1 or number < 1:
        raise ValueError(f"the scenario has {len(lines)} lines and no line {number}: it is not the one that was refused")
    found = [f"The scenario is refused (status 2), and nothing of it was played. Line {number} fails first: {reason}.", ""]
    return found + view(lines, number) + [""] + of_line(lines, number, reason)
