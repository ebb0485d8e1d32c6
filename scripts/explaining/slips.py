"""Slips that people make in a scenario, told in their own words."""
import re

from .grammar import OPENERS, fields_of, has_its_fields, word_of, words
from .units import shown

OF_LINES = ("UnknownWord", "FieldCount", "BadRegister", "BadWidth", "BadNumber", "BadHex", "BadName")
COMMENTS = ("#", ";", "//")

# what a line does that belongs into a section of this kind, and what opens one
BELONGS = {
    "session": ("asks something within a session", "session"),
    "vcpu": ("is an instruction within a vCPU's section", "vcpu N FUEL"),
    "order": ("is a step within the order", "order"),
}

# what is wrong besides with a line that opens a section, by the section that has no end before it
BESIDES = {
    ("session", "vcpu"): " And move this section up: vCPUs stand before all sessions.",
    ("order", "vcpu"): " And move this section up: vCPUs stand before all sessions.",
    ("order", "session"): " And move this section up: the order stands last.",
    ("order", "order"): " And put the steps into that one: a scenario has one order.",
}


def carriage_return(reason, line, place):
    if line.endswith(b"\r"):
        return ("the line ends in CR and LF (shown as \\r), as editors on Windows write lines. A scenario's lines end in LF "
                "alone: `tr -d '\\r' < OLD > NEW` writes it so.")


def comment(reason, line, place):
    for mark in COMMENTS:
        if line.lstrip(b" \t").startswith(mark.encode()):
            return f"a line with a `{mark}`: a scenario has no comments. Take the line out."
        if b" " + mark.encode() in line and reason in ("FieldCount", "BadHex"):
            return f"a `{mark}` stands behind what the line asks: a scenario has no comments. Take it out, and the space before it."


def indented(reason, line, place):
    if line[:1] in (b" ", b"\t") and line.strip(b" \t"):
        return "the line is indented: each line begins with its word, at its first byte. Take the space before it away."


def blank(reason, line, place):
    if not line.strip(b" \t") and reason == "UnknownWord":
        return "an empty line: a scenario has none, neither between sections nor in one. Take it out."


def forgotten_end(reason, line, place):
    word = word_of(line)
    if place.open is not None and reason == "UnknownWord" and word in OPENERS:
        besides = " And leave this line out: disks are not built yet." if word == "disk" else BESIDES.get((place.kind, word), "")
        return (f"{place.open.called()} has no `end` before this `{shown(line)}`. "
                f"Put a line `end` behind its last {place.open.part()}.{besides}")


def owner(line):
    """The kind of section in which a line with this word stands, by its register where two have the word."""
    kinds = [kind for kind in BELONGS if word_of(line) in words(kind) and word_of(line) != "end"]
    if len(kinds) > 1:
        return "vcpu" if re.match(rb"\w+ r\d+( |$)", line) else "session"
    return kinds[0] if kinds else None


def misplaced(reason, line, place):
    kind = owner(line) if reason == "UnknownWord" else None
    word = word_of(line)
    if kind is not None and place.open is None:
        return f"`{word}` {BELONGS[kind][0]}, and none is open here. Put a line `{BELONGS[kind][1]}` before it."
    if kind is not None:
        return f"`{word}` {BELONGS[kind][0]}, and this is {place.open.called()}. Take it out, or end the section before it."
    if reason == "UnknownWord" and line == b"end":
        return "no section is open here: this `end` is one too many, or its `session`, `vcpu` or `order` is missing."


def upper_case(reason, line, place):
    word = word_of(line)
    if reason == "UnknownWord" and word.lower() in words(place.kind) + list(OPENERS):
        return f"words are in lower case: `{word.lower()}`."


def own_style(reason, line, place):
    label = re.fullmatch(rb"([A-Za-z0-9_-]{1,32}):", line.rstrip(b" "))
    if place.kind == "vcpu" and reason == "UnknownWord" and label:
        return f"a label is written `at {shown(label[1])}`."
    step = re.fullmatch(rb"([sv])([0-9]+)", line)
    if place.kind == "order" and reason == "UnknownWord" and step:
        return f"one space parts a word and its number: `{shown(step[1])} {shown(step[2])}`."


def commas(reason, line, place):
    if place.kind == "vcpu" and b"," in line and has_its_fields("vcpu", line.replace(b", ", b",").replace(b",", b" ")):
        return "a comma stands in the line: one space alone parts two fields. Take the commas away."


def tab(reason, line, place):
    asked = b" ".join(line.split(b" ")[:2]) if place.kind == "session" else line
    if b"\t" not in asked:
        return None
    where = "behind the word" if re.match(rb"[a-z]+\t", line) else "in the line"
    return f"a tab stands {where} (shown as \\t): one space parts two fields."


def whole_target(reason, line, place):
    name = line.partition(b" ")[2].split(b" ", 1)[0]
    if reason == "BadName" and place.kind == "session" and name.startswith((b"/", b"http:", b"api/")):
        return "a route is named without what stands before it in a URL: `vm.info`, not `/api/v1/vm.info`."


def spaces(reason, line, place):
    if reason != "FieldCount":
        return None
    if line.endswith(b" ") and has_its_fields(place.kind, line.rstrip(b" ")):
        return "a space stands at the end of the line. Take it away."
    if b"  " in line and has_its_fields(place.kind, re.sub(rb" +", b" ", line)):
        return f"two spaces stand {'behind the word' if fields_of(place.kind, line)[0] == b'' else 'together'}: one space parts two fields."
    if line.startswith(b"get ") and b" {" in line:
        return "a `get` has no body. If the route takes one, it is asked with `put`."


SLIPS = (carriage_return, comment, indented, blank, forgotten_end, misplaced, upper_case, own_style, commas, tab, whole_target, spaces)


def slip(reason, line, place):
    """The first of the slips that this line shows, or nothing."""
    if reason not in OF_LINES:
        return None
    for known in SLIPS:
        sentence = known(reason, line, place)
        if sentence:
            return sentence
    return None
