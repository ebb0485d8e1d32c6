"""What is wrong with a line of a scenario, by the reason for which it is refused and by the place where it stands."""
from . import fields
from .grammar import MOST_LINES, MOST_SESSIONS, MOST_STEPS, fields_of, forms, word_of, wrong_field
from .places import sections
from .units import cut, listed, shown

NUMBERS = ("no field", "one field", "two fields", "three fields", "four fields")

# what each reason says, where the scenario is not at hand
REASONS = {
    "UnknownWord": "the line begins with a word that is not taken there (an empty line has the empty word)",
    "FieldCount": "the word is taken there, but has too few or too many fields behind it; one space parts two fields",
    "BadRegister": "a field of an instruction is no register: they are `r0` to `r15`",
    "BadWidth": "a width is none: it is 1, 2, 4 or 8, and of `in` and `out` 1, 2 or 4",
    "BadNumber": "a number is none, or outside of its range; it is written in decimal digits without leading zeros",
    "BadHex": "a hexadecimal number is none, or outside of its range (`0x` and lower-case digits without leading zeros), or what "
    "stands behind `raw`, or in a `put` of a script, is no pairs of lower-case hexadecimal digits",
    "BadName": "a name is none: that of a route has 1 to 32 lower-case letters, digits, `.` or `-`, and a label 1 to 32 letters, "
    "digits, `_` or `-`",
    "UnknownLabel": "a script jumps to a label that no line of its section is",
    "LabelTwice": "a line above in the same section is this label already",
    "Unended": "the last line has no line feed at its end",
    "OutOfOrder": "vCPUs stand first, by ascending numbers, then sessions, and last one order",
    "TooMany": "a scenario has at most 16 sessions, a script 4,096 lines, and an order 65,536 steps",
    "NotHere": "there is a session where connections are served",
    "Unclosed": "the text ends within a section: its line `end` is missing",
    "BadTrace": "the text is no trace",
    "NotBuilt": "either the line is of a disk, which is not built yet; or the scenario is right and has a vCPU's section or an "
    "order, which are not played yet",
}


# ---- words and fields


def unknown_word(line, place):
    of = {"outside": "that opens a section", "vcpu": "of a script", "session": "of a session's section", "order": "of an order"}
    return f"`{cut(shown(line.split(b' ', 1)[0]), 40)}` is no word {of[place.kind]}."


def field_count(line, place):
    word, given = word_of(line), fields_of(place.kind, line)
    if word == "put" and place.kind == "session":
        return "`put` has a name behind it, and may have a body." if not given else "Behind the name stands a space and no body."
    if word == "get":
        return "`get` has one field, the name of a route, and no body."
    if word == "raw":
        return "`raw` has one field: all pairs stand together, without a space."
    form = forms(place.kind, word)[0]
    number = len(form.split()) - 1
    if number == 0:
        return f"`{word}` stands alone on its line; here `{cut(shown(line.partition(b' ')[2]), 40)}` stands behind it."
    together = " All pairs stand together, without a space." if "PAIRS" in form else ""
    return f"`{word}` has {NUMBERS[number]}, `{form}`; here it has {len(given) or 'none'}.{together}"


def bad_field(line, place):
    found = wrong_field(place.kind, line)
    if found is None:
        raise ValueError("this line has no such field")
    kind, field = found
    if place.kind == "session" and not field:
        return f"`{word_of(line)}` and a space, and no {'digits' if kind == 'bytes' else 'name'} behind it."
    return fields.wrong(kind, field)


# ---- labels


def is_near(line, name):
    """Whether a line that is no label looks like this one: indented, followed by something, or with a colon."""
    tokens = line.replace(b":", b" ").split()
    return [token.lower() for token in tokens[:1]] == [b"at"] and tokens[1:2] == [name] or (tokens == [name] and b":" in line)


def meant(place, name):
    """What may be meant by a jump to a label that is none: a line that is nearly this label, or one elsewhere, or nothing."""
    for number, line in place.section_lines():
        if is_near(line, name):
            return f"line {number} (`{cut(shown(line), 40)}`) is near to it, and no label as it stands."
    for own, number in place.labels():
        if own.lower() == name.lower():
            return f"line {number} is `at {shown(own)}`, and labels keep their case."
    for number, line in enumerate(place.lines, 1):
        if line == b"at " + name:
            return f"line {number} is, in another section, and a script jumps within its own."
    return None


def unknown_label(line, place):
    name = line.split(b" ")[-1]
    near, there = meant(place, name), [f"`{shown(own)}`" for own, _ in place.labels()]
    known = f"Write one, or jump to {listed(there[:8])}." if there else "Write one where the jump goes: the section has no label."
    return f"No line of this section is `at {shown(name)}`" + (f": {near}" if near else f". {known}")


def label_twice(line, place):
    first = [number for own, number in place.labels() if own == line[3:] and number < place.number]
    return f"Line {first[0]} is `{shown(line)}` already: a label stands once in its section. Give one of the two another name."


# ---- sections


def late_vcpu(line, place):
    late = place.of("session", "order")
    if late:
        return f"The sections of vCPUs stand before all sessions and the order: move this one above line {late[0].first}."
    last, number = place.of("vcpu")[-1], int(fields_of("outside", line)[0])
    own = [section for section in place.of("vcpu") if section.number() == number]
    if own:
        return f"Line {own[0].first} opens a section of vCPU {number} already: a vCPU has one."
    return f"vCPUs stand by ascending numbers, and line {last.first} opens the section of vCPU {last.number()}: move this one up."


def out_of_order(line, place):
    word = word_of(line)
    if word == "vcpu":
        return late_vcpu(line, place)
    if word == "disk":
        return f"Lines of disks stand before all sections, and line {place.before[0].first} opens one; disks are not built yet: leave it out."
    first = place.of("order")[0].first
    if word == "order":
        return f"A scenario has one order, and line {first} opens it. Put the steps there."
    return f"The order stands last, and line {first} opens it: move this session above it."


def too_many(line, place):
    if place.kind == "vcpu":
        return f"A script has at most {MOST_LINES} lines, labels too, and so many stand before this one: make it shorter."
    if place.kind == "order":
        return f"An order has at most {MOST_STEPS} steps, and so many stand before this one: make it shorter."
    return f"A scenario has at most {MOST_SESSIONS} sessions, and {len(place.of('session'))} stand before this one."


def unended(line, place):
    return "The last line has no line feed at its end, so that it may be cut off. Add one: `echo >> FILE`."


def unclosed(line, place):
    return f"The text ends within {place.open.called()}: a line `end` is missing behind its last {place.open.part()}."


def not_built(line, place):
    if word_of(line) == "disk":
        return "`disk` is a word of the format that is not built yet: leave its line out."
    parts = [f"{section.first} to {section.last}" for section in sections(place.lines) if section.kind in ("vcpu", "order")]
    return ("The scenario is right, but no vCPU runs yet and no order of steps is made, so that it is not played. "
            f"Leave their sections out: lines {cut(' and '.join(parts), 100)}.")


SENTENCES = {
    "UnknownWord": unknown_word, "FieldCount": field_count, "BadRegister": bad_field, "BadWidth": bad_field,
    "BadNumber": bad_field, "BadHex": bad_field, "BadName": bad_field, "UnknownLabel": unknown_label, "LabelTwice": label_twice,
    "Unended": unended, "OutOfOrder": out_of_order, "TooMany": too_many, "Unclosed": unclosed, "NotBuilt": not_built,
}
