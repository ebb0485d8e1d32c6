"""The lines of a scenario as tables, by the place where they stand: which are taken there, and of which kind each field is.
docs/API.md and docs/GUEST.md have the same for a reader."""
import re
from dataclasses import dataclass
from typing import Callable

MOST_SESSIONS, MOST_LINES, MOST_STEPS = 16, 4096, 65536
LARGEST = 2**64 - 1

# the lines of each place; `disk` is a word of the format, and never taken, as disks are not built
LINES = {
    "outside": ("disk NAME SECTORS", "vcpu N FUEL", "session", "order"),
    "vcpu": (
        "at NAME", "set rD HEX", "mov rD rA", "add rD rA rB", "sub rD rA rB", "and rD rA rB", "or rD rA rB", "xor rD rA rB",
        "ld W rD rA HEX", "st W rS rA HEX", "put rA PAIRS", "in W rD HEX", "out W rS HEX",
        "jmp NAME", "jz rA NAME", "jnz rA NAME", "jlt rA rB NAME", "halt", "end",
    ),
    "session": ("get NAME", "put NAME", "put NAME BODY", "raw PAIRS", "end"),
    "order": ("s K", "v N", "q", "end"),
}
OPENERS = ("disk", "vcpu", "session", "order")

# what the letters of a place's lines stand for
SHAPES = {
    "outside": {
        "N": "0 to 15, above the number of the vCPU's section before it",
        "FUEL": "0 to 1048576: how many instructions the vCPU may make",
    },
    "vcpu": {
        "NAME": "a label: 1 to 32 letters, digits, `_` or `-`; a line of the section is `at NAME`, and only one",
        "rA, rB, rD, rS": "a register: `r0` to `r15`",
        "W": "how many bytes: 1, 2, 4 or 8, and of `in` and `out` 1, 2 or 4",
        "HEX": "`0x` and lower-case hexadecimal digits without leading zeros, below 2^64, and of `in` and `out` at most 0xffff",
        "PAIRS": "1 to 4,096 pairs of lower-case hexadecimal digits, one pair for each byte, with nothing between them",
    },
    "session": {
        "NAME": "1 to 32 lower-case letters, digits, `.` or `-`: the name of a route, as vm.create",
        "BODY": "the rest of the line, at least one byte",
        "PAIRS": "pairs of lower-case hexadecimal digits, one pair for each byte, with nothing between them",
    },
    "order": {
        "K": "the number of a session, in decimal digits without leading zeros, below 2^64",
        "N": "the number of a vCPU, written likewise",
    },
}


# ---- kinds of fields


@dataclass(frozen=True)
class Kind:
    """A kind of field: what one is called, how it is written, and whether bytes are one."""

    name: str
    written: str
    is_one: Callable[[bytes], bool]


def one_of(words):
    return lambda text: text.decode("latin-1") in words


def decimal(low, high):
    shape = re.compile(rb"0|[1-9][0-9]{0,19}")
    return lambda text: shape.fullmatch(text) is not None and low <= int(text) <= high


def hexadecimal(high):
    shape = re.compile(rb"0x(0|[1-9a-f][0-9a-f]{0,15})")
    return lambda text: shape.fullmatch(text) is not None and int(text, 16) <= high


def pairs(most):
    shape = re.compile(rb"([0-9a-f]{2})+")
    return lambda text: shape.fullmatch(text) is not None and len(text) <= 2 * most


def spelled(shape):
    return lambda text: re.fullmatch(shape, text) is not None


DIGITS = "in decimal digits without leading zeros"
HEX = "`0x` and lower-case hexadecimal digits without leading zeros"
KINDS = {
    "register": Kind("register", "they are `r0` to `r15`", one_of([f"r{n}" for n in range(16)])),
    "width": Kind("width of an access to memory", "it is 1, 2, 4 or 8", one_of(["1", "2", "4", "8"])),
    "port width": Kind("width of an access to a port", "it is 1, 2 or 4", one_of(["1", "2", "4"])),
    "value": Kind("hexadecimal number", f"it is {HEX}, below 2^64", hexadecimal(LARGEST)),
    "port": Kind("port", f"it is {HEX}, at most 0xffff", hexadecimal(0xFFFF)),
    "vcpu": Kind("number of a vCPU", f"it is 0 to 15, {DIGITS}", decimal(0, 15)),
    "fuel": Kind("fuel", f"it is 0 to 1048576, {DIGITS}", decimal(0, 1048576)),
    "sectors": Kind("number of sectors", f"it is 1 to 8192, {DIGITS}", decimal(1, 8192)),
    "session step": Kind("number of a session", f"it is below 2^64, {DIGITS}", decimal(0, LARGEST)),
    "vcpu step": Kind("number of a vCPU", f"it is below 2^64, {DIGITS}", decimal(0, LARGEST)),
    "label": Kind("label", "1 to 32 letters, digits, `_` or `-`", spelled(rb"[A-Za-z0-9_-]{1,32}")),
    "route": Kind("name of a route", "1 to 32 lower-case letters, digits, `.` or `-`", spelled(rb"[a-z0-9.-]{1,32}")),
    "disk": Kind("name of a disk", "1 to 64 letters, digits, `.`, `_` or `-`, the first no `.`",
                 spelled(rb"[A-Za-z0-9_-][A-Za-z0-9._-]{0,63}")),
    "bytes": Kind("pairs of digits", "one pair for each byte", pairs(LARGEST)),
    "put bytes": Kind("pairs of digits", "1 to 4,096 pairs, one for each byte", pairs(4096)),
    "body": Kind("body", "at least one byte", lambda text: len(text) > 0),
}

# of which kind a field is, by the place and by its letters
FIELDS = {
    "outside": {"N": "vcpu", "FUEL": "fuel", "NAME": "disk", "SECTORS": "sectors"},
    "vcpu": {"NAME": "label", "W": "width", "HEX": "value", "PAIRS": "put bytes",
             "rA": "register", "rB": "register", "rD": "register", "rS": "register"},
    "session": {"NAME": "route", "BODY": "body", "PAIRS": "bytes"},
    "order": {"K": "session step", "N": "vcpu step"},
}
AT_PORTS = {"W": "port width", "HEX": "port"}


# ---- lines


def word_of(line):
    return line.split(b" ", 1)[0].decode("latin-1")


def fields_of(place, line):
    """The fields behind the word; a body is the rest of its line."""
    return line.split(b" ", 2 if place == "session" and line.startswith(b"put ") else -1)[1:]


def words(place):
    return [form.split()[0] for form in LINES[place]]


def forms(place, word):
    """The lines of a place that begin with this word."""
    return [form for form in LINES[place] if form.split()[0] == word]


def has_its_fields(place, line):
    return len(fields_of(place, line)) in [len(form.split()) - 1 for form in forms(place, word_of(line))]


def kind_of(place, word, letters):
    return AT_PORTS.get(letters) if word in ("in", "out") and letters in AT_PORTS else FIELDS[place][letters]


def wrong_field(place, line):
    """The first field that is none of its kind, and this kind; or nothing."""
    word, fields = word_of(line), fields_of(place, line)
    for form in forms(place, word):
        letters = form.split()[1:]
        for own, field in zip(letters, fields) if len(letters) == len(fields) else ():
            kind = kind_of(place, word, own)
            if not KINDS[kind].is_one(field):
                return kind, field
    return None
