"""What is wrong with a field that is none of its kind, and how it is written where that can be told."""
import re

from .grammar import KINDS
from .units import count, cut, listed, shown

# bytes that cannot stand in a name, and how long it may be
NAMES = {"route": (rb"[a-z0-9.-]", 32), "label": (rb"[A-Za-z0-9_-]", 32), "disk": (rb"[A-Za-z0-9._-]", 64)}
PAIRS = ("bytes", "put bytes")


# ---- the same field, written as its kind is


def plain(text):
    """In lower case, without what parts fields or thousands in other languages."""
    return re.sub(rb"[,;_]", b"", text.lower())


def without_zeros(text):
    return re.sub(rb"^(0x|r|)0+(?=[0-9a-f])", rb"\1", plain(text))


def in_hexadecimal(text):
    return b"0x" + without_zeros(text)


def number(text):
    """The number that digits spell, in hexadecimal behind `0x`, or nothing; longer digits are too large for any field."""
    digits = re.fullmatch(rb"(0x)?([0-9a-f]{1,20})", plain(text))
    try:
        return int(digits[2], 16 if digits[1] else 10) if digits else None
    except ValueError:
        return None


def from_decimal(text):
    value = None if text[:2].lower() == b"0x" else number(text)
    return b"" if value is None else f"{value:#x}".encode()


def from_hexadecimal(text):
    value = number(text) if text[:2].lower() == b"0x" else None
    return b"" if value is None else str(value).encode()


REPAIRS = {
    "register": (plain, without_zeros),
    "value": (plain, without_zeros, from_decimal, in_hexadecimal),
    "port": (plain, without_zeros, from_decimal, in_hexadecimal),
    "decimal": (plain, without_zeros, from_hexadecimal),
}


def repaired(kind, field):
    """The field as its kind is written, or nothing where that cannot be told."""
    for repair in REPAIRS.get(kind, REPAIRS["decimal"]):
        text = repair(field)
        if KINDS[kind].is_one(text):
            return shown(text)
    return None


# ---- what is said


def wrong_name(kind, field):
    allowed, most = NAMES[kind]
    wrong = sorted(set(re.sub(allowed, b"", field)))
    if wrong:
        bytes_there = listed(f"`{shown(bytes([b]))}`" for b in wrong[:6])
        return f"`{cut(shown(field), 40)}` is no {KINDS[kind].name}: {bytes_there} cannot stand in one."
    if len(field) > most:
        return f"The {'label' if kind == 'label' else 'name'} has {len(field)} bytes, and may have {most}."
    return f"`{cut(shown(field), 40)}` is no {KINDS[kind].name}: {KINDS[kind].written}."


def wrong_pairs(kind, field):
    if field[:2] in (b"0x", b"0X"):
        return "Pairs stand without `0x` before them: each byte has two digits."
    wrong = re.search(rb"[^0-9a-f]", field)
    if wrong:
        case = "; the digits a to f are lower-case" if wrong[0].lower() in b"abcdef" else ""
        return f"`{shown(wrong[0])}` is no hexadecimal digit that is taken{case}."
    if len(field) % 2:
        return f"{count(len(field), 'digit')} cannot be parted into pairs: each byte has two."
    return f"These are {len(field) // 2} bytes, and one `put` stores at most 4096. Write several, each at its own address."


def wrong_number(kind, field):
    own, better = KINDS[kind], repaired(kind, field)
    told = f"`{cut(shown(field), 40)}` is no {own.name}: {own.written}."
    if better is None:
        return told
    meant = "Where the decimal number is meant, write" if better.startswith("0x") and field.isdigit() else "Write"
    return f"{told} {meant} `{better}`."


def wrong(kind, field):
    """What is wrong with a field that is none of its kind."""
    if not field:
        return "A field is empty: look for two spaces, or for one at the end of the line."
    if kind in NAMES:
        return wrong_name(kind, field)
    return wrong_pairs(kind, field) if kind in PAIRS else wrong_number(kind, field)
