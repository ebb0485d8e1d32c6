"""The requests and replies of a session, cut from its bytes."""
import re
from dataclasses import dataclass

from .rules import BEFORE, OF_THE_HEAD
from .units import shown

EMPTY_LINE = re.compile(rb"\n\r?\n")
RULE = re.compile(rb'^\{"rule":"([A-Za-z]+)"\}$')
HERE = "/api/v1/"


@dataclass
class Request:
    method: str
    route: str
    body: bytes
    refused: bool = False  # its head is refused, and so is all that stands behind it


def front(data):
    """Where the head ends that the bytes begin with: behind the first empty line after a byte other than CR and LF."""
    text = re.search(rb"[^\r\n]", data)
    end = EMPTY_LINE.search(data, text.start()) if text else None
    return end.end() if end else None


def length_of(head):
    """What the Content-Length of a head says, 0 where it is absent or no number."""
    found = re.search(rb"^content-length:[ \t]*(\d+)[ \t]*\r?$", head, re.I | re.M)
    return int(found[1]) if found else 0


def words_of(head):
    """Method and route of a head, the target where it is none of the API."""
    parts = head.lstrip(b"\r\n").split(b"\n", 1)[0].rstrip(b"\r").split(b" ")
    if len(parts) < 3 or not parts[2].startswith(b"HTTP/"):
        return "", ""
    target = shown(parts[1])
    return shown(parts[0]), target[len(HERE):] if target.startswith(HERE) else target


def request(data, rule):
    """The first request of the bytes, by the rule that it was refused by, and what stands behind it."""
    end = front(data)
    head = data if end is None else data[:end]
    method, route = words_of(head)
    if rule in OF_THE_HEAD:
        return Request(method, route, b"" if method else data, True), b""
    if end is None or len(data) < end + length_of(head):
        return None, data
    last = end + length_of(head)
    return Request(method, route, data[end:last]), data[last:]


def replies(data):
    """The replies, each with its status, the rule that it names, and its body."""
    found = []
    while data:
        end = data.find(b"\r\n\r\n")
        if end < 0:
            break
        head, rest = data[: end + 4], data[end + 4:]
        body, data = rest[: length_of(head)], rest[length_of(head):]
        rule = RULE.match(body)
        found.append((head[9:12].decode("ascii", "replace"), rule[1].decode() if rule else "", body))
    return found


def pairs(asked, replied):
    """Each request that was answered, with its reply; what was asked besides."""
    answered = []
    for reply in replies(replied):
        made, rest = request(asked, reply[1])
        if made is None:
            break
        answered.append((made, reply))
        asked = rest
    return answered, asked


def makes_a_call(rule):
    return rule not in BEFORE
