"""A trace, part by part."""
from . import calls, rules, talk
from .units import columns, count, cut, shown, size

ENDS = {
    "ended": "all that it asked was answered",
    "cut": "its bytes stop within a request, which is not answered",
    "bad": "its last bytes are no request; they were refused, and the connection was closed",
    "closed": "its last request asked to close the connection",
    "fault": "its connection failed",
    "limit": "it took 67,108,864 bytes (64 MiB), and a session takes no more",
}


class Lines:
    """The lines of a trace, one after another. A trace that was broken off ends early."""

    def __init__(self, text):
        self.lines = text.split(b"\n")
        self.place = 0
        self.broken = False

    def next(self):
        """The next line, or nothing where the text was broken off; the last piece has no line feed."""
        if self.place + 1 >= len(self.lines):
            self.broken = True
            return None
        self.place += 1
        return self.lines[self.place - 1].decode("utf-8", "replace")

    def some(self, number):
        found = []
        while len(found) < number:
            line = self.next()
            if line is None:
                break
            found.append(line)
        return found


def head(line, word, number):
    """The words behind the first one of a section's line."""
    words = line.split(" ")
    if words[0] != word or len(words) != number + 1:
        raise ValueError(f"this is no trace: `{cut(line, 60)}` stands in place of a line `{word} ..`")
    return words[1:]


def told(kind, line, read):
    """What a line says, or a message that names it."""
    try:
        return read(line)
    except (ValueError, IndexError, KeyError, TypeError):
        raise ValueError(f"this is no {kind} entry of a trace: `{cut(line, 100)}`") from None


# ---- the parts


def scene(lines, whole):
    line = lines.next()
    if line is None:
        return []
    given = lines.some(int(head(line, "scene", 1)[0]))
    if not given:
        return ["Scene: no disks, no scripts."]
    shown_lines = given if whole or len(given) <= 12 else given[:10] + [f".. and {len(given) - 10} lines more (--whole shows them)"]
    return ["Scene: the disks and scripts that the scenario brings"] + ["  " + text for text in shown_lines]


def control(lines, whole):
    """The control entries as they are told, and those of each caller by their numbers."""
    line = lines.next()
    if line is None:
        return [], {}
    number = int(head(line, "control", 1)[0])
    rows, made = [["no", "caller", "call", "answer"]], {}
    for place, text in enumerate(lines.some(number), 1):
        caller, row, word, reply = told("control", text, lambda t: calls.control(t, whole))
        rows.append([str(place)] + row)
        made.setdefault(caller, []).append((place, word, reply))
    entries = "1 entry" if number == 1 else f"{number} entries"
    return [f"Control history: {entries}, in the order in which the calls were made"] + indented(rows), made


def bank(line, lines, whole):
    zone, place, number = head(line, "bank", 3)
    rows = [["no", "caller", "call", "answer"]]
    for n, text in enumerate(lines.some(int(number)), 1):
        rows.append([str(n)] + told("bank", text, lambda t: calls.bank(t, whole)))
    entries = "1 entry" if number == "1" else f"{number} entries"
    return [f"Bank {place} of zone {zone}: {entries}; a block has 2 MiB, a page 4 KiB"] + indented(rows, 48)


def indented(rows, most=64):
    """Rows in columns, or nothing where there is none behind the heading."""
    return ["  " + line for line in columns(rows, most)] if len(rows) > 1 else []


def octets(line, word):
    """The bytes of an `ask` or a `reply` line."""
    text = head(line, word, 1)[0]
    try:
        return b"" if text == "-" else bytes.fromhex(text)
    except ValueError:
        raise ValueError(f"the line `{word}` has something that is no pair of hexadecimal digits") from None


def entries_of(rule, left):
    """The numbers of a request's control entries, which are taken from those of its session that are left."""
    if not talk.makes_a_call(rule) or not left:
        return "none"
    place, word, reply = left.pop(0)
    if reply == "holding" and left and left[0][1] == "settle":
        return f"{place} and {left.pop(0)[0]}"
    return str(place)


def request_row(number, made, reply, left, whole):
    status, rule, _ = reply
    body = cut(shown(made.body), 72, whole) if made.body else ""
    if made.refused and not made.method:
        body = f"no request: {body}"
    if len(made.body) > 72 and not whole:
        body += f" ({size(len(made.body))})"
    return [str(number), made.method or "?", made.route or "?", status, rule, entries_of(rule, left), body]


def session(line, lines, made, whole):
    """A session: each request that was answered on a line, and what was asked besides. Also the rules that came."""
    number, end = head(line, "session", 2)
    ask, reply = lines.next(), lines.next()
    if reply is None:
        return [f"Session {number}: its bytes are not whole"], []
    answered, rest = talk.pairs(octets(ask, "ask"), octets(reply, "reply"))
    left = list(made.get(int(number), []))
    rows = [["no", "method", "route", "status", "rule", "entry", "body"]]
    rows += [request_row(n, *pair, left, whole) for n, pair in enumerate(answered, 1)]
    title = f"Session {number} {end}: {ENDS.get(end, 'an end that a trace does not have')}"
    found = [f"{title}; {count(len(answered), 'request')}"] + indented(rows)
    if rest and rest.strip(b"\r\n"):
        found.append(f"  not answered: {count(len(rest), 'byte')}, {cut(shown(rest), 72, whole)}")
    return found, [reply[1] for _, reply in answered if reply[1]]


def parts(lines, made, whole):
    """The banks and the sessions, up to the trace's last line, and the rules that came."""
    banks, sessions, came = [], [], []
    while True:
        line = lines.next()
        if line is None:
            return banks, sessions, came
        if line == "end":
            if lines.lines[lines.place:] != [b""]:
                raise ValueError("something stands behind the last line of the trace")
            return banks, sessions, came
        if line.startswith("bank "):
            banks += [""] + bank(line, lines, whole)
        else:
            told_session, names = session(line, lines, made, whole)
            sessions += [""] + told_session
            came += names


def explain(text, whole):
    lines = Lines(text)
    first = lines.next()
    if first is None and b"trace 1".startswith(text):
        return ["A first part of a trace: the output failed, or memory was wanting."]
    if first != "trace 1":
        raise ValueError("this is neither a trace (its first line is not `trace 1`) nor a line `chv: ..`")
    found = scene(lines, whole)
    entries, made = control(lines, whole)
    banks, sessions, came = parts(lines, made, whole)
    found += sessions + [""] + entries + banks
    if came:
        found += ["", "The rules that refused (docs/API.md):"] + rules.explain(dict.fromkeys(came))
    if lines.broken:
        found += ["", "The trace stops here: this is a first part of it. The output failed (status 4), or memory was wanting (status 6)."]
    return found
