"""The lines of the other statuses."""

LINES = {
    "chv: usage": "Status 1: the program's words are not `play` alone, and nothing was read. Run: scripts/chv play < SCENARIO",
    "chv: read fault": "Status 3: the input could not be read to its end. Look at the file, or at what writes into the pipe, and play it again.",
    "chv: too long": "Status 9: the input is longer than 16,777,216 bytes (16 MiB), so that it was not read to its end and nothing "
    "of it was played. Split it into several scenarios.",
}


def full(book, places, payload):
    """A book that has no room for the next entry."""
    name = "the control book" if book == "c" else f"the book of bank {book} (zone.bank)"
    return [
        f"Status 7: {name} has no room for an entry that the scenario calls for, and no trace is written.",
        f"  places taken   {int(places):>10,} of 1,048,576",
        f"  bytes taken    {int(payload):>10,} of 16,777,216",
        "Ask less in one scenario: each request that makes a control call takes a place, and so does each session's bye.",
    ]


def explain(text, told):
    """A line other than that of a refused scenario."""
    line = text.decode("utf-8", "replace").rstrip("\n")
    words = line.split(" ")
    if line in LINES:
        return [line, "", LINES[line]]
    if words[:2] == ["chv:", "full"] and len(words) == 5 and words[3].isdigit() and words[4].isdigit():
        return [line, ""] + full(*words[2:])
    raise ValueError("this is no line that chv writes")
