"""Numbers, texts and columns as a person reads them."""

BLOCK = 2 * 1024 * 1024
UNITS = ((1 << 30, "GiB"), (1 << 20, "MiB"), (1 << 10, "KiB"))


def size(n):
    """A number of bytes in the largest unit of which it is a whole number, or also in about so many of a unit."""
    for unit, name in UNITS:
        if n >= unit and n % unit == 0:
            return f"{n // unit} {name}"
    for unit, name in UNITS:
        if n >= 16 * unit:
            return f"{n} bytes (about {n / unit:.1f} {name})"
    return count(n, "byte")


def count(n, thing):
    return f"{n} {thing}" if n == 1 else f"{n} {thing}s"


def blocks(n):
    return f"{count(n, 'block')} ({size(n * BLOCK)})"


def span(first, number):
    """The blocks from one on."""
    if number == 1:
        return f"block {first} ({size(BLOCK)})"
    return f"blocks {first} to {first + number - 1} ({size(number * BLOCK)})" if number else f"no blocks, at {first}"


def listed(words):
    """Words as a list in a sentence."""
    words = list(words)
    if len(words) < 2:
        return "".join(words)
    return ", ".join(words[:-1]) + " or " + words[-1]


def cut(text, most, whole=False):
    """A text, or its beginning where it is longer."""
    return text if whole or len(text) <= most else f"{text[: most - 3]}.."


def shown(data):
    """Bytes as a text in which each byte that cannot be printed is spelled."""
    text = data.decode("utf-8", "backslashreplace")
    return "".join(c if c.isprintable() else c.encode("unicode_escape").decode() for c in text)


def columns(rows, most=64):
    """Rows of texts in aligned columns. A text that is wider than `most` does not widen its column."""
    width = {}
    for row in rows:
        for place, text in enumerate(row[:-1]):
            if len(text) <= most:
                width[place] = max(width.get(place, 0), len(text))
    return ["  ".join(t.ljust(width.get(p, 0)) for p, t in enumerate(row)).rstrip() for row in rows]


def wrapped(label, words, most=120):
    """Words as a list in a sentence behind a label, on as many lines as it needs."""
    ends = [", "] * (len(words) - 2) + [" or "] * (len(words) > 1) + ["."]
    lines = [label]
    for word, end in zip(words, ends):
        if len(lines[-1] + word + end) > most:
            lines.append(" " * 15)
        lines[-1] += word + end
    return [line.rstrip() for line in lines]
