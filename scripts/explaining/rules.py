"""What docs/API.md says of each rule: its table is the one place where that stands."""
import os
import re

PAGE = os.path.join(os.path.dirname(os.path.abspath(__file__)), "..", "..", "docs", "API.md")
ROW = re.compile(r"^\| ([A-Z][A-Za-z]+) \| (\d{3}) \| ([^|]+) \| ([^|]+) \|")

# the rules that refuse a request before the control machine is asked, so that it has no entry
OF_THE_HEAD = ("BadHead", "Coded", "BadLength", "BodyTooLong")
BEFORE = OF_THE_HEAD + ("NoRoute", "NotJson", "Missing", "NotObject", "NotList", "NotText", "NotWhole", "NotBool", "BadName")


def table():
    """Each rule of the page, with where it comes and what to do."""
    try:
        with open(PAGE, encoding="utf-8") as page:
            rows = [ROW.match(line) for line in page]
    except OSError:
        return {}
    return {row[1]: (row[3].strip(), row[4].strip()) for row in rows if row}


def explain(names):
    """The rules that came, each with its sentence."""
    known = table()
    told = []
    for name in names:
        where, do = known.get(name, ("docs/API.md is not there, which says when it comes", ""))
        told.append(f"  {name}: {where}")
        if do:
            told.append(f"      {do}")
    return told
