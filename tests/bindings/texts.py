"""The worked rows of tests/rows that are made of texts."""
import json
import os

HERE = os.path.dirname(os.path.abspath(__file__))
ROWS = f"{os.path.dirname(HERE)}/rows"


def whole(text):
    """A text, of which parts may stand so many times."""
    return text if isinstance(text, str) else "".join(part if isinstance(part, str) else part[0] * part[1] for part in text)


def rows():
    """The rows whose pages are made of texts: no calls of the program by its words, and no sources that are given cut short alone."""
    for name in sorted(os.listdir(ROWS)):
        if name.endswith(".json"):
            with open(f"{ROWS}/{name}", encoding="utf-8") as file:
                yield from (row for row in json.load(file)["rows"] if "words" not in row and not row.get("cut"))
