"""Checks the reading itself against worked rows, those of pages and those of paths: python3 tools/differ/rows.py"""
import glob
import json
import os
import sys

sys.dont_write_bytecode = True
sys.setrecursionlimit(100_000)

import language.evaluation
import language.filters
from reading import page, paths

HERE = os.path.dirname(os.path.abspath(__file__))
ROWS = f"{HERE}/../../tests/rows/*.json"
# calls with their answers, a line each
CALLS = f"{HERE}/../../crates/liquid_test_calls/stdin"


def whole(text):
    """A text, of which parts may stand so many times."""
    return text if isinstance(text, str) else "".join(part if isinstance(part, str) else part[0] * part[1] for part in text)


def wanted(row):
    return whole(row.get("text", "")), row["parse_fault"] if "parse_fault" in row else row["kind"]


def read(row):
    data = whole(row["data_text"]) if "data_text" in row else json.dumps(row.get("data", {}))
    partials = row.get("partials", {})
    pairs = partials.items() if isinstance(partials, dict) else partials
    return page(whole(row["source"]), data, [(name, whole(source)) for name, source in pairs])


def page_rows():
    """Of each row of a page its name, what the reading says and what is wanted."""
    for path in sorted(glob.glob(ROWS)):
        with open(path, encoding="utf-8") as file:
            rows = json.load(file)["rows"]
        for row in rows:
            # a call by its words, or the fronts of a source, say no page
            if "words" not in row and not row.get("cut"):
                yield f"{os.path.basename(path)}: {row['name']}", read(row), wanted(row)


def path_rows():
    """The same of what a template asks of its data."""
    with open(CALLS, encoding="utf-8") as file:
        rows = [json.loads(line) for line in file if '"Template::paths"' in line]
    for row in (row for row in rows if "answer" in row):
        source, (name, partial) = whole(row["source"]), map(whole, row["with"][:2])
        yield source[:80], paths(source, [(name, partial)]), ("".join(f"{path}\n" for path in row["answer"]), None)


def main():
    language.evaluation.MOST_STEPS = language.evaluation.MOST_TEXT = language.filters.MOST_PARTS = 10**9
    passed, failed = 0, 0
    for name, said, right in (*page_rows(), *path_rows()):
        good = said == right
        passed, failed = passed + good, failed + (not good)
        if not good:
            print(f"{name}: {str(said)[:300]}, and not {str(right)[:300]}")
    print(f"{passed} passed, {failed} failed")
    return 1 if failed or not passed else 0


if __name__ == "__main__":
    sys.exit(main())
