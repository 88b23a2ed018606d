"""The worked rows of pages, given to the library's calls by a program that makes them: parse, render_to, render_source, render and
render_page, each of which must make the row's page and end by its kind."""
import json
import os
import re
import subprocess

TOP = os.path.dirname(os.path.dirname(os.path.dirname(os.path.abspath(__file__))))
PROGRAM = f"{TOP}/crates/liquid_test_page_calls/out/liquid_test_page_calls"
# what the program says of a row whose partials can't be read: such a row makes no call, and the page program tells its first fault
NO_ROW = re.compile(r"no row, by (\w+): (.*)")


def call_of(row, whole):
    """The call that the row stands for, as a line of the program's input, or None: rows of words, of data as a text, of fronts alone and of
    partials in an order are the page program's."""
    partials = row.get("partials", {})
    if "words" in row or "data_text" in row or row.get("cut") or isinstance(partials, list):
        return None
    sources = {name: whole(source) for name, source in partials.items()}
    kind = row["parse_fault"] if "parse_fault" in row else row["kind"]
    call = {"call": "page", "source": whole(row["source"]), "data": row.get("data", {}), "answer": whole(row.get("text", ""))}
    call |= {"on": {"partials": sources}} if sources else {}
    return json.dumps(call | ({"fault": kind} if kind else {}), ensure_ascii=False)


def given(rows, whole):
    """How many of the rows make calls, and a line for each thing that isn't as its row says."""
    lines = {line: row for row in rows if (line := call_of(row, whole))}
    ran = subprocess.run([PROGRAM], input="".join(f"{line}\n" for line in lines), capture_output=True, encoding="utf-8", timeout=600)
    wrong = [f"it ends by status {ran.returncode}: {ran.stderr[:200]}"] if ran.returncode else []
    for printed in ran.stdout.split("\n"):
        unread = NO_ROW.fullmatch(printed)
        row = lines.get(unread[2]) if unread else None
        if printed and not (row and (row.get("parse_fault") or row.get("kind"))):
            wrong.append(printed[:200])
    return len(lines), wrong
