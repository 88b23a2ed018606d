"""Checks what a merge prints of how far it is, while nobody takes its pages: a second later it prints a line with the next page."""
import re
import subprocess
import tempfile
import time

RECORDS = 50_000
START = r"\d+ pages, \d+ a second"
# the words of a call, whether its records come from standard input, and what each line of it is
CALLS = (
    (("r.jsonl",), False, rf"{START}, \d+ % of the file, \d+ seconds left"),
    (("r.jsonl", "--count", "40000"), False, rf"{START}, \d+ of 40000 records, \d+ seconds left"),
    (("-",), True, START),
)


def progress(program):
    """What went wrong, or None."""
    with tempfile.TemporaryDirectory() as room:
        with open(f"{room}/t", "w", encoding="utf-8") as file:
            file.write("page {{ id }}")
        with open(f"{room}/r.jsonl", "w", encoding="utf-8") as file:
            file.writelines(f'{{"id": {n}}}\n' for n in range(RECORDS))
        for words, is_input, wanted in CALLS:
            with open(f"{room}/r.jsonl", encoding="utf-8") as records:
                given = records if is_input else subprocess.DEVNULL
                call = [program, "merge", "t", *words, "--progress"]
                with subprocess.Popen(call, cwd=room, stdin=given, stdout=subprocess.PIPE, stderr=subprocess.PIPE, text=True) as ran:
                    time.sleep(1.5)
                    _, said = ran.communicate()
            lines = said.splitlines()
            if ran.returncode != 0 or len(lines) < 2 or not lines[-1].startswith("pages ") or not all(re.fullmatch(wanted, line) for line in lines[:-1]):
                return f"{words}: {lines[:3]}, status {ran.returncode}"
    return None
