#!/usr/bin/env python3
"""Holds what docs/proof/believe.md says in numbers and names to the tree: how many functions of the programs have no clause, with how
many lines, each within 5 %; and that every crate of others in crates.txt is named as trusted.

Its last line is "N passed, M failed"."""
import glob
import os
import re
import sys

TOP = os.path.dirname(os.path.dirname(os.path.dirname(os.path.abspath(__file__))))
PROGRAMS = ["bikleinu", "liquid_folder", "liquid_check", "liquid_commands"]
SENTENCE = re.compile(r"[Ss]ome ([\d,]+) of the ([\d,]+) functions of (.*?), with some ([\d,]+) lines, have no clause")
FUNCTION = re.compile(r"(?<![\w.])fn\s+[A-Za-z_]\w*")
CLAUSE = re.compile(r"\b(requires|ensures|decreases)\b\s*\w*\s*$")
LITERAL = re.compile(r"""//[^\n]*|/\*.*?\*/|"(?:[^"\\]|\\.)*"|b?'(?:\\u\{\w+\}|\\x..|\\.|[^'\\\n])'""", re.S)
ARRAY = re.compile(r"\[[^][{}]*;[^][{}]*\]")
OPENED = re.compile(r"[{;]")


def masked(text):
    """The text with comments and literals blanked, and without the `;` of array types, so that brackets count."""
    blank = LITERAL.sub(lambda found: re.sub(r"[^\n]", " ", found[0]), text)
    return ARRAY.sub(lambda found: found[0].replace(";", " "), blank)


def closed(text, start, pair):
    """The place after the bracket that closes the one at start."""
    depth = 0
    for place in range(start, len(text)):
        depth += (text[place] == pair[0]) - (text[place] == pair[1])
        if not depth:
            return place + 1
    return len(text)


def functions(text):
    """Of each function with a body: whether it has a clause, and its lines from `fn` to its last brace."""
    for found in FUNCTION.finditer(text):
        start = found.end()
        if text[start:start + 1] == "<":
            start = closed(text.replace("->", "  "), start, "<>")
        place = closed(text, text.find("(", start), "()")
        stated = False
        while (brace := OPENED.search(text, place)) and brace[0] == "{" and (head := CLAUSE.search(text[place:brace.start()])):
            stated = stated or head[1] != "decreases"
            place = closed(text, brace.start(), "{}")
        if brace and brace[0] == "{":
            yield stated, text.count("\n", found.start(), closed(text, brace.start(), "{}")) + 1


def counted():
    """How many functions of the programs have no clause, how many there are, and how many lines the former have."""
    bare = count = lines = 0
    for crate in PROGRAMS:
        for path in glob.glob(f"{TOP}/crates/{crate}/src/**/*.rt", recursive=True):
            with open(path, encoding="utf-8") as file:
                for stated, length in functions(masked(file.read())):
                    count += 1
                    bare += not stated
                    lines += 0 if stated else length
    return bare, count, lines


def crates_of_others():
    """The crates that crates.txt names and that aren't the project's own."""
    with open(f"{TOP}/crates.txt", encoding="utf-8") as file:
        lines = [line.split(":") for line in file if ":" in line and not line.startswith("#")]
    own = {line[0].split()[0] for line in lines}
    return sorted({name for line in lines for name in line[1].split()} - own)


def main():
    with open(f"{TOP}/docs/proof/believe.md", encoding="utf-8") as file:
        page = file.read()
    results = [(f"`{name}`" in page, f"`{name}` isn't named as trusted") for name in crates_of_others()]
    said = SENTENCE.search(page)
    names = said and re.findall(r"`(\w+)`", said[3])
    results.append((names == PROGRAMS, "the sentence on functions without a clause names other programs, or is gone"))
    if said:
        for written, real in zip((said[1], said[2], said[4]), counted()):
            near = abs(int(written.replace(",", "")) - real) <= real / 20
            results.append((near, f"it says {written}, and the tree has {real}"))
    failed = [message for good, message in results if not good]
    for message in failed:
        print(f"docs/proof/believe.md: {message}")
    print(f"{len(results) - len(failed)} passed, {len(failed)} failed")
    return 1 if failed else 0


sys.exit(main())
