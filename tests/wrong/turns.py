"""Which edits a run tries that names no crate: those of the crates that changed, the telling ones, and of the others a third, by the
number of the commit."""
import os
import re
import subprocess
import zlib

from crates import Stopped
from edits import text_of

# how many steps back from the commit a change counts, in how many turns the others are tried, and in how many at most where time is short
COMMITS, TURNS, MOST_TURNS = 10, 3, 12
OF_CRATE = re.compile(r"crates/(\w+)/(?:src|specs|proofs|wrong)/")
TELLING_PAGE, TELLING = "docs/proof/refused.md", re.compile(r"`(\w+/\w+)`")
WHY = ("of crates that changed", "telling", "of turn {} of {}")
SHORT = "this machine has the time for {} edits, so those of crates that changed are tried by turns too"


class NoHistory(Exception):
    """There is no number of a commit, or nothing to compare its files with, and why."""


def of_turn(work, top, since=None, most=None):
    """Of these crates with their edits, the repository's at this folder, those to try, those left, and the lines that say which and why.
    Without history all are tried. Changes count since that commit, if one is given. Where there is time for so many edits only, changes
    don't count, and there are more turns."""
    every = sum(len(files) for _, files in work)
    try:
        changed, number = changed_crates(top, since), int(git(top, "rev-list", "--count", "--first-parent", "HEAD"))
    except NoHistory as why:
        return work, [], f"tries all {every} edits: {why}"
    telling = telling_edits(top)
    tried, found = chosen(work, changed, telling, number, TURNS)
    turns, lines = TURNS, ""
    if most is not None and sum(found) > most:
        lines = f"\n{SHORT.format(most)}"
        for turns in range(TURNS, MOST_TURNS + 1):
            tried, found = chosen(work, (), telling, number, turns)
            if sum(found) <= most:
                break
    left = [(crate, [file for file in files if file not in taken]) for (crate, files), (_, taken) in zip(work, tried)]
    counts = ", ".join(f"{count} {words.format(number % turns + 1, turns)}" for count, words in zip(found, WHY))
    named = ", ".join(crate.name for crate, _ in work if crate.name in changed) or "none"
    lines = f"tries {sum(found)} of {every} edits: {counts}; {every - sum(found)} are left to the other turns, and --all tries all{lines}"
    return with_edits(tried), with_edits(left), f"{lines}\ncrates that changed since {since or f'{COMMITS} commits'}: {named}"


def chosen(work, changed, telling, number, turns):
    """Of the edits of each crate those that are tried at the commit of that number, and how many for each reason."""
    found = [0] * len(WHY)

    def is_tried(crate, file):
        reasons = (crate.name in changed, name_of(crate, file) in telling, turn_of(crate, file, turns) == number % turns)
        if any(reasons):
            found[reasons.index(True)] += 1
        return any(reasons)

    return [(crate, [file for file in files if is_tried(crate, file)]) for crate, files in work], found


def with_edits(work):
    return [(crate, files) for crate, files in work if files]


def name_of(crate, file):
    """The edit as pages name it: its crate, and its file without the ending."""
    return f"{crate.name}/{os.path.splitext(os.path.basename(file))[0]}"


def turn_of(crate, file, turns):
    """The turn of an edit among so many, which stays while it keeps its name."""
    return zlib.crc32(name_of(crate, file).encode()) % turns


def telling_edits(top):
    """The edits that the page of what is refused names."""
    path = f"{top}/{TELLING_PAGE}"
    return set(TELLING.findall(text_of(path))) if os.path.exists(path) else set()


def changed_crates(top, since):
    """The crates of which a source, a definition, a proof or an edit isn't as it was, files without a commit included."""
    if os.path.realpath(git(top, "rev-parse", "--show-toplevel")) != os.path.realpath(top):
        raise NoHistory("the folder is no repository of its own")
    if git(top, "rev-parse", "--is-shallow-repository") != "false":
        raise NoHistory("the clone has a part of its history only")
    try:
        changed = git(top, "diff", "--name-only", "--no-renames", since or f"HEAD~{COMMITS}", "--", "crates")
    except NoHistory:
        if since:
            raise Stopped(f"there is no commit {since}") from None
        raise NoHistory(f"there are no {COMMITS} commits before this one") from None
    changed += "\n" + git(top, "ls-files", "--others", "--exclude-standard", "--", "crates")
    return {found[1] for found in map(OF_CRATE.match, changed.split("\n")) if found}


def git(top, *words):
    try:
        ran = subprocess.run(["git", "-C", top, *words], capture_output=True, text=True, errors="replace")
    except OSError:
        raise NoHistory("there is no git") from None
    if ran.returncode:
        raise NoHistory("there is no history")
    return ran.stdout.strip()
