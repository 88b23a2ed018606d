"""A test of the script, over a small crate that it writes: an edit that changes nothing is reported, tried with others and alone, and
so are one that doesn't apply and one that stops the compiler. So are two that change nothing of a function whose proof has answers
by hand, whose goals are open for want of one: one adds a way out, the other takes away the call that its answer names. And a test of
what a turn tries, over small repositories: each edit is tried or left, once, and at three commits in a row each one is tried."""
import os
import subprocess
import tempfile
from dataclasses import dataclass

from crates import Crate
from turns import COMMITS, TELLING_PAGE, TURNS, name_of, of_turn

ROOT = """//! A crate of one module.
#![tactic(auto)]

pub mod numbers;
"""
SOURCE = """//! Functions, of which each gets edits.
ghost use Rattle.std.specs.Prelude.{◌≡◌};
ghost use Rattle.small.specs.Same.{IsSame};

/// The number itself.
pub fn itself(number: u8) -> u8
    ensures { result ≡ number }
{
    let same = number;
    same
}

/// One.
pub fn one() -> u8
    ensures { result ≡ 1 }
{
    1
}

/// Seven.
pub fn seven() -> u8
    ensures { result ≡ 7 }
{
    7
}

/// The number once more.
pub fn again(given: u8) -> u8
    ensures { IsSame result given }
{
    given
}

/// The number once more, by a call that its answer by hand names.
pub fn called(given: u8) -> u8
    ensures { IsSame result given }
{
    itself(given)
}
"""
LIB = """pub mod Same
"""
SAME = """-- A number and the same one, which no search opens.
use Rattle.std.specs.Prelude.{◌≡◌, ℕ}

unfoldable pub IsSame : ℕ → ℕ → Type 0
IsSame a b = a ≡ b
"""
ANSWERS = """use Rattle.std.proofs.Common.{refl}
use Rattle.small.specs.Same.{IsSame}
use Rattle.small.proofs.numbers.again.Goals as goal

pub returns : goal.returns
unfolding IsSame
returns c = refl
"""
CALLED = """use Rattle.small.specs.Same.{IsSame}
use Rattle.small.proofs.numbers.called.Goals as goal

pub returns : goal.returns
unfolding IsSame
returns c = c.itself.ensures
"""
EDITS = {
    "harmless.edit": ("let same = number;", "let same = number; let _nothing = true;"),
    "spaces.edit": ("let same = number;", "let same = number; "),
    "broken.edit": ("    7", "    let = 7;"),
    "lost.edit": ("    8", "    9"),
    "lines.edit": ("    1", "    2\n    3"),
    "wrong.edit": ("    1", "    2"),
    "uncalled.edit": ("    itself(given)", "    let same = given; same"),
    "way_out.edit": ("    given", "    if given == 0 { return given; } given"),
    "wrong_way_out.edit": ("    given", "    if given == 0 { return 1; } given"),
}
REPORTED = ["broken.edit", "harmless.edit", "lines.edit", "lost.edit", "spaces.edit", "uncalled.edit", "way_out.edit"]


@dataclass
class Small(Crate):
    """A crate that stands on nothing but std, and in a folder of its own."""

    at: str = ""

    @property
    def folder(self):
        return self.at


def selftest(run, tell):
    with tempfile.TemporaryDirectory(prefix="wrong-") as folder:
        for path, text in [("src/lib.rt", ROOT), ("src/numbers.rt", SOURCE), ("specs/Lib.antt", LIB), ("specs/Same.antt", SAME), ("proofs/numbers/again/Answers.antt", ANSWERS), ("proofs/numbers/called/Answers.antt", CALLED)]:
            written(f"{folder}/{path}", text)
        files = [written(f"{folder}/wrong/{name}", f"file: src/numbers.rt\nold: {old}\nnew: {new}\n") for name, (old, new) in EDITS.items()]
        (trial,) = run([(Small("small", [], [], at=folder), files)], 1, tell)
    reported = sorted(name for name, _ in trial.failed)
    well = reported == REPORTED and trial.count == len(EDITS)
    print(f"selftest: {', '.join(reported)} reported" + ("" if well else f", and not {', '.join(REPORTED)}"))
    results = [well, *turns_cover()]
    print(f"{sum(results)} passed, {results.count(False)} failed")
    return int(False in results)


def turns_cover():
    """Whether what turns try is as it should be, of each thing that is looked at."""
    with tempfile.TemporaryDirectory(prefix="wrong-") as top:
        work = [(Small(name, [], [], at=f"{top}/crates/{name}"), []) for name in ("low", "high", "edited", "untracked")]
        for crate, files in work:
            files += [written(f"{crate.folder}/wrong/edit_{at}.edit", "") for at in range(30)]
            written(f"{crate.folder}/src/lib.rt", "")
        written(f"{top}/{TELLING_PAGE}", "| a body | `high/edit_3`, `low/edit_4` |\n")
        every = {file for _, files in work for file in files}
        yield said("without a repository all are tried", tried(work, top) == every)
        git(top, "init", "--quiet")
        committed(top)
        yield said("without ten commits before all are tried", tried(work, top) == every)
        for at in range(COMMITS + 1):
            written(f"{top}/page.md", f"{at}")
            committed(top)
        turns = []
        for at in range(TURNS):
            turns.append(tried(work, top))
            written(f"{top}/page.md", f"the turn after {at}")
            committed(top)
        telling = {file for crate, files in work for file in files if name_of(crate, file) in ("high/edit_3", "low/edit_4")}
        yield said("three turns try each edit", set().union(*turns) == every)
        yield said("the telling ones are tried in each", set.intersection(*turns) == telling)
        written(f"{top}/crates/low/specs/Lib.antt", "")
        git(top, "switch", "--quiet", "--create", "other")
        committed(top)
        git(top, "switch", "--quiet", "-")
        git(top, "merge", "--quiet", "--no-ff", "--no-edit", "other")
        written(f"{top}/crates/edited/wrong/edit_1.edit", "another")
        committed(top)
        written(f"{top}/crates/untracked/proofs/New.antt", "")
        written(f"{top}/crates/high/stdin", "rows aren't proved")
        whole = {file for crate, files in work for file in files if crate.name != "high"}
        yield said("those of crates that changed are tried, also in a merge or without a commit", whole < tried(work, top) < every)
        few = tried(work, top, most=40)
        yield said("where time is short no more than that are tried, and the telling ones", telling < few and len(few) <= 40)
        yield said("where time isn't short all of the turn are", tried(work, top, most=len(every)) == tried(work, top))
        git(top, "clone", "--quiet", "--depth", f"{COMMITS + 2}", f"file://{top}", f"{top}/shallow")
        yield said("with a part of the history all are tried", tried(work, f"{top}/shallow") == every)


def tried(work, top, most=None):
    """The edits that the turn tries; none if what is tried and what is left aren't all edits, each once."""
    of = [[file for _, files in part for file in files] for part in of_turn(work, top, most=most)[:2]]
    return set(of[0]) if sorted(of[0] + of[1]) == sorted(file for _, files in work for file in files) else set()


def said(what, well):
    print(f"selftest: {what}" if well else f"selftest: not so: {what}")
    return well


def committed(top):
    git(top, "add", "--all")
    git(top, "commit", "--quiet", "--message", "a commit")


def git(top, *words):
    # nothing of whoever runs it
    who = {f"GIT_{role}_{part}": "somebody@localhost" for role in ("AUTHOR", "COMMITTER") for part in ("NAME", "EMAIL")}
    env = {**os.environ, **who, "GIT_CONFIG_GLOBAL": os.devnull, "GIT_CONFIG_SYSTEM": os.devnull}
    subprocess.run(["git", "-C", top, *words], check=True, env=env, stdin=subprocess.DEVNULL, stdout=subprocess.DEVNULL)


def written(path, text):
    os.makedirs(os.path.dirname(path), exist_ok=True)
    with open(path, "w", encoding="utf-8") as file:
        file.write(text)
    return path
