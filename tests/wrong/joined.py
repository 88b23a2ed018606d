"""One check of edits in several crates: each stands in it as a source, so that nothing below has to be proved or read again."""
import os
import re
import shutil
from dataclasses import dataclass

from crates import copied, ran
from edits import sources, text_of
from functions import modules, stated_functions
from stubs import homes_of, place_of, stub

ROOT = """#![tactic(auto)]

/// Nothing: the check is of the crates below.
pub fn nothing() {}
"""
AHEAD = re.compile(r"^ahead of the check: (\w+)::.*\n?", re.M)


@dataclass(frozen=True)
class Variant:
    """A crate once more under a name of its own, with these texts in place of its own, and the function that is to be proved in it.
    No other crate names it, so a definition can be changed there."""

    crate: object
    number: int
    texts: dict
    function: object

    @property
    def name(self):
        return f"{self.crate.name}__{self.number}"


class Joined:
    """Copies of libraries, with those below them, in a folder of its own."""

    def __init__(self, crates, at, room):
        self.at, self.room = at, room
        self.crates = []
        for crate in crates:
            self.crates += [it for it in [*crate.below, crate] if it not in self.crates]

    def check(self, edited, variants=(), beside=None):
        """What a check says of each edited crate and of each variant, by its name, and the seconds of a core that it took. Of each crate
        the texts in place of its own are given, and the functions that are to be proved; each other one, of these crates and of those
        below, is taken at its word."""
        asked = []
        for crate in self.crates:
            texts, proved = edited.get(crate.name, ({}, []))
            asked += made_ready(crate.name, copied(crate, f"{self.room}/{crate.name}", texts), proved)
        for it in variants:
            copy = copied(it.crate, f"{self.room}/{it.name}", it.texts)
            rename(copy, it.crate.name, it.name)
            asked += made_ready(it.name, copy, [it.function])
        said = ran(self.words(asked, variants), self.rooted(), beside)
        return {name: self.said_of(name, said) for name in [*edited, *(it.name for it in variants)]}, said.seconds

    def rooted(self):
        """The folder of a library that has nothing of its own, over which the others are checked."""
        root = f"{self.room}/root"
        os.makedirs(f"{root}/src")
        os.makedirs(f"{root}/specs")
        for path, text in (("src/lib.rt", ROOT), ("specs/Lib.antt", "")):
            with open(f"{root}/{path}", "w", encoding="utf-8") as file:
                file.write(text)
        return root

    def words(self, asked, variants):
        of_kit = dict.fromkeys(["std", *(name for crate in self.crates for name in crate.of_kit)])
        made = [f"{self.at}/bin/rattle", "check", "--crate-name", "root", "src/lib.rt"]
        for name in of_kit:
            made += ["--extern", f"{name}={self.at}/rlibs/{name}.rlib"]
        made += ["-L", f"dependency={self.at}/rlibs"]
        for name, crate in [*((it.name, it) for it in self.crates), *((it.name, it.crate) for it in variants)]:
            uses = ",".join(["std", *crate.of_kit, *crate.named])
            made += ["--lib", f"{name}:{uses}={self.room}/{name}/{crate.root}"]
        made += ["--antt-project", f"{self.at}/rattle/logic/antt-project.json", "--logic-built", f"{self.at}/logic_built"]
        os.makedirs(f"{self.room}/kept")
        made += ["--jobs", "1", "--incremental", f"{self.room}/kept", "--allow-holes"]
        return made + [word for name in asked for word in ("--only", name)]

    def said_of(self, name, said):
        """The same words as of a check of this crate alone: the paths of its files begin in its folder."""
        text = AHEAD.sub(lambda found: found[0] if found[1] == name else "", said.text)
        folder = f"{self.room}/{name}"
        return type(said)(folder, text.replace(f"{folder}/", "./"), said.status, 0, said.verdicts)


def made_ready(name, copy, proved):
    """Takes all of the copy at its word but these functions, and gives their paths."""
    asked = [f"{name}::{path}" for path in whole_names(copy, proved)]
    stub(name, copy, proved)
    remove_cycles(copy, {it.cycle or it.name.split("::")[-1] for it in proved})
    return asked


def rename(copy, old, new):
    """Gives the copy another name of a crate, wherever it names itself."""
    for at, _, names in os.walk(copy):
        for name in names:
            text = re.sub(rf"\b{old}\b", new, text_of(f"{at}/{name}"))
            with open(f"{at}/{name}", "w", encoding="utf-8") as file:
                file.write(text)


def whole_names(copy, functions):
    """The paths of these functions in their crate."""
    texts = {path: text_of(f"{copy}/{path}") for path in sources(copy)}
    homes = homes_of(texts)
    stated = {it.name: it for path, text in texts.items() for it in stated_functions(text, path)}
    for it in functions:
        owner = it.name.partition("::")[0]
        yield "::".join(place_of(stated[it.name], homes) if it.name in stated else [*homes.get(owner, [[]])[-1], it.name])


def remove_cycles(copy, cycles):
    """Removes the proofs of cycles of calls in which nothing calls itself any more. One of a single function has its name."""
    for at, folders, _ in os.walk(f"{copy}/proofs"):
        for folder in [it for it in folders if it.startswith("+") and it[1:] not in cycles]:
            shutil.rmtree(f"{at}/{folder}")
            folders.remove(folder)
