"""Names that a page gives with their crate: "`X`, `y.rt` and `Z` of `liquid_a`", and "`w.rt` there" after a crate in the same line."""
import glob
import os
import re
from functools import cache

NAMED = r"`[\w./:]+`"
PAIR = re.compile(rf"({NAMED}(?:(?:, | and |, and ){NAMED})*) (?:of `(liquid_\w+|bikleinu)`|there\b)")
NAME = re.compile(r"`([\w./:]+)`")
CRATE = re.compile(r"`(liquid_\w+|bikleinu)`")
FOLDERS = ("*", "src/**", "specs/**", "proofs/**", "wrong/**")


@cache
def paths_in(crate):
    """The paths of the crate's files and folders."""
    return [path for folder in FOLDERS for path in glob.glob(f"{crate}/{folder}", recursive=True)]


@cache
def places_in(crate):
    """These paths, and those of definitions without their ending: `specs/Calls` stands for specs/Calls.antt."""
    return tuple({*paths_in(crate), *(path.removesuffix(".antt") for path in paths_in(crate))})


@cache
def words_in(crate):
    """The names of the crate's definition files, and the words of its sources and definitions."""
    words = set()
    for path in paths_in(crate):
        if re.search(r"/(?:src/.*\.rt|specs/.*\.antt)$", path):
            words.add(os.path.basename(path).split(".")[0])
            with open(path, encoding="utf-8") as file:
                words.update(re.findall(r"\w+", file.read()))
    return words


def is_in(name, crate):
    """Whether a name is of a crate: a file or a folder, by an end of its path, or else a word, or several with colons between them."""
    if any(place.endswith(f"/{name.strip('/')}") for place in places_in(crate)):
        return True
    return not re.search("[./]", name) and words_in(crate).issuperset(re.findall(r"\w+", name))


def pairs_in(line):
    """Each name of a line that has a crate, and the crates that it may be of. A crate's own name in a list has none."""
    for found in PAIR.finditer(line):
        crates = [found[2]] if found[2] else CRATE.findall(line, 0, found.start())
        if crates:
            yield from ((name, crates) for name in NAME.findall(found[1]) if not CRATE.fullmatch(f"`{name}`"))


def wrong_pairs(top, pages):
    """A result for each such name: whether it is of that crate, and what to say if not. A list may have a path from the top in it."""
    for page in pages:
        with open(f"{top}/{page}", encoding="utf-8") as file:
            for number, line in enumerate(file, 1):
                for name, crates in pairs_in(line):
                    if not os.path.exists(f"{top}/{name}"):
                        is_right = any(is_in(name, f"{top}/crates/{crate}") for crate in crates)
                        yield is_right, f"{page}:{number}: `{name}` isn't in {' or '.join(crates)}"
