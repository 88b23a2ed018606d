"""The files that a new kind of node touches, which the page on adding one must name.

A file of src/ is one if it names some kinds of `Node` that have nothing in common, as a match on all of them does. A file of specs/ or
proofs/ is one if it has a line for `increment`, the page's example, which is a node without bodies."""
import glob
import re

# the page, by its path from the top
PAGE = "docs/develop/adding.md"
KINDS = {"Increment", "JekyllInclude", "RenderEach"}
KIND = re.compile(r"\bNode::(\w+)")
IMPORT = re.compile(r"^\s*(?:pub )?use .*$", re.M)
LINE = re.compile(r"^.*\([Ii]ncrement \w+\).*=", re.M)
QUOTED = re.compile(r"`([^`\n]+)`")


def text_of(path):
    with open(path, encoding="utf-8") as file:
        return file.read()


def touched(top):
    """The paths of these files, from the top."""
    for path in sorted(glob.glob("crates/*/src/**/*.rt", root_dir=top, recursive=True)):
        if KINDS <= set(KIND.findall(text_of(f"{top}/{path}"))):
            yield path
    for folder in ("specs", "proofs"):
        for path in sorted(glob.glob(f"crates/*/{folder}/**/*.antt", root_dir=top, recursive=True)):
            if LINE.search(IMPORT.sub("", text_of(f"{top}/{path}"))):
                yield path


def wrong_nodes(top):
    """A result for each of these files: whether the page names it, by its path or an end of it, and what to say if not."""
    named = {f"/{quoted}" for quoted in QUOTED.findall(text_of(f"{top}/{PAGE}"))}
    paths = list(touched(top))
    for folder in ("src", "specs", "proofs"):
        yield any(f"/{folder}/" in path for path in paths), f"tests/docs/nodes.py finds no file of {folder}/ that a node touches"
    for path in paths:
        is_named = any(f"/{path}".endswith(end) for end in named)
        yield is_named, f"{PAGE}: a new node needs a line in {path}, which the page doesn't name"
