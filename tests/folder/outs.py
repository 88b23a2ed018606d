"""What stands in OUT before a page is written there: links, pipes, files that the program reads, and parts of pages of other runs."""
import os
import subprocess
import tempfile
from dataclasses import dataclass, field

from entries import DEVICE, FOLDER, PIPE, SOCKET, Hard, Link, Of, entries_in, put

# a part of a page of a run that was killed
DEAD = ".999999999-1.bikleinu-part"
PAGES = {"a": "1{{ x }}", "b": "2{{ x }}", "c": "3{{ x }}"}
SITE = {"site/data": '{"x": "!"}', **{f"site/pages/{name}": text for name, text in PAGES.items()}}
WRITTEN = {f"out/{name}": text.replace("{{ x }}", "!") for name, text in PAGES.items()}
LONGEST = "n" * 255


@dataclass
class Out:
    """A call over entries, and what comes of it: the entries that it makes or changes, and those that it removes; and, where a page's file is
    refused, what its line names, and the pages that may be there or not."""

    title: str
    entries: dict
    left: dict = field(default_factory=lambda: dict(WRITTEN))
    gone: tuple = ()
    named: str = ""
    may: dict = field(default_factory=dict)
    words: tuple = ("site", "site/data", "out")


def refused(title, entries, page="out/b", out="out", data="site/data"):
    """A call that refuses the file of a page, which stays as it is."""
    may = {os.path.normpath(path.replace("out", out)): text for path, text in WRITTEN.items()}
    return Out(title, entries, {}, named=page, may={path: text for path, text in may.items() if path != page}, words=("site", data, out))


def outs():
    devices = [refused("a device", {"out/b": DEVICE})] if os.geteuid() == 0 else []
    return [
        refused("a link to a template", {"out/b": Link("../site/pages/c")}),
        refused("a link to the template of the page", {"out/b": Link("../site/pages/b")}),
        refused("a link to the data", {"out/b": Link("../site/data")}),
        refused("a link to another file", {"out/b": Link("../mine"), "mine": "mine"}),
        refused("a link to another page", {"out/b": Link("a"), "out/a": "old"}),
        refused("a link to a device", {"out/b": Link("/dev/null")}),
        refused("a link that leads nowhere", {"out/b": Link("../nowhere")}),
        refused("a link to itself", {"out/b": Link("b")}),
        refused("a pipe", {"out/b": PIPE}),
        refused("a socket", {"out/b": SOCKET}),
        refused("a folder", {"out/b/in": "in"}),
        *devices,
        refused("the data is where a page goes", {"site/pages/data": "4"}, "site/data", "site"),
        refused("the data is where a page goes, by another path", {"b": '{"x": "!"}', "m/": ""}, "b", ".", "m/../b"),
        Out("pages over others, and beside other files", {"out/a": "old", "out/b": Of(0o600, "old"), "out/x": "x"}, {**WRITTEN, "out/b": Of(0o600, "2!")}),
        Out("new pages have the mode of new files", {}, {path: Of(0o644, text) for path, text in WRITTEN.items()}),
        Out("one more name of a page's file keeps its text", {"out/a": "old", "mine": Hard("out/a")}),
        refused("a page whose name ends as a part's does", {"site/pages/a.bikleinu-part": "4"}, "site/pages/a.bikleinu-part"),
        Out("a file and links of such names", {"out/a.bikleinu-part": "mine", "out/b.bikleinu-part": Link("../site/data"), "out/c.bikleinu-part": PIPE}),
        Out("a part of a run that was killed", {f"out/{DEAD}": "1", f"site/pages/{DEAD}": "1"}, gone=(f"out/{DEAD}",)),
        Out("a page of the longest name", {f"site/pages/{LONGEST}": "4"}, {**WRITTEN, f"out/{LONGEST}": "4"}),
        Out("OUT is a link to a folder", {"out": Link("other"), "other/": ""}, {path.replace("out", "other"): text for path, text in WRITTEN.items()}),
    ]


def out_faults(out, program):
    """What isn't as it must be of a call."""
    with tempfile.TemporaryDirectory() as room:
        put(room, {**SITE, **out.entries})
        before = entries_in(room)
        try:
            done = subprocess.run([program, *out.words], cwd=room, stdin=subprocess.DEVNULL, capture_output=True, timeout=20)
        except subprocess.TimeoutExpired:
            return ["it doesn't end"]
        found = entries_in(room)
    told = [line for line in done.stderr.decode().split("\n") if line.startswith("error: ")]
    wrong = [f"it ends with status {done.returncode}"] if done.returncode != bool(out.named) else []
    # the path of a page stands in backquotes, and that of a template at the end of its line
    is_told = len(told) == 1 and (f"{out.named}`" in told[0] or told[0].endswith(f" {out.named}")) if out.named else not done.stderr
    if not is_told:
        wrong.append(f"it tells {done.stderr.decode()!r}")
    return wrong + wrong_entries(out, before, found)


def wrong_entries(out, before, found):
    gone = sorted(before.keys() - found.keys())
    other = {path: it for path, it in found.items() if before.get(path) != it and it.what != FOLDER}
    wrong = [f"{gone} are gone"] if gone != sorted(out.gone) else []
    wrong += [f"{path} is {it}" for path, it in other.items() if path not in out.left and not (path in out.may and it.is_of(out.may[path]))]
    return wrong + [f"{path} is {other.get(path)}" for path, wanted in out.left.items() if path not in other or not other[path].is_of(wanted)]
