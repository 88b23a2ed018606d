"""The cases of files that `bikleinu` writes, for tests/bikleinu/run: what stands at a name before, what is never written, and which names
a record may have."""
import os
import shlex

from entries import DEVICE, PIPE, SOCKET, Hard, Link, Of

# a part of a page of a run that was killed
DEAD = ".999999999-1.bikleinu-part"
PAGE, OLD = {"t": "{{ name }}", "d": '{"name": "Ada"}'}, "old"
# names of files beside parts that are none
NO_PARTS = ("x.bikleinu-part", "1-1.bikleinu-part", ".1-1.bikleinu-part~", ".1-1.bikleinu-parts", ".1-1.part", ".1-1", "bikleinu-part")
WRITE = "can't be written"


def case(title, words, files, left=(), status=0, errors=(), **more):
    """A call after which these entries are there, or are others, and all other entries are as they were."""
    return {"title": title, "words": words, "files": files, "left": dict(left), "status": status, "errors": errors, **more}


def lines(*records):
    """Records that have an `id` each."""
    return "".join('{"id": "%s"}\n' % it for it in records)


def counted(pages, failed=0):
    return f"pages {pages}, failed {failed}"


def merged(title, ids, files, left, refused=(), pattern="m/{{ id }}", more="", words=f"the file `%s` {WRITE}: "):
    """A merge of which the records of these numbers have no page, each reported in one line with the name of its file."""
    errors = [f"error: record {number}: {words % pattern.replace('{{ id }}', ids[number - 1])}" for number in refused]
    errors.append(counted(len(ids) - len(refused), len(refused)))
    return case(title, f"merge t r -o '{pattern}'{more}", {"t": "{{ id }}.", "r": lines(*ids), **files}, left, 1 if refused else 0, tuple(errors))


def refused(title, words, files, status=1):
    """A call that writes nothing and tells why by one line."""
    return case(title, words, files, status=status, errors=("error: ",))


def kept(title, words, files):
    """A call whose page would come into a file that the call reads."""
    path = shlex.split(words)[-1]
    return case(title, words, files, status=1, errors=(f"error: {path}: it {WRITE}: ",))


def part_cases():
    long, longest = "n" * 245, "n" * 255
    others = {f"m/{name}": "mine" for name in NO_PARTS}
    return [
        merged("a name that ends as a part's does", ["x.bikleinu-part", "x"], {}, {"m/x": "x."}, (1,)),
        merged("the other way round", ["x", "x.bikleinu-part"], {}, {"m/x": "x."}, (2,)),
        refused("a page of a name that ends so", "render t d -o x.bikleinu-part", PAGE),
        merged("files beside a page", ["x"], others, {"m/x": "x."}),
        case("files beside a page of render", "render t d -o m/x", {**PAGE, **others}, {"m/x": "Ada"}),
        merged("links and pipes beside pages", ["x", "y"], {"m/x.bikleinu-part": Link("../t"), "m/y.bikleinu-part": PIPE}, {"m/x": "x.", "m/y": "y."}),
        case("a link beside a page", "render t d -o m/x", {**PAGE, "m/x.bikleinu-part": Link("../d")}, {"m/x": "Ada"}),
        case("a part of a run that was killed", "render t d -o m/x", {**PAGE, f"m/{DEAD}": "A", "m/x": OLD}, {"m/x": "Ada"}, gone=(f"m/{DEAD}",)),
        merged("parts of a run that was killed", ["a/x", "x"], {f"m/{DEAD}": "A", f"m/a/{DEAD}": "A", f"m/b/{DEAD}": "A", DEAD: ""}, {"m/a/x": "a/x.", "m/x": "x."}) | {"gone": (f"m/{DEAD}", f"m/a/{DEAD}")},
        case("a part beside a page in the folder of the call", "render t d -o x", {**PAGE, DEAD: "A"}, {"x": "Ada"}, gone=(DEAD,)),
        case("a folder of a part's name", "render t d -o m/x", {**PAGE, f"m/{DEAD}/a": "A"}, {"m/x": "Ada"}),
        case("a page of a long name", f"render t d -o {long}", PAGE, {long: "Ada"}),
        case("a page of the longest name", f"render t d -o {longest}", PAGE, {longest: "Ada"}),
        merged("pages of long names", [long, longest], {}, {f"m/{long}": f"{long}.", f"m/{longest}": f"{longest}."}),
        case("a page of a name that is too long", f"render t d -o m/{longest}n", {**PAGE, "m/": ""}, status=1, errors=(f"error: m/{longest}n: it {WRITE}: File name too long",)),
    ]


def mode_cases():
    return [
        case("a page keeps the mode of the file", "render t d -o x", {**PAGE, "x": Of(0o600, OLD)}, {"x": Of(0o600, "Ada")}),
        case("a page of a mode that others may write", "render t d -o x", {**PAGE, "x": Of(0o666, OLD)}, {"x": Of(0o666, "Ada")}),
        case("a page that is executed", "render t d -o x", {**PAGE, "x": Of(0o755, OLD)}, {"x": Of(0o755, "Ada")}),
        case("a new page has the mode of a new file", "render t d -o x", PAGE, {"x": Of(0o644, "Ada")}),
        merged("pages keep modes", ["a", "b", "c"], {"m/a": Of(0o600, OLD), "m/b": Of(0o640, OLD)}, {"m/a": Of(0o600, "a."), "m/b": Of(0o640, "b."), "m/c": Of(0o644, "c.")}),
        case("one more name of the file keeps its text", "render t d -o x", {**PAGE, "x": OLD, "y": Hard("x")}, {"x": "Ada"}),
        case("a page through a link", "render t d -o m/x", {**PAGE, "a": Of(0o600, OLD), "m/x": Link("../a")}, {"a": Of(0o600, "Ada")}),
        case("a page through a link to a file that isn't there", "render t d -o l", {**PAGE, "l": Link("a")}, {"a": "Ada"}),
        case("a page through a link to standard output", "render t d -o /dev/stdout", PAGE, out="Ada"),
    ]


def source_cases():
    page, parts = {**PAGE, "e": '{"a": 1}', "f": "{{ name }}"}, {**PAGE, "t": "{% include 'foot' %}", "parts/foot": "{{ name }}"}
    return [
        kept("a page over its template", "render t d -o t", page),
        kept("a page over its data", "render t d -o d", page),
        kept("a page over more data", "render t d -d e -o e", page),
        kept("a page over data of a name", "render t d -d x=e -o e", page),
        kept("a page over a partial", "render t d -p foot=f -o f", page),
        kept("a page over a partial of a folder", "render t d -p parts -o parts/foot", parts),
        kept("a page over its template by another path", "render t d -o ./l/../t", {**page, "l/": ""}),
        kept("a page over its template in a folder that is linked", "render t d -o l/t", {**page, "l": Link(".")}),
        kept("a page over its template that is read by a link", "render l d -o t", {**page, "l": Link("t")}),
        kept("a page through a link to its template", "render t d -o l", {**page, "l": Link("t")}),
        kept("a page through a link to its data", "render t d -o l", {**page, "l": Link("d")}),
        kept("a page over one more name of its template", "render t d -o h", {**page, "h": Hard("t")}),
        merged("pages over the template", ["a"], {}, {}, (1,), "t"),
        merged("pages over the records", ["a"], {}, {}, (1,), "r"),
        merged("records named as the template and the records", ["t", "a", "r"], {}, {"a": "a."}, (1, 3), "{{ id }}"),
        merged("records named as data and partials", ["d", "parts/foot", "e", "f", "a"], {**page, **parts, "t": "{{ id }}."}, {"a": "a."}, (1, 2, 3, 4), "{{ id }}", " -d d -d x=e -p parts -p y=f"),
        merged("a record named as the template in a folder that is linked", ["l/t", "a"], {"l": Link(".")}, {"a": "a."}, (1,), "{{ id }}"),
        merged("a record named as one more name of the template", ["h", "a"], {"h": Hard("t")}, {"a": "a."}, (1,), "{{ id }}"),
    ]


def name_cases():
    hidden = [".bashrc", ".git/hooks/pre-commit", "a/.b/c", "a/.b"]
    return [
        merged("names with a dot in front", [*hidden, "a"], {}, {"a": "a."}, (1, 2, 3, 4), "{{ id }}"),
        merged("names with a dot in front after a folder", [*hidden, "a"], {}, {"m/a": "a."}, (1, 2, 3, 4)),
        merged("a dot of the pattern", ["a", "b"], {}, {".a": "a.", ".b": "b."}, pattern=".{{ id }}"),
        merged("a folder with a dot of the pattern", ["a", ".b"], {}, {".m/a": "a."}, (2,), pattern=".m/{{ id }}"),
        merged("a dot of the pattern after the record's", ["a"], {}, {"a/.x": "a."}, pattern="{{ id }}/.x"),
        case("a dot in a tag of the pattern", """merge t r -o '{{ id | replace: "/.", "/" }}'""", {"t": "{{ id }}.", "r": lines(".bashrc", "a/.b")}, {"a/b": "a/.b."}, 1, (f"error: record 1: the file `.bashrc` {WRITE}: ", counted(1, 1))),
        merged("a name of a part's form", ["a", DEAD], {}, {"m/a": "a."}, (2,)),
        merged("a name of a part's form, the dot of which is the pattern's", ["a", DEAD[1:]], {}, {"m/.a": "a."}, (2,), "m/.{{ id }}"),
        merged("two names of one file", ["real/x", "link/x", "real/y"], {"real/": "", "link": Link("real")}, {"real/x": "real/x.", "real/y": "real/y."}, (2,), "{{ id }}"),
        merged("two names of one file, the linked one first", ["link/x", "real/x", "real/y"], {"real/": "", "link": Link("real")}, {"real/x": "link/x.", "real/y": "real/y."}, (2,), "{{ id }}"),
        merged("two names of one file that was there", ["real/x", "link/x"], {"real/x": OLD, "link": Link("real")}, {"real/x": "real/x."}, (2,), "{{ id }}"),
        merged("a link to the page of another record", ["a", "b"], {"m/b": Link("a")}, {"m/a": "a."}, (2,)),
        merged("the link first", ["b", "a"], {"m/b": Link("a"), "m/a": OLD}, {"m/a": "a."}, (1,)),
        merged("two names that were one file", ["a", "b"], {"m/a": OLD, "m/b": Hard("m/a")}, {"m/a": "a.", "m/b": "b."}),
    ]


def into_cases():
    front = "the front of a pattern that is of no record's"
    both = {"t": "{{ id }}.", "r": lines("a", "b")}
    linked = {"m/sub": Link("../else"), "else/": "", "m/in": Link("deep"), "m/deep/": ""}
    return [
        refused(f"{front}: the root", "merge t r -o '/abs/{{ id }}'", both, 2),
        refused(f"{front}: the folder above", "merge t r -o '../x/{{ id }}'", both, 2),
        refused(f"{front}: one of two", "merge t r -o 'a/../../{{ id }}'", both, 2),
        refused(f"{front}, without a page", "merge t r -o '/abs/{{ id }}' --dry-run", both, 2),
        merged("names of a record from the root and above", ["/a", "../a", "a/../../b", "b"], {}, {"m/b": "b."}, (1, 2, 3), words="the name of its file is `%s`"),
        case("pages into a folder", "merge t r --into m -o '{{ id }}.eml'", both, {"m/a.eml": "a.", "m/b.eml": "b."}, errors=(counted(2),)),
        case("pages into a folder above", "merge t r --into ./m/../n -o 'x/{{ id }}'", {**both, "m/": ""}, {"n/x/a": "a.", "n/x/b": "b."}, errors=(counted(2),)),
        case("pages into a folder from the root", "merge t r --into ROOM/n -o '{{ id }}'", both, {"n/a": "a.", "n/b": "b."}, errors=(counted(2),)),
        case("pages into a hidden folder", "merge t r --into .m -o '{{ id }}'", {"t": "{{ id }}.", "r": lines("a", ".b")}, {".m/a": "a."}, 1, (f"error: record 2: the file `.b` {WRITE}: ", counted(1, 1))),
        refused("a pattern that leaves the folder", "merge t r --into m -o '../{{ id }}'", both, 2),
        refused("a pattern that begins at the root", "merge t r --into m -o '/x/{{ id }}'", both, 2),
        refused("a folder without a pattern", "merge t r --into m", both, 2),
        refused("a folder of no name", "merge t r --into '' -o '{{ id }}'", both, 2),
        case("a link that leaves the folder", "merge t r --into m -o '{{ id }}'", {"t": "{{ id }}.", "r": lines("sub/x", "in/x", "y"), **linked}, {"m/deep/x": "in/x.", "m/y": "y."}, 1, (f"error: record 1: the file `sub/x` {WRITE}: ", counted(2, 1))),
        case("a folder that is a link", "merge t r --into m -o '{{ id }}'", {**both, "m": Link("n"), "n/": ""}, {"n/a": "a.", "n/b": "b."}, errors=(counted(2),)),
        case("a file in place of the folder", "merge t r --into t -o '{{ id }}'", both, status=1, errors=("error: t",)),
    ]


def odd_cases():
    """A folder of all that isn't a file of one name: each is refused and reported, and every other record has its page."""
    odd = {"pipe": PIPE, "socket": SOCKET, "link": Link("notes"), "nowhere": Link("not/there"), "self": Link("self"), "out": Link("../t"), "null": Link("/dev/null"), "folder/in": "in", ".hidden": "h"}
    fine = {"notes": "n", "kept": Of(0o400, OLD), "a~": OLD, "a\nb": OLD, "caf\u00e9": OLD, "hard": Hard("m/notes"), "folder/in/": None}
    if os.geteuid() == 0:
        odd["device"] = DEVICE
    files = {f"m/{name}": what for name, what in {**fine, **odd}.items() if what is not None} | {"m/linked": Link("folder")}
    names = [*odd, "folder", "pipe/x", "notes/x", "nowhere/x", "self/x"]
    names.remove("folder/in")
    return [
        merged("a folder of every odd thing", [*names, "kept", "a~", "a\\nb", "caf\u00e9", "hard", "folder/in", "linked/y", "x/y"], files,
               {"m/kept": Of(0o400, "kept."), "m/a~": "a~.", "m/a\nb": "a\nb.", "m/caf\u00e9": "caf\u00e9.", "m/hard": "hard.", "m/folder/in": "folder/in.", "m/folder/y": "linked/y.", "m/x/y": "x/y."}, tuple(range(1, len(names) + 1))),
    ]


def file_cases():
    return part_cases() + mode_cases() + source_cases() + name_cases() + into_cases() + odd_cases()
