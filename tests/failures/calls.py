"""The calls of the programs whose failures are tried, and the files that each finds."""
import os
import shlex
from dataclasses import dataclass

from faulty import PART

LINES = "{% for line in lines %}{{ line }} {{ name }}\n{% endfor %}"
DATA = '{"name": "Ada", "lines": [1, 2, 3, 4, 5, 6, 7, 8, 9, 10, 11, 12, 13, 14, 15, 16]}'
FEW, MANY = ('{"name": "Ada", "lines": [' + ", ".join(map(str, range(count))) + "]}" for count in (300, 3000))
PAGE = {"t": LINES + "{% include 'foot' %}", "d": DATA, "parts/foot": "yours, {{ name | upcase }}"}
RECORDS = "".join(f'{{"id": {n}, "name": "Name {n}"}}\n' for n in (1, 2, 3, 3, 4))
SITE = {"site/data": DATA, "site/partials/foot": "yours, {{ name }}", "out/a": "old", "out/notes": "no page"}
SITE |= {f"site/pages/{name}": f"{name}: {LINES}{{% include 'foot' %}}" for name in "abc"}
SOUND = {"site/a": "a {{ name }}", "site/b": "b", "site/sub/c": "c", "d": DATA}
BROKEN = {"site/a": "{% fro %}{{ b | upcas }}", "site/b": "{{", "site/c": "{% else if %}"}


@dataclass
class Call:
    """A call of a program, the files that it finds, and its standard input."""

    title: str
    words: str
    files: dict
    given: str = ""
    # whether all that it does is to print
    prints: bool = True
    # whether it goes on without a folder that can't be read, also where memory was refused, and may then find something else
    passes_over: bool = False
    # whether it is a merge: a record that runs out of memory stops no other, and a full disk is reported once
    merges: bool = False
    # the calls in files that fail are those in whose path this is: of a site OUT, since a page without its partial is another page
    within: str = ""
    # the words of another call, which runs beside this one
    beside: str = ""

    @property
    def program(self):
        return self.words.split()[0]

    @property
    def arguments(self):
        return shlex.split(self.words)[1:]

    @property
    def others(self):
        return shlex.split(self.beside)[1:]

    @property
    def dead(self):
        """The parts of pages of a run that was killed, which this one removes."""
        return [path for path in self.files if PART.fullmatch(os.path.basename(path))]


CALLS = [
    Call("a page", "liquid_page t d foot=parts/foot", PAGE),
    Call("a page on standard output", "bikleinu render t d -p parts --missing nil", PAGE),
    Call("a page in a file", "bikleinu render t d -p parts -o p", {**PAGE, "p": "old"}, prints=False),
    Call("a page of Jekyll's", "bikleinu render t d -p parts --filters jekyll --dates --decimals text", {**PAGE, "t": LINES + "{{ name | jsonify }}"}),
    Call("a page of decimals", "bikleinu render t d -p parts --filters decimals --max-bytes 9999", {**PAGE, "t": LINES + "{{ '19.99' | decimal_times: 3 | decimal_format: 1 }}"}),
    Call("a page of Shopify's", "bikleinu render t d -p parts --filters shopify --max-bytes 9999", {**PAGE, "t": LINES + "{{ 5 | money }}"}),
    Call("pages in files", "bikleinu merge t r -d d -p parts -o 'm/{{ id }}'", {**PAGE, "r": RECORDS, "m/2": "old"}, prints=False, merges=True),
    Call("pages on standard output", "bikleinu merge t - -d d -p parts --progress", PAGE, RECORDS, merges=True),
    Call("pages of a table", "bikleinu merge t r.csv -d d -p parts -o '{{ id }}'", {**PAGE, "r.csv": "id,name\n1,Ada\n2\n3,Cy\n"}, prints=False, merges=True),
    Call("names of files", "bikleinu merge t r -d d -p parts -o 'm/{{ id }}' --dry-run", {**PAGE, "r": RECORDS}, merges=True),
    Call("faults of a folder", "bikleinu check site -d d", {**BROKEN, "d": DATA}, passes_over=True),
    Call("a folder without a fault", "bikleinu check site -d d", SOUND, passes_over=True),
    Call("a folder within another, twice", "bikleinu check site -p site/sub", SOUND, passes_over=True),
    Call("faults as JSON", "bikleinu check site -p site --format json", BROKEN, passes_over=True),
    Call("paths", "bikleinu paths t -p parts", PAGE),
    Call("a schema", "bikleinu paths t -p parts --format json-schema", PAGE),
    Call("a site", "liquid_folder site site/data out", SITE, "site/pages/a\nsite/data\n\nnowhere\n", prints=False),
    Call("a site after a line that names no file of it", "liquid_folder site site/data out", SITE, "nowhere\nsite/pages/a\n\n", prints=False),
]

# calls of which each call in files fails; the number in the name of a part is of no process
DEAD = ".999999999-1.bikleinu-part"
FEW_RECORDS = '{"id": 1, "name": "Ada"}\n{"id": 2, "name": "Bo"}\n{"id": "a/3", "name": "Cy"}\n{"id": 4, "name": "Di"}\n'
SMALL_SITE = {"site/data": DATA, "site/partials/foot": "{{ name }}", "out/a": "old", f"out/{DEAD}": "dea"}
SMALL_SITE |= {f"site/pages/{name}": f"{name}: {{% include 'foot' %}}" for name in "ab"}
IN_FILES = [
    Call("a page in a file", "bikleinu render t d -p parts -o m/p", {**PAGE, "m/p": "old", f"m/{DEAD}": "dea"}, prints=False),
    Call("a page in a file that isn't there", "bikleinu render t d -p parts -o p", PAGE, prints=False),
    Call("pages in files", "bikleinu merge t r -d d -p parts -o 'm/{{ id }}'", {**PAGE, "r": FEW_RECORDS, "m/2": "old", f"m/{DEAD}": "dea"}, prints=False, merges=True),
    Call("pages in the folder of the call", "bikleinu merge t r -d d -p parts -o '{{ id }}'", {**PAGE, "r": FEW_RECORDS, "2": "old", DEAD: "dea"}, prints=False, merges=True),
    Call("a site", "liquid_folder site site/data out", SMALL_SITE, prints=False, within="out"),
]

# calls whose page would come into a file that they read
READ = {"t": "{{ name }}{% include 'foot' %}", "d": DATA, "parts/foot": "yours, {{ name | upcase }}"}
OVER_READ = [
    Call("a page over its template", "bikleinu render t d -p parts -o t", READ, prints=False),
    Call("a page over its data", "bikleinu render t d -p parts -o d", READ, prints=False),
    Call("a page over a partial", "bikleinu render t d -p parts -o parts/foot", READ, prints=False),
    Call("a page over the template of a merge", "bikleinu merge t r -d d -p parts -o '{{ id }}'", {**READ, "r": '{"id": "t"}\n'}, prints=False),
    Call("a page over the records", "bikleinu merge t r -d d -p parts -o '{{ id }}'", {**READ, "r": '{"id": "r"}\n'}, prints=False),
    Call("a page over the data of a site", "liquid_folder site site/d site", {"site/d": DATA, "site/pages/d": "{{ name }}"}, prints=False),
]

# calls that write the same files as another one at the same time: of each file one is longer than the other
BESIDE = {"t": LINES, "u": "{{ name }} is alone", "d": DATA, "r": "".join(f'{{"id": {n}}}\n' for n in range(4))}
TWO = [
    Call("a page in a file", "bikleinu render t d -o m/p", {**BESIDE, "m/p": "old", f"m/{DEAD}": "dea"}, beside="bikleinu render u d -o m/p"),
    Call("pages in files", "bikleinu merge t r -d d -o 'm/{{ id }}'", {**BESIDE, "m/1": "old", f"m/{DEAD}": "dea"}, beside="bikleinu merge u r -d d -o 'm/{{ id }}'"),
    Call("pages in a folder that isn't there", "bikleinu merge t r -d d -o 'm/{{ id }}'", BESIDE, beside="bikleinu merge u r -d d -o 'm/{{ id }}'"),
    Call("a site", "liquid_folder site d out", {"d": DATA, **{f"site/pages/{n}": LINES for n in "ab"}, **{f"sight/pages/{n}": "{{ name }}" for n in "ab"}}, beside="liquid_folder sight d out"),
]

# calls that are killed, most of whose time goes into what they write
LONG = [
    Call("a page", "liquid_page t d foot=parts/foot", {**PAGE, "d": MANY}),
    Call("a page in a file", "bikleinu render t d -p parts -o p", {**PAGE, "d": MANY, "p": "old"}, prints=False),
    Call("pages in files", "bikleinu merge t r -d d -o 'm/{{ id }}'",
         {"t": LINES, "d": FEW, "r": "".join(f'{{"id": {n}}}\n' for n in range(12)), **{f"m/{n}": "old" for n in range(6)}, f"m/{DEAD}": "dea"}, prints=False),
    Call("faults of a folder", "bikleinu check site", {f"site/{n}": "{% fro %}{{ b | upcas }}\n" * 9 for n in range(9)}),
    Call("paths", "bikleinu paths t", {"t": "".join(f"{{{{ a{n}.b{n} }}}}" for n in range(300))}),
    Call("a site", "liquid_folder site d out",
         {"d": FEW, **{f"site/pages/{n}": f"{n} {LINES}" for n in range(12)}, **{f"out/{n}": "old" for n in range(6)}}, prints=False),
]
