"""The cases of tables with slips, of filters in a merge and of calls that print less, for tests/bikleinu/run."""
from word_cases import FOUND_BY_SHOPIFY, case

NAME = {"t": "<{{ name }}>"}
DATA_FILE = "  tip: -d FILE gives data; each PATH is a template"
DEFINE = "  tip: -D NAME=TEXT gives a value, and -D NAME:=JSON one of another kind"
NO_NAME = "error: record 1: UnknownVariable: line 1, column "

CHECKED = "t:1:12: UnknownFilter: no filter is named `money`; it is of Shopify's themes; let the data bring the price as a text\n  |\n1 | {{ cents | money }}\n  |            ^\n"


def columns(*names):
    return "  tip: the first row names the columns: " + ", ".join(f"`{it}`" for it in names)


def note(name, snake):
    return f"note: r.csv: no template can write the column `{name}`: --names snake makes it `{snake}`"


def unclosed(line):
    return f"the quote that opens in line {line} is never closed"


def table_cases():
    return quote_cases() + byte_cases() + name_cases() + filter_cases() + quiet_cases() + slip_cases()


def table(title, text, out="", errors=(), words="", template=NAME, status=None):
    return case(title, f"merge t r.csv{words}", {**template, "r.csv": text}, out, errors, status)


def quote_cases():
    end = ("error: record 2: " + unclosed(3), "pages 1, failed 1")
    return [
        table("a quote that is never closed", 'name,town\nAda,Oslo\nBo,"Rome\nCy,Bergen\n', "<Ada>\n", end),
        table("a quote that is never closed in a record of one cell", 'name\nAda\n"Bo', "<Ada>\n", end),
        table("a quote at the end", 'name,town\nAda,Oslo\nBo,"', "<Ada>\n", end),
        table("a quote that is never closed after lines in quotes", 'name,town\nAda,"Os\n\nlo"\nBo,"Rome""\n', "<Ada>\n", ("error: record 2: " + unclosed(5), "pages 1, failed 1")),
        table("a quote that is never closed between semicolons", 'name;town\nAda;Oslo\nBo;"Rome', "<Ada>\n", ("note: r.csv: it is read by --delimiter semicolon, by which its first row has most cells", *end)),
        table("a quote that is never closed in the head", 'name,"town\nAda,Oslo\n', errors=("error: r.csv: " + unclosed(1),)),
        table("a quote that is never closed far from the front", "name,town\n" + "Ada,Oslo\n" * 3000 + 'Bo,"Rome\n', "<Ada>\n" * 3000, ("error: record 3001: " + unclosed(3002), "pages 3000, failed 1")),
        table("a quote within a cell opens nothing", 'name,town\n5" Ada,"a ""b"" c"\nBo,"d" e"\n', '<5" Ada>\n<Bo>\n', ('warning: r.csv: line 3 has text after a closing quote', "pages 2, failed 0"), status=0),
        table("a quote that closes at the end", 'name,town\nAda,"Oslo"', "<Ada>\n", ("pages 1, failed 0",), status=0),
    ]


def byte_cases():
    return [
        table("a cell that isn't UTF-8 from a later byte on", b"id,name\n1,Jos\xe9\n", errors=("error: record 1: the cell of column 2 isn't UTF-8 from its byte 4 on", "pages 0, failed 1")),
        table("the first of two cells that aren't UTF-8", b"id,name\n\xc3\xa9\xc3,\xff\n", errors=("error: record 1: the cell of column 1 isn't UTF-8 from its byte 3 on", "pages 0, failed 1")),
    ]


def name_cases():
    first = {"t": "<{{ first_name }}>"}
    done = ("pages 1, failed 0",)
    return [
        table("a column whose name has a space", "name,First name\nAda,Bo\n", "<Ada>\n", (note("First name", "first_name"), *done), status=0),
        table("columns in snake case", " First  name ,Größe,2nd-Line,nil,!!\nBo,1,2,3,4\n", "<Bo,1,2,3,4>\n", done, " --names snake", {"t": "<{{ first_name }},{{ gr_e }},{{ _2nd_line }},{{ _nil }},{{ _ }}>"}, 0),
        table("columns as they are written", "name\nAda\n", "<Ada>\n", done, " --names written", status=0),
        table("two columns of one name in snake case", "First name,id,first_name\nAda,1,2\n", errors=("error: r.csv: columns 1 and 3 have the same name in the first row, as --names snake writes it",), words=" --names snake"),
        table("a column of another name", "name, town\nAda,Oslo\n", errors=(note(" town", "town"), NO_NAME, columns("name", " town"), "pages 0, failed 1"), template={"t": "{{ town }}"}),
        table("no row that names the columns", "Ada,Oslo\nBo,Rome\n", errors=(NO_NAME, columns("Ada", "Oslo"), "pages 0, failed 1")),
        table("a name in snake case where columns are as they are written", "First name\nAda\n", errors=(note("First name", "first_name"), NO_NAME, columns("First name"), "pages 0, failed 1"), template=first),
        table("a column whose name a template has", "name,First name\nAda,Bo\n", errors=("error: t: Expected: line 1, column 10", note("First name", "first_name")), template={"t": "{{ First name }}"}),
        table("many columns", ",".join(f"c{n}" for n in range(14)) + "\n" + "," * 13 + "\n", errors=(NO_NAME, columns(*(f"c{n}" for n in range(12))) + ", ..", "pages 0, failed 1")),
        case("names of columns of lines", "merge t r.jsonl --names snake", NAME, errors=("error: --delimiter, --cells and --names are for tables: write --records-format csv",), status=2),
    ]


def filter_cases():
    page = {"t": "{{ cents | money }}", "r": '{"cents": 1205}\n{"cents": 5}\n', "d": '{"shop": {"money_format": "{{amount}} EUR"}}'}
    done = ("pages 2, failed 0",)
    return [
        case("Shopify's filters in a merge", "merge t r -d d --filters shopify", page, "12.05 EUR\n0.05 EUR\n", done, 0),
        case("the address of assets in a merge", "merge t r --filters shopify --assets https://cdn.example/", {**page, "t": "{{ 'a.css' | asset_url }}"}, "https://cdn.example/a.css\n" * 2, done, 0),
        case("Jekyll's filters in a merge", "merge t r --filters jekyll", {"t": "{{ x | jsonify }}", "r": '{"x": [1, null]}\n'}, "[1,null]\n", ("pages 1, failed 0",), 0),
        case("Jekyll's include in a merge", "merge t r --filters jekyll -p parts", {"t": "{% include nav/x.html a=id %}", "parts/nav/x.html": "{{ include.a }}{{ '/y' | relative_url }}", "r": '{"id": 1}\n{"id": 2}\n'}, "1/y\n2/y\n", done, 0),
        {**case("filters with limits and names of files", "merge t r -d d --filters shopify --max-bytes 60 -o '{{ cents }}'", page, errors=done, status=0), "left": {"1205": "12.05 EUR", "5": "0.05 EUR"}},
        case("a filter of a set in the name of a file", "merge t r --filters shopify -o '{{ cents | money }}'", page, errors=("error: --out: UnknownFilter: line 1, column 12",)),
        case("no set of filters in a merge", "merge t r", page, errors=("error: t: UnknownFilter: line 1, column 12", FOUND_BY_SHOPIFY)),
        case("assets without a set in a merge", "merge t r --assets x/", page, errors=("error: --assets is for Shopify's filters: write --filters shopify",), status=2),
        case("a check of Shopify's filters", "check t", page, CHECKED, (FOUND_BY_SHOPIFY, "files 1, faults 1, warnings 0")),
        case("a check of Shopify's filters in the second file", "check s t", {**page, "s": "a"}, CHECKED, (FOUND_BY_SHOPIFY, "files 2, faults 1, warnings 0")),
    ]


def quiet_cases():
    text = "First name;id\nAda;1\n"
    return [
        table("a merge without counts and notes", text, "<1>\n", words=" -q", template={"t": "<{{ id }}>"}),
        table("a merge that prints its faults alone", text, errors=(NO_NAME, columns("First name", "id")), words=" --quiet"),
        case("a check without counts", "check t -q", {"t": "{{ a }}"}),
        case("a check that prints its faults alone", "check t -q", {"t": "{{ cents | money }}"}, CHECKED, (FOUND_BY_SHOPIFY,)),
    ]


YAML_LINES = (
    ("title:Tea", "this line of YAML has no space after its `:`: write one"),
    ("title: *Tea*", "this line of YAML has an anchor or an alias, which isn't read"),
    ("title: !!str Tea", "this line of YAML has a type, which isn't read"),
    ('title: "Tea', "this line of YAML has a quote that ends before the line or not at all"),
    ("title: 'It's Tea'", "this line of YAML has a quote that ends before the line or not at all"),
    ("title = Tea", "this line is of TOML: in YAML a member is `key: value`"),
    ("// title", "a comment of YAML begins with `#`"),
)


def slip_cases():
    page = {"t": "{{ title }}", "d.json": '{"title": "Tea"}', "r": '{"id": 1}\n'}
    folder = "error: --out is the pattern of the files' names, as 'mails/{{ id }}.eml': write a folder alone after --into"
    return [
        case("a value in the place of the data", "render t title=Tea", page, errors=("error: title=Tea: No such file or directory", DEFINE)),
        case("an option for a value of other programs", "render t --var title=Tea", page, errors=("error: unexpected argument '--var' found", "  tip: -D NAME=TEXT gives a value"), status=2),
        case("the version by a small letter", "-v", page, errors=("error: unexpected argument '-v' found", "  tip: -V prints the version"), status=2),
        *(case(f"a line of YAML: {line}", "render t d.yml", {**page, "d.yml": f"{line}\n"}, errors=(f"error: d.yml: InvalidInput: in the data: line 1, column 1: {words}", "  tip: a part of YAML is read")) for line, words in YAML_LINES),
        case("completions of no shell", "completions", page, errors=("error: completions are those of a shell", "  tip: write `bikleinu completions bash`, `zsh` or `fish`"), status=2),
        case("completions of another shell", "completion bash", page, errors=("error: completions are those of a shell", "  tip: write `bikleinu completions bash`, `zsh` or `fish`"), status=2),
        case("several templates", "render a.liquid b.html d.json", page, errors=("error: one template is rendered a call", "  tip: call it for each, as 'for t in *.liquid;"), status=2),
        case("a folder as the pattern of names", "merge t r -o mails/", page, errors=(folder,), status=2),
        case("data that is checked as a template", "check t d.json", page, errors=(DATA_FILE, "files 2, faults 0, warnings 0"), status=0),
        case("a fraction in TOML", "render t d.toml", {**page, "d.toml": "b = [1]\na = [{c = 1, d = [1, 19.99]}]\n"}, errors=("error: d.toml: Float: `a[0].d[1]` isn't a whole number, and numbers are whole here: count in a smaller unit, such as cents, or write it as a text, in quotes",)),
    ]
