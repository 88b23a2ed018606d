"""The cases of values on the command line and of tips, for tests/bikleinu/run."""

FOUND_BY_JEKYLL = "  tip: --filters jekyll has it"
FOUND_BY_SHOPIFY = "  tip: --filters shopify has it"
MISSING = "  tip: --missing nil goes on with nil"
PARTIALS = "  tip: -p NAME=FILE gives a partial, and -p DIR each file of a folder"
DECIMALS = "  tip: --decimals text reads such a number as a text"
TEMPLATE_FIRST = "  tip: the template comes first, and its data or records after it"
TABLE = "  tip: --records-format csv reads a table"
TEXT_VALUE = "  tip: -D NAME=TEXT gives a text, without `:`"


def case(title, words, files, out="", errors=(), status=None):
    return {"title": title, "words": words, "files": files, "out": out, "errors": errors, "status": bool(errors) if status is None else status}


def word_cases():
    return value_cases() + tip_cases() + out_cases() + text_cases() + escape_cases() + size_cases() + limit_cases()


def out_cases():
    page = {"t": "{{ name }}", "d": '{"name": "Ada"}', "r": '{"name": "Ada"}\n{"name": "Bo"}\n'}
    return [
        case("a page onto standard output by its sign", "render t d -o -", page, "Ada"),
        case("pages onto standard output by its sign", "merge t r -o -", page, "Ada\nBo\n", ("pages 2, failed 0",), 0),
        {**case("a file of the name of that sign", "render t d -o ./-", page), "left": {"-": "Ada"}},
        case("a folder for standard output", "merge t r -o - --into m", page, errors=("error: --into is the folder of files: write the pattern of their names after --out",), status=2),
        case("names of files on standard output", "merge t r -o - --dry-run", page, errors=("error: --dry-run prints the names of files: write their pattern after --out",), status=2),
    ]


def value_cases():
    hello = {"t": "Hello {{ name }}!", "d": '{"name": "Ada", "n": 1}'}
    wrong = "it gives no name a value; write -D NAME=TEXT or -D NAME:=JSON"
    return [
        case("a text", "render t -D name=Bo", hello, "Hello Bo!"),
        case("a text in place of a file's", "render t d -D name=Bo", hello, "Hello Bo!"),
        case("a value after all files", "render t -D name=Bo -d d", hello, "Hello Bo!"),
        case("the later of two values", "render t -D name=Bo --define name=Cy", hello, "Hello Cy!"),
        case("a text with signs", "render t -D 'name=a=b:=\"{{ 1 }}\" '", hello, 'Hello a=b:="{{ 1 }}" !'),
        case("a text without a letter", "render t -D name=", hello, "Hello !"),
        case("what looks like a number is a text", "render t -D n=3", {"t": "{% if n == 3 %}number{% elsif n == '3' %}text{% endif %}"}, "text", ("warning: t: TextNumber: line 1, column 1: `n` is the text `3` in the data",), 0),
        case("a number", "render t -D n:=3", {"t": "{% if n == 3 %}number{% endif %}"}, "number"),
        case("a list", "render t -D 'x:=[1, \"a\", {\"b\": null}]'", {"t": "{{ x.size }}{{ x[1] }}{{ x[2].b }}"}, "3a"),
        case("an object", "render t d -D 'a:= {\"b\": {\"c\": true}} '", {"t": "{{ a.b.c }}{{ name }}", "d": '{"a": 1, "name": "Ada"}'}, "trueAda"),
        case("a name with a dot is no path", "render t -D a.b=1", {"t": "{{ a.b }}"}, errors=("note: no template can write the name `a.b`, which -D gives", "error: t: UnknownVariable: line 1, column 4", MISSING)),
        case("a text in quotes", "render t -D 'name:=\"Bo\"'", hello, "Hello Bo!"),
        case("no JSON", "render t -D name:=Bo", hello, errors=("error: -D name: InvalidInput: in the data: line 1, column 1", TEXT_VALUE), status=2),
        case("more than one value", "render t -D 'n:=1, \"m\": 2'", hello, errors=("error: -D n: InvalidInput: in the data: line 1, column 2", TEXT_VALUE), status=2),
        case("no value", "render t -D n:=", hello, errors=("error: -D n: InvalidInput: in the data: line 1, column 1", TEXT_VALUE), status=2),
        case("a fraction", "render t -D n:=[1.5]", hello, errors=("error: -D n: Float: in the data: line 1, column 2", DECIMALS), status=2),
        case("a fraction as a text", "render t -D n:=[1.50] --decimals text", {"t": "{{ n[0] }}"}, "1.50"),
        case("a date", "render t -D d=2026-11-27 -D 'e:=[\"2026-11-27\"]' --dates", {"t": "{{ d }}, {{ e[0] }}"}, "2026-11-27 00:00:00 +0000, 2026-11-27 00:00:00 +0000"),
        case("a date stays where nobody asks", "render t -D d=2026-11-27", {"t": "{{ d }}"}, "2026-11-27"),
        case("the time is given last", "render t -D now=never --now 2026-11-27", {"t": "{{ now }}"}, "2026-11-27 00:00:00 +0000"),
        case("a name alone", "render t -D name", hello, errors=(f"error: -D name: {wrong}",), status=2),
        case("a text without a name", "render t -D =Bo", hello, errors=(f"error: -D =Bo: {wrong}",), status=2),
        case("JSON without a name", "render t -D :=1", hello, errors=(f"error: -D :=1: {wrong}",), status=2),
        case("a value of all records", "merge t r -D shop=Leaf -D name=0", {"t": "{{ name }} {{ shop }}", "r": '{"name": "Ada"}\n{}\n'}, "Ada Leaf\n0 Leaf\n", ("pages 2, failed 0",), 0),
        case("a value that a check knows", "check t -D name=Ada", {"t": "{{ name }}"}, errors=("files 1, faults 0, warnings 0",), status=0),
        case("a value that a check misses", "check t -D nam=Ada", {"t": "{{ name }}"}, "t:1:1: warning: UnknownName: the data has no `name`; did you mean `nam`?\n  |\n1 | {{ name }}\n  | ^\n", ("files 1, faults 0, warnings 1",), 0),
        case("a value beside long data", "render t d -D town=Rome", {"t": "{{ town }}", "d": '{"town": "Oslo", "rest": "' + "text " * 9999 + '"}'}, "Rome"),
    ]


def tip_cases():
    unknown = "error: t: UnknownFilter: line 1, column 8"
    return [
        case("a filter of Shopify's", "render t", {"t": "{{ 1 | money }}"}, errors=(unknown, FOUND_BY_SHOPIFY)),
        case("a filter of Jekyll's", "render t", {"t": "{{ 1 | relative_url }}{{ 2 | money }}"}, errors=(unknown, FOUND_BY_JEKYLL)),
        case("a filter of no set", "render t", {"t": "{{ 1 | xyzzy }}"}, errors=(unknown,)),
        case("a filter of another set", "render t --filters shopify", {"t": "{{ 1 | relative_url }}"}, errors=(unknown, FOUND_BY_JEKYLL)),
        case("a filter of a set in a partial", "render t -p p=p", {"t": "{% render 'p' %}", "p": "{{ 1 | money }}"}, errors=("error: p: UnknownFilter: line 1, column 8", "error: t: UnknownPartial: ", FOUND_BY_SHOPIFY)),
        case("a filter of a set in a partial whose paths are asked for", "paths t -p p=p", {"t": "{% render 'p' %}", "p": "{{ 1 | money }}"}, errors=("error: p: UnknownFilter: line 1, column 8", FOUND_BY_SHOPIFY)),
        case("a filter of a set in the name of files", "merge t r -o '{{ 1 | money }}'", {"t": "", "r": ""}, errors=("error: --out: UnknownFilter: line 1, column 8",)),
        case("a tag of no set", "render t", {"t": "{% xyzzy %}"}, errors=("error: t: UnknownTag: line 1, column 1",)),
        case("what is missing", "render t", {"t": "{{ a }}"}, errors=("error: t: UnknownVariable: line 1, column 4", MISSING)),
        case("another fault where what is missing is nil", "render t --missing nil", {"t": "{{ 1 | divided_by: 0 }}"}, errors=("error: t: DivideByZero: ",)),
        case("a partial that isn't given", "render t", {"t": "{% render 'card' %}"}, errors=("error: t: UnknownPartial: line 1, column 11", PARTIALS)),
        case("a fraction in a file of data", "render t d.json", {"t": "", "d.json": '{"a": 1.5}'}, errors=("error: d.json: Float: in the data: line 1, column 7", DECIMALS)),
        case("one tip a run", "merge t r", {"t": "{{ a }}", "r": "{}\n" * 3}, errors=("error: record 1: UnknownVariable: ", MISSING, "error: record 2: UnknownVariable: ", "error: record 3: UnknownVariable: ", "pages 0, failed 3")),
        case("a fraction in a record", "merge t r", {"t": "a", "r": '{}\n{"x": 1.5}\n'}, "a\n", ("error: record 2: Float: ", DECIMALS, "pages 1, failed 1")),
        case("a table that is read as JSON", "merge t r --records-format jsonl", {"t": "a", "r": "name,town\nAda,Oslo\n"}, errors=("error: record 1: InvalidInput: ", TABLE, "error: record 2: InvalidInput: ", "pages 0, failed 2")),
        case("a later line that is no JSON", "merge t r", {"t": "a", "r": "{}\nAda,Oslo\n"}, "a\n", ("error: record 2: InvalidInput: ", "pages 1, failed 1")),
        case("template and data exchanged", "render d.json t.liquid", {"t.liquid": "{{ name }}", "d.json": '{"name": "Ada"}'}, errors=("error: t.liquid: InvalidInput: ", TEMPLATE_FIRST)),
        case("template and records exchanged", "merge r.csv t.html", {"t.html": "{{ name }}", "r.csv": "name\nAda\n"}, errors=("error: record 1: InvalidInput: ", TEMPLATE_FIRST, "pages 0, failed 1")),
        case("a partial that isn't given in a merge", "merge t r", {"t": "{% render 'card' %}", "r": "{}\n"}, errors=("error: record 1: UnknownPartial: ", PARTIALS, "pages 0, failed 1")),
        case("a partial that is refused in a merge", "merge t r -p p=p", {"t": "{% render 'p' %}", "r": "{}\n", "p": "{{"}, errors=("error: record 1: UnknownPartial: ", "pages 0, failed 1")),
    ]


def text_cases():
    page = {"d": '{"name": "Ada"}', "r": '{"name": "Ada"}\n{"name": "Bo"}\n', "-": "{{ 1 }}"}
    return [
        case("a text as the template", "render -t 'Hi {{ name }}' d", page, "Hi Ada"),
        case("a text as the template, without data", "render --text '-{{ 1 }}'", page, "-1"),
        case("a text as the template, with values", "render -t '{{ name }}' -D name=Bo", page, "Bo"),
        case("an empty template", "render -t '' d", page, ""),
        case("a fault of a text", "render -t 'a{{ b }}' d", page, "a", ("error: template: UnknownVariable: line 1, column 5", MISSING)),
        case("a text of wrong syntax", "render -t '{{' d", page, errors=("error: template: Unclosed: line 1, column 1",)),
        case("a text and a file of a template", "render t d -t a", page, errors=("error: -t gives the template, so no word names its file",), status=2),
        case("a text for records", "merge -t 'Hi {{ name }}' r", page, "Hi Ada\nHi Bo\n", ("pages 2, failed 0",), 0),
        case("a text without records", "merge -t a", page, errors=("error: records are needed",), status=2),
        case("a text and an empty path of data", "render -t a ''", page, errors=("error: the path of the data is empty",), status=2),
        case("no template", "merge", page, errors=("error: the following required arguments were not provided", "  <TEMPLATE>", "  <RECORDS>"), status=2),
    ]


def escape_cases():
    page = {"t": "{{ a }}{{ a | raw }}{% cycle a %}", "r": '{"a": "<"}\n'}
    return [
        case("an escaped page", "render t -D 'a=<' --escape html", page, "&lt;<&lt;"),
        {**case("an escaped page of a record, whose name isn't", "merge t r --escape html -o '{{ a }}'", page, errors=("pages 1, failed 0",), status=0), "left": {"<": "&lt;<&lt;"}},
        case("text that is escaped for something else", "render t --escape xml", page, status=2, errors=("error: invalid value 'xml' for '--escape <FOR>'", "  [possible values: html]")),
    ]


def size_cases():
    whole = {"t": "{% for i in (1..3000) %}{{ 'a' }}{% endfor %}"}
    ended = "error: t: the page takes more than --max-bytes allows, "
    wrong = ("error: --max-bytes wants a number of bytes, as 65536, 64KiB or 10MB",)
    return [
        case("a size in kilobytes", "render t --max-bytes 1kB", whole, "a" * 1000, (f"{ended}1000",)),
        case("a size in kibibytes", "render t --max-bytes 2KiB", whole, "a" * 2048, (f"{ended}2048",)),
        *(case(f"a size in {unit}", f"render t --max-bytes 1{unit}", whole, "a" * 3000) for unit in ("MB", "GB", "MiB", "GiB")),
        *(case(f"no size: {word}", f"render t '--max-bytes={word}'", whole, errors=wrong, status=2) for word in ("", "MB", "10mb", "1.5MB", "-1", "1 MB", "18446744073709551616", "17179869184GiB")),
    ]


def limit_cases():
    page = {"t": "{% for i in (1..n) %}{{ i }}{% endfor %}", "r": '{"n": 2}\n{"n": 9}\n{"n": 1}\n'}
    bytes_ended, turns_ended = ("error: record 2: its page takes more than --max-bytes allows", "error: record 2: its page runs more than --max-turns allows")
    ended = "pages 2, failed 1"
    return [
        case("a limit of bytes ends the page of its record", "merge t r --max-bytes 3", page, "12\n1\n", (bytes_ended, ended)),
        case("a limit of turns ends the page of its record", "merge t r --max-turns 6", page, "12\n1\n", (turns_ended, ended)),
        {**case("a limit ends a page that is no file", "merge t r -o 'm{{ n }}' --max-bytes 3", page, errors=(bytes_ended, ended)), "left": {"m2": "12", "m1": "1"}},
        {**case("a limit isn't that of a name", "merge t r -o '{{ n }}{{ n }}{{ n }}{{ n }}' --max-bytes 3 --count 1", page, errors=("pages 1, failed 0",), status=0), "left": {"2222": "12"}},
        case("a limit that no page reaches", "merge t r --max-bytes 9 --max-turns 99", page, "12\n123456789\n1\n", ("pages 3, failed 0",), 0),
    ]
