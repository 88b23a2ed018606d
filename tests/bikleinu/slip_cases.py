"""The cases of data and tables as people give them by mistake, for tests/bikleinu/run."""
import io
import zipfile

from word_cases import case

PAGE = {"t": "Dear {{ name }}, {{ town }}."}
ADA = "Dear Ada, Oslo.\n"
ZIP = "it is no text but a ZIP file, as workbooks are: save its table as CSV, in UTF-8"
OFFICE = "it is no text but a file of Office: save its table as CSV, in UTF-8"
UTF16 = "its text is UTF-16: save it as UTF-8"
ONE_LINE = "  tip: a record is one line, with no comma after it; a JSON list may go over lines"
RECORDS = "  tip: bikleinu merge reads tables and JSON lines, as its records"
NO_NAME = "error: record 1: UnknownVariable: line 1, column 9: `name` has no value"
NO_VALUE = "and no other data: it is nil in each page"


def workbook():
    made = io.BytesIO()
    with zipfile.ZipFile(made, "w") as file:
        file.writestr("xl/workbook.xml", "<workbook/>")
    return made.getvalue()


def slip_cases():
    return foreign_cases() + json_cases() + table_cases() + partial_cases() + data_cases()


def merged(title, name, text, out="", errors=(), status=None, words="", template=PAGE):
    return case(title, f"merge t {name}{words}", {**template, name: text}, out, errors, status)


def foreign_cases():
    table = "name,town\nAda,Oslo\n"
    old = bytes.fromhex("d0cf11e0a1b11ae1") + bytes(600)
    title = {"t": "{{ title }}"}
    json = '{"title": "Tea"}'
    return [
        merged("a workbook as records", "r.xlsx", workbook(), errors=(f"error: r.xlsx: {ZIP}",)),
        merged("a workbook that is named as a table", "r.csv", workbook(), errors=(f"error: r.csv: {ZIP}",)),
        merged("an old workbook", "r.xls", old, errors=(f"error: r.xls: {OFFICE}",)),
        merged("a PDF file as records", "r.pdf", b"%PDF-1.7\n%\xe2\xe3\n", errors=("error: r.pdf: it is no text but a PDF file",)),
        merged("a packed table", "r.csv.gz", b"\x1f\x8b\x08\0\0\0", errors=("error: r.csv.gz: it is no text but a gzip file: unpack it by `gunzip`",)),
        merged("a table of UTF-16", "r.csv", table.encode("utf-16"), errors=(f"error: r.csv: {UTF16}",)),
        merged("a table of UTF-16 without a mark", "r.csv", table.encode("utf-16-le"), errors=(f"error: r.csv: {UTF16}",)),
        merged("a table of UTF-16, high byte first", "r.csv", table.encode("utf-16-be"), errors=(f"error: r.csv: {UTF16}",)),
        case("a workbook as data", "render t d.xlsx", {**title, "d.xlsx": workbook() + b"\xff"}, errors=(f"error: d.xlsx: {ZIP}",)),
        case("an old workbook under a name", "render t -d x=d.xls", {**title, "d.xls": old}, errors=(f"error: d.xls: {OFFICE}",)),
        case("data of UTF-16", "render t d.json", {**title, "d.json": json.encode("utf-16")}, errors=(f"error: d.json: {UTF16}",)),
        case("a template of UTF-16", "render t d.json", {"t": title["t"].encode("utf-16"), "d.json": json}, errors=(f"error: t: {UTF16}",)),
        case("data of Latin-1", "render t d.json", {**title, "d.json": b'{"title": "Jos\xe9"}'}, errors=("error: d.json: the file isn't UTF-8: line 1, column 15; save it as UTF-8",)),
        merged("a table of Latin-1", "r.csv", b"name,town\nJos\xe9,Oslo\n", errors=("error: record 1: the cell of column 1 isn't UTF-8 from its byte 4 on; save the table as UTF-8", "pages 0, failed 1")),
        merged("a head of Latin-1", "r.csv", b"name,Stra\xdfe\nAda,Oslo\n", errors=("error: r.csv: the name of column 2 isn't UTF-8; save the table as UTF-8",)),
        merged("a line of Latin-1", "r.jsonl", b'{"name": "Jos\xe9"}\n', errors=("error: record 1: its line isn't UTF-8; save the file as UTF-8", "pages 0, failed 1")),
        merged("lines after a mark of UTF-8", "r.jsonl", '\ufeff{"name": "Ada", "town": "Oslo"}\n', ADA, ("pages 1, failed 0",), 0),
        merged("a web page as records", "r.html", "\n<!DOCTYPE html>\n", errors=("error: r.html: it is XML or HTML; records are a table, JSON lines or a JSON list",)),
        merged("YAML as records", "r.yml", "- name: Ada\n", errors=("error: r.yml: it is YAML; records are a table, JSON lines or a JSON list",)),
        merged("TOML as records", "r.toml", "name = 'Ada'\n", errors=("error: r.toml: it is TOML; records are a table, JSON lines or a JSON list",)),
    ]


def json_cases():
    record = '{"name": "Ada", "town": "Oslo"}'
    in_data = "error: record 1: InvalidInput: in the data: line 1, column "
    return [
        merged("an object over lines", "r.json", '{\n"name": "Ada"\n}\n', errors=(in_data + "2", ONE_LINE, "error: record 2", "error: record 3", "pages 0, failed 3")),
        merged("lines with commas at their ends", "r.jsonl", f"{record},\n{record}\n", ADA, (in_data, ONE_LINE, "pages 1, failed 1")),
        merged("a list that is named as lines", "r.jsonl", f"[{record}]\n", errors=(in_data + "1", "  tip: --records-format json reads a list", "pages 0, failed 1")),
        merged("a list whose first object is none", "r.json", "[{name: 1}]\n", errors=(in_data + "2", "pages 0, failed 1")),
        merged("a list that is named as a table", "r.csv", f"[{record}]\n", errors=("note: r.csv: it begins as JSON does, which --records-format json reads", "note: r.csv: no template can write the column", "note: r.csv: no row follows the first, which names the columns", "pages 0, failed 0"), status=0),
        merged("lines that are named as a table", "r.csv", f"{record}\n{record}\n", errors=("note: r.csv: it begins as JSON does, which --records-format jsonl reads", "note: r.csv: no template", NO_NAME, "  tip: the first row names the columns: ", "pages 0, failed 1")),
        merged("a list within an object", "r.json", f'{{"people": [{record}]}}', errors=(NO_NAME, "  tip: each item of `people` is a record where the list is alone in the file", "pages 0, failed 1")),
        merged("another member within an object", "r.json", '{"people": 1}', errors=(NO_NAME, "  tip: --missing nil goes on with nil", "pages 0, failed 1")),
        case("a table as data", "render t r.csv", {**PAGE, "r.csv": "name,town\nAda,Oslo\n"}, errors=("error: r.csv: InvalidInput: in the data: line 1, column 1", RECORDS)),
        case("lines as data", "render t r.jsonl", {**PAGE, "r.jsonl": "{}\n{}\n"}, errors=("error: r.jsonl: InvalidInput: in the data: line 2, column 1", RECORDS)),
        case("a table as shared data", "merge t r -d s.tsv", {**PAGE, "r": record, "s.tsv": "a\tb\n"}, errors=("error: s.tsv: InvalidInput: in the data: line 1, column 1", RECORDS)),
        case("records in the place of the template", "merge r.csv t", {"t": "Dear {{ name }}\n", "r.csv": "name\nAda\n"}, errors=("note: t: it begins with no `{` or `[`", "  tip: the template comes first", "note: t: no template can write the column", "note: t: no row follows the first, which names the columns", "pages 0, failed 0"), status=0),
    ]


def table_cases():
    bar = "note: r.csv: it is read by --delimiter '|', by which its first row has most cells"
    done = "pages 1, failed 0"
    vip = {"t": "{% unless vip %}Dear {% endunless %}{{ name }}"}
    none = f"warning: no column is named `vip`, {NO_VALUE}"
    return [
        merged("bars between cells", "r.csv", "name|town\nAda|Oslo\n", ADA, (bar, done), 0),
        merged("a comma in a name between semicolons", "r.csv", "name;town;a, b\nAda;Oslo;1\n", ADA, ("note: r.csv: it is read by --delimiter semicolon", "note: r.csv: no template can write", done), 0),
        merged("as many commas as semicolons", "r.csv", "name;a,town\nAda,Oslo\n", errors=("note: r.csv: no template can write the column `name;a`", NO_NAME, "  tip: the first row names the columns", "pages 0, failed 1")),
        merged("a first line for Excel", "r.csv", "sep=;\nname;town\nAda;Oslo\n", errors=("error: r.csv: its first line, `sep=`, is for Excel and no row: take it out",)),
        merged("the names alone", "r.csv", "name,town\n", errors=("note: r.csv: no row follows the first, which names the columns", "pages 0, failed 0"), status=0),
        merged("the names alone, printing less", "r.csv", "name,town", words=" -q"),
        merged("a row without a value", "r.csv", "name,town\nAda,Oslo\n,\n", ADA + "Dear , .\n", ("warning: record 2: all of its cells are empty", "pages 2, failed 0"), 0),
        merged("rows without values", "r.csv", "name,town\n,\nAda,Oslo\n,\n", "Dear , .\n" + ADA + "Dear , .\n", ("warning: record 1, and 1 more: all cells are empty", "pages 3, failed 0"), 0),
        merged("a quote after a backslash", "r.csv", 'name,town\nBo,Rome\n"A\\"d\\" a",Oslo\nCy,Bergen\n', 'Dear Bo, Rome.\nDear A\\d\\" a", Oslo.\nDear Cy, Bergen.\n', ('warning: r.csv: line 3 has text after a closing quote; a quote in quotes is ""', "pages 3, failed 0"), 0),
        merged("text after a quote", "r.csv", 'name,town\n"Ada" L,Oslo\n', "Dear Ada L, Oslo.\n", ('warning: r.csv: line 2 has text after a closing quote; a quote in quotes is ""', done), 0),
        merged("quotes as they must be", "r.csv", 'name,town\r\n"A""d""a","Oslo"\r\n', 'Dear A"d"a, Oslo.\n', (done,), 0),
        merged("a name of no column", "r.csv", "name\nAda\n", "Dear Ada\n", (none, done), 0, template=vip),
        merged("a name of no column, printing less", "r.csv", "name\nAda\n", "Dear Ada\n", words=" -q", template=vip),
        merged("a name of other data", "r.csv", "name\nAda\n", "Ada\n", (done,), 0, " -D vip=1", vip),
        merged("a name like that of a column", "r.csv", "name,vips\nAda,1\n", "Dear Ada\n", ("warning: record 1: t: UnknownName: line 1, column 1: the data has no `vip`; did you mean `vips`?", done), 0, template=vip),
        merged("a setting of a set of filters", "r.csv", "cents\n1205\n", "$ 12.05\n", (done,), 0, " --filters shopify", {"t": "{{ cents | money }}"}),
        merged("a name of no column in records of JSON", "r.jsonl", '{"name": "Ada"}\n', "Dear Ada\n", (done,), 0, template=vip),
    ]


def partial_cases():
    def tip(name, path):
        return ("error: t: UnknownPartial: line 1, column 11", f"  tip: there is a partial `{name}`: {path}")

    page = {"t": "{% render 'card' %}"}
    return [
        case("a partial that is misspelt", "render t -p parts", {"t": "{% render 'crad' %}", "parts/card.html": "c", "parts/foot.html": ""}, errors=tip("card", "parts/card.html")),
        case("a partial in a folder", "render t -p parts", {**page, "parts/a/card.html": "c"}, errors=tip("a/card", "parts/a/card.html")),
        case("a partial of Jekyll's name", "render t -p parts", {**page, "parts/_card.liquid": "c"}, errors=tip("_card", "parts/_card.liquid")),
        case("a partial in another case", "render t -p parts", {**page, "parts/Card.html": "c"}, errors=tip("Card", "parts/Card.html")),
        case("a partial with its folder", "render t -p parts", {"t": "{% render 'parts/card' %}", "parts/card.html": "c"}, errors=tip("card", "parts/card.html")),
        case("a folder without partials", "render t -p parts", {**page, "parts/.card": ""}, errors=("error: t: UnknownPartial", "  tip: what -p names has no file that may be a partial")),
        case("a partial of another name", "render t -p parts", {**page, "parts/foot.html": "c"}, errors=("error: t: UnknownPartial", "  tip: -p NAME=FILE gives a partial")),
        case("a partial that is misspelt in a merge", "merge t r -p parts", {"t": "{% render 'crad' %}", "r": "{}\n{}\n", "parts/card.html": "c"}, errors=("error: record 1: UnknownPartial", "  tip: there is a partial `card`: parts/card.html", "error: record 2: UnknownPartial", "pages 0, failed 2")),
    ]


def data_cases():
    files = {"t": "{{ shop.town }}", "a.json": '{"name": "Tea"}', "b.json": '{"town": "Oslo"}'}
    replaced = "note: a.json: a later -d gives `shop`, and replaces all of this"
    return [
        case("two files of one name", "render t -d shop=a.json -d shop=b.json", files, "Oslo", (replaced,), 0),
        case("two files of one name, printing less", "render t -d shop=a.json -d shop=b.json -q", files, "Oslo"),
        case("a name with a dot", "render t b.json -D page.title=x", {**files, "t": "{{ town }}"}, "Oslo", ("note: no template can write the name `page.title`, which -D gives",), 0),
        case("a name with a space in a merge", "merge t r -d 'first shop=b.json'", {**files, "t": "{{ a }}", "r": '{"a": 1}'}, "1\n", ("note: no template can write the name `first shop`, which -d gives", "pages 1, failed 0"), 0),
    ]
