"""The cases of `bikleinu check`, for tests/bikleinu/run: the fields of each."""


def case(title, words, files, out="", status=0, errors=(), **more):
    return {"title": title, "words": words, "files": files, "out": out, "status": status, "errors": errors, **more}


def counted(files, faults=0, warnings=0):
    return (f"files {files}, faults {faults}, warnings {warnings}",)


NOPE = "t:1:1: UnknownTag: no tag is named `nope`; a value is shown by `{{ nope }}`\n  |\n1 | {% nope %}\n  | ^\n"
TWO = {"t": "{% nope %}\n{{ a | xyzzy }}"}
SECOND = "t:2:8: UnknownFilter: no filter is named `xyzzy`\n  |\n2 | {{ a | xyzzy }}\n  |        ^\n"
JSON = '{"file":"%s","line":%d,"column":%d,"kind":"%s","severity":"%s","message":"%s"}\n'


def json(path, line, column, kind, message, severity="error"):
    return JSON % (path, line, column, kind, severity, message)


def hundred(count):
    return "".join(json("t", 1, 5 * n + 3, "Expected", "found `|` where a value is wanted") for n in range(count))


def fault_cases():
    return [
        case("no fault", "check t", {"t": "{{ a }}"}, errors=counted(1)),
        case("the filters of a set", "check t --filters jekyll", {"t": "{{ a | relative_url }}"}, errors=counted(1)),
        case("data by its forms", "check t -d d --decimals text", {"t": "{{ a }}", "d": '{"a": 1.5}'}, errors=counted(1)),
        case("a fault", "check t", {"t": "{% nope %}"}, NOPE, 1, counted(1, 1)),
        case("every fault", "check t", TWO, NOPE + SECOND, 1, counted(1, 2)),
        case("an end that a misspelt tag leaves over isn't reported", "check t --format json", {"t": "{% fro a in b %}{{ a }}{% endfor %}"}, json("t", 1, 1, "UnknownTag", "no tag is named `fro`; did you mean `for`?"), 1, counted(1, 1)),
        case("a folder, in order", "check f --format json", {"f/b.html": "{{", "f/a/c.md": "{{", "f/.hidden": "{{", "f/ok": "{}"}, json("f/a/c.md", 1, 1, "Unclosed", "this `{{` has no `}}`") + json("f/b.html", 1, 1, "Unclosed", "this `{{` has no `}}`"), 1, counted(3, 2)),
        case("a file twice", "check t ./t . --format json", {"t": "{{"}, json("t", 1, 1, "Unclosed", "this `{{` has no `}}`"), 1, counted(1, 1)),
        case("standard input", "check -", {}, NOPE.replace("t:1", "standard input:1"), 1, counted(1, 1), given="{% nope %}"),
        case("standard input twice", "check - -", {}, status=2, errors=("error: standard input can be read only once",)),
        case("partials are checked", "check t -p parts --format json", {"t": "{% render 'a' %}", "parts/a.liquid": "{{"}, json("parts/a.liquid", 1, 1, "Unclosed", "this `{{` has no `}}`"), 1, counted(2, 1)),
        case("fewer than a hundred faults", "check t --format json", {"t": "{{|}}" * 99}, hundred(99), 1, counted(1, 99)),
        case("more than a hundred faults", "check t --format json", {"t": "{{|}}" * 101}, hundred(100), 1, ("error: t: only the first 100 faults are looked for", *counted(1, 100))),
    ]


def selection_cases():
    files = {f"s/{name}": "{{" for name in ("a.liquid", "b.html", "c.min.js", "liquid", "n/d.liquid", "n/m/e.html")}
    unclosed = lambda *names: "".join(json(f"s/{name}", 1, 1, "Unclosed", "this `{{` has no `}}`") for name in names)
    call = lambda title, words, names, count: case(title, f"check s --format json {words}", files, unclosed(*names), 1, counted(count, count))
    none = "error: s: --ext and --exclude leave no file in this folder"
    ending = "error: --ext is the end of names, without `*`: --ext liquid, or --ext html,liquid"
    pattern = "error: --exclude is a name below a folder, or several with `/` between, each with one `*` at most"
    return [
        call("endings", "--ext html,liquid", ("a.liquid", "b.html", "n/d.liquid", "n/m/e.html"), 4),
        call("an ending with its dot, and a folder", "--ext .liquid --exclude n", ("a.liquid",), 1),
        call("two endings", "--ext js --ext html", ("b.html", "c.min.js", "n/m/e.html"), 3),
        call("a part with any letters", "--exclude '*.js' --exclude n/m/ --exclude 'li*'", ("a.liquid", "b.html", "n/d.liquid"), 3),
        call("parts that stand together", "--exclude n/e.html --exclude m/e.html", ("a.liquid", "b.html", "c.min.js", "liquid", "n/d.liquid"), 5),
        case("no file is left", "check s --ext md", files, status=1, errors=(none, *counted(0))),
        case("a file that a word names", "check s/c.min.js --ext md --exclude '*.js' --format json", files, unclosed("c.min.js"), 1, counted(1, 1)),
        *(case(f"an ending that is none: {word}", f"check s --ext '{word}'", files, status=2, errors=(ending,)) for word in ("", "*.md", "a/b", "a,,b")),
        *(case(f"a pattern that is none: {word}", f"check s --exclude '{word}'", files, status=2, errors=(pattern,)) for word in ("", "a//b", "/a", "./a", "../a", "*a*")),
    ]


def strict_cases():
    warned = {"t": "{{ nmae }}", "d": '{"name": 1}'}
    said = "t:1:1: warning: UnknownName: the data has no `nmae`; did you mean `name`?\n  |\n1 | {{ nmae }}\n  | ^\n"
    return [
        case("warnings count", "check t -d d --strict", warned, said, 1, counted(1, 0, 1)),
        case("warnings don't count", "check t -d d", warned, said, 0, counted(1, 0, 1)),
        case("no warning", "check t --strict", warned, errors=counted(1)),
    ]


def format_cases():
    return [
        case("GitHub's lines", "check t --format github", TWO, "::error file=t,line=1,col=1,title=UnknownTag::no tag is named `nope`; a value is shown by `{{ nope }}`\n::error file=t,line=2,col=8,title=UnknownFilter::no filter is named `xyzzy`\n", 1, counted(1, 2)),
        case("escapes of GitHub's lines", "check 'a,b:%' --format github", {"a,b:%": "{{ '%' | xyzzy }}{{ a % b }}"}, "::error file=a%2Cb%3A%25,line=1,col=10,title=UnknownFilter::no filter is named `xyzzy`\n::error file=a%2Cb%3A%25,line=1,col=23,title=BadItem::`%25` is written as a filter, `a | modulo: b`\n", 1, counted(1, 2)),
        case("escapes of JSON", "check 'a\"\\' --format json", {'a"\\': "{{"}, json('a\\"\\\\', 1, 1, "Unclosed", "this `{{` has no `}}`"), 1, counted(1, 1)),
        case("a name with a line end", "check 'a\nb'", {"a\nb": "{% nope %}"}, NOPE.replace("t:1", "a?b:1"), 1, counted(1, 1)),
        case("another format", "check t --format xml", {"t": ""}, status=2, errors=("error: invalid value 'xml' for '--format <FORMAT>'", "  [possible values: text, json, github]")),
    ]


def file_cases():
    return [
        case("no words", "check", {}, status=2, errors=("error: the following required arguments were not provided", "  <PATH>...")),
        case("no file", "check u t", {"t": ""}, status=1, errors=("error: u: No such file or directory", *counted(1))),
        case("an empty path", "check ''", {}, status=2, errors=("error: a PATH is empty",)),
        case("no path of data", "check t -d a=", {"t": ""}, status=2, errors=("error: -d a=: there is no path; write a path, or NAME=FILE",)),
        case("a file in place of a folder of partials", "check t -p t", {"t": ""}, status=1, errors=("error: t: Not a directory; one file is named NAME=t", *counted(1))),
        case("an empty folder of a name with a line end", "check 'a\nb'", {"a\nb/": ""}, status=1, errors=("error: a\\nb: there is no file in this folder", *counted(0))),
        case("an empty folder", "check f", {"f/": ""}, status=1, errors=("error: f: there is no file in this folder", *counted(0))),
        case("no folder of partials", "check t -p u", {"t": ""}, status=1, errors=("error: u: No such file or directory", *counted(1))),
        case("a file that isn't UTF-8", "check f", {"f/a": b"a\n\xff", "f/b": ""}, status=1, errors=("error: f/a: the file isn't UTF-8: line 2, column 1", *counted(1))),
        case("what is no text in a folder is left out", "check f", {"f/a.png": b"\x89PNG\0\xff", "f/b": ""}, errors=("left out: f/a.png is no text: it has a byte 0", *counted(1))),
        case("what two folders leave out is reported once", "check f -p f", {"f/a.png": b"\x89PNG\0\xff", "f/b": ""}, errors=("left out: f/a.png is no text: it has a byte 0", *counted(1))),
        case("what is no text by its name", "check f/a.png", {"f/a.png": b"\x89PNG\0\xff"}, status=1, errors=("error: f/a.png: the file isn't UTF-8: line 1, column 1", *counted(0))),
        case("a time that is none, without data", "check t --now rubbish", {"t": ""}, status=2, errors=("error: --now wants a day or an instant of ISO 8601",)),
        case("a time that is none, with data", "check t -d d --now rubbish", {"t": "", "d": "{}"}, status=2, errors=("error: --now wants a day or an instant of ISO 8601",)),
        case("a time without data", "check t --now 2026-11-27", {"t": "{{ a }}"}, errors=counted(1)),
        case("data with a fault", "check t -d d", {"t": "", "d": "["}, status=1, errors=("error: d: InvalidInput: in the data: line 1, column ",)),
    ]


def warning(path, line, column, kind, message):
    return json(path, line, column, kind, message, "warning")


def warned(title, words, files, out, count=1, number=1):
    return case(title, f"check {words} --format json", files, out, errors=counted(number, 0, count))


def partial_cases():
    return [
        case("a warning is no fault", "check t -p p", {"t": "{% render 'haed' %}", "p/head.html": "{% render 'head' %}"}, "t:1:1: warning: MissingPartial: no partial is named `haed`; did you mean `head`?\n  |\n1 | {% render 'haed' %}\n  | ^\np/head.html:1:1: warning: RecursivePartial: the partial `head` runs itself from here; a run ends where partials are 32 deep\n  |\n1 | {% render 'head' %}\n  | ^\n", errors=counted(2, 0, 2)),
        warned("no partial of the name", "t -p p", {"t": "{% include 'xyz' %}{% include 'a' %}", "p/a": ""}, warning("t", 1, 1, "MissingPartial", "no partial is named `xyz`"), 1, 2),
        warned("a render finds a name with .liquid, an include doesn't", "t -p a.liquid=x", {"t": "{% render 'a' %}{% include 'a' %}", "x": ""}, warning("t", 1, 17, "MissingPartial", "no partial is named `a`"), 1, 2),
        warned("an empty folder of partials", "t -p p", {"t": "{% render 'x' %}", "p/": ""}, warning("t", 1, 1, "MissingPartial", "no partial is named `x`"), 1, 1),
        case("a partial that is left out", "check t -p p --format json", {"t": "{% include 'a.png' %}", "p/a.png": b"\0"}, warning("t", 1, 1, "MissingPartial", "no partial is named `a.png`"), errors=("left out: p/a.png is no text: it has a byte 0", *counted(1, 0, 1))),
        warned("no partials are given", "t", {"t": "{% include 'a' %}"}, "", 0),
        warned("a partial that one template doesn't run", "t -p p", {"t": "{% render 'a' %}", "p/a": "", "p/b": ""}, "", 0, 3),
        warned("a partial that nothing runs", "f -p p", {"f/t": "{% render 'a' %}", "p/a": "", "p/b": ""}, warning("p/b", 1, 1, "UnusedPartial", "none of the templates runs this partial"), 1, 3),
        warned("two files of one name", "t -p a=x -p a=y", {"t": "{% render 'a' %}", "x": "", "y": ""}, warning("x", 1, 1, "UnusedPartial", "none of the templates runs this partial"), 1, 3),
        warned("a partial that a name in the data may run", "t -p p", {"t": "{% render a %}", "p/b": ""}, "", 0, 2),
        warned("pages among the partials", "f -p f", {"f/a": "{% render 'b' %}", "f/b": ""}, "", 0, 2),
        warned("a folder of partials inside that of pages", "f -p f/p", {"f/a": "", "f/p/b": ""}, warning("f/p/b", 1, 1, "UnusedPartial", "none of the templates runs this partial"), 1, 2),
        warned("a circle of partials", "t -p p", {"t": "{% render 'a' %}", "p/a": "{% render 'b' %}", "p/b": "{% render 'c' %}{% render 'a' %}", "p/c": ""}, warning("p/b", 1, 17, "RecursivePartial", "the partial `a` runs itself from here; a run ends where partials are 32 deep"), 1, 4),
    ]


def name_cases():
    return [
        warned("a name that the data lacks", "t -d d", {"t": "{{ nane }}{{ name }}{{ xyzzy }}{{ nane }}", "d": '{"name": 1}'}, warning("t", 1, 1, "UnknownName", "the data has no `nane`; did you mean `name`?") + warning("t", 1, 21, "UnknownName", "the data has no `xyzzy`"), 2),
        warned("warnings stand in the order of their places", "t -d d", {"t": "{{ xyzzy }}{% for c in 'abc' %}{% endfor %}", "d": "{}"}, warning("t", 1, 1, "UnknownName", "the data has no `xyzzy`") + warning("t", 1, 12, "NoList", "this is a text, and a loop goes over a list or a map"), 2),
        warned("names that tags set", "t -d d -p p", {"t": "{% assign a = 1 %}{% capture b %}{% endcapture %}{{ a }}{{ b }}{% for i in l %}{{ i }}{{ forloop.index }}{% endfor %}{% increment n %}{{ n }}{% render 'q', k: 1 %}", "p/q": "{{ k }}", "d": '{"l": []}'}, "", 0, 2),
        warned("a variable that nothing reads", "t", {"t": "{% assign a = 1 %}{% assign b = 1 %}{{ b }}{% capture c %}{% endcapture %}"}, warning("t", 1, 1, "UnusedVariable", "`a` is set here, and nothing reads it") + warning("t", 1, 44, "UnusedVariable", "`c` is set here, and nothing reads it"), 2),
        warned("a partial reads it", "t -p p", {"t": "{% assign a = 1 %}{% include 'q' %}", "p/q": "{{ a }}"}, "", 0, 2),
        warned("a partial that isn't known may read it", "t", {"t": "{% assign a = 1 %}{% include 'q' %}"}, "", 0),
        warned("the present time", "t", {"t": "{{ 'now' | date: '%Y' }}{{ 'now' | upcase }}{% assign a = 'today' | date: '%Y' %}{{ a }}"}, warning("t", 1, 1, "NoClock", "`'now' | date` gives `now`, since there is no clock; give the time as data") + warning("t", 1, 45, "NoClock", "`'today' | date` gives `today`, since there is no clock; give the time as data"), 2),
        warned("an else with a condition", "t", {"t": "{% if a %}{% else if b %}{% else %}{% endif %}" .replace("{% else %}", "")}, warning("t", 1, 11, "ElseIf", "what stands after `else` isn't read; for a condition write `elsif`")),
    ]


USER = '{"user": {"name": "Ada", "tags": ["a"]}}'
SHOP = '{"shop": {"teas": [{"title": "Assam", "maker": {"name": "A"}}, {"title": "Ceylon"}, {"titel": 1}], "name": "Tea"}}'


def unknown(column, message):
    return warning("t", 1, column, "UnknownPath", message)


def path_cases():
    return [
        warned("a path that the data lacks", "t -d d", {"t": "{{ user.name }}{{ user.nmae }}{{ user.nmae }}{{ user.xyzzy.b }}", "d": USER}, unknown(16, "the data has no `user.nmae`; did you mean `user.name`?") + unknown(46, "the data has no `user.xyzzy`"), 2),
        warned("a step in brackets", "t -d d", {"t": "{{ user['first name'] }}{{ user[\"nam\"] }}", "d": USER}, unknown(1, "the data has no `user.first name`") + unknown(25, "the data has no `user.nam`; did you mean `user.name`?"), 2),
        warned("a key with a dot", "t -d d", {"t": "{{ x['a.c'] }}{% for y in x.l %}{{ y['m.o'] }}{% endfor %}", "d": '{"x": {"a.b": 1, "l": [{"m.n": 1}]}}'}, unknown(1, "the data has no `x.a.c`; did you mean `x.a.b`?") + unknown(33, "an item of `x.l` has no `m.o`; did you mean `m.n`?"), 2),
        warned("a path goes up to a step that is no literal text", "t -d d", {"t": "{{ user[k].b }}{{ user.tags[0].b }}{{ user.tgs[k] }}{% assign k = 'x' %}", "d": USER}, unknown(36, "the data has no `user.tgs`; did you mean `user.tags`?")),
        warned("a path in a step, an argument, a condition, a case, a limit and a pair", "t -d d -p p", {"t": "{{ user[user.a1] }}{{ 1 | plus: user.a2 }}{% if user.a3 == 1 %}{% endif %}{% case user.a4 %}{% when user.a5 %}{% endcase %}{% for i in user.tags limit: user.a6 %}{% endfor %}{% cycle user.a7, 1 %}{% render 'q', k: user.a8 %}", "p/q": "", "d": USER}, unknown(1, "the data has no `user.a1`") + unknown(20, "the data has no `user.a2`") + unknown(43, "the data has no `user.a3`") + unknown(75, "the data has no `user.a4`") + unknown(75, "the data has no `user.a5`") + unknown(124, "the data has no `user.a6`") + unknown(175, "the data has no `user.a7`") + unknown(197, "the data has no `user.a8`") + warning("t", 1, 197, "UnusedPair", "the partial reads no `k`"), 9, 2),
        warned("an item of a list lacks it", "t -d d", {"t": "{% for t in shop.teas %}{{ t.title }}{{ t.maker.nmae }}{% endfor %}", "d": SHOP}, unknown(25, "an item of `shop.teas` has no `title`; did you mean `titel`?") + unknown(38, "an item of `shop.teas` has no `maker.nmae`; did you mean `maker.name`?"), 2),
        warned("a variable of two loops", "t -d d", {"t": "{% for t in a %}{{ t.x }}{% for t in b %}{{ t.y }}{% else %}{{ t.x }}{% endfor %}{{ t.x }}{{ t.y }}{% endfor %}{% tablerow t in b %}{{ t.x }}{% endtablerow %}", "d": '{"a": [{"x": 1}], "b": [{"y": 2}]}'}, unknown(91, "an item of `a` has no `y`") + unknown(133, "an item of `b` has no `x`"), 2),
        warned("what needn't be there", "t -d d", {"t": "{% if user.nick %}{% endif %}{{ user.nick | default: 'x' }}{% unless user.nme %}{% endunless %}{{ user.nam | upcase }}", "d": USER}, unknown(60, "the data has no `user.nme`; did you mean `user.name`?") + unknown(96, "the data has no `user.nam`; did you mean `user.name`?"), 2),
        warned("below a name that a tag sets nothing is known", "t -d d", {"t": "{% assign user = other %}{{ user.nmae }}{% for o in (1..2) %}{{ o.x }}{% endfor %}", "d": '{"user": {"name": 1}, "other": 1, "o": {}}'}, "", 0),
        warned("a map has a size, and no text has members", "t -d d", {"t": "{{ user.size }}{{ user.name.size }}{{ user.name.x }}{{ user.tags.first }}", "d": USER}, "", 0),
        warned("a path of a partial", "t -d d -p p", {"t": "{% include 'q' %}", "p/q": "a\n {{ user.nmae }}", "d": USER}, warning("p/q", 2, 2, "UnknownPath", "the data has no `user.nmae`; did you mean `user.name`?"), 1, 2),
    ]


def value_cases():
    return [
        warned("a loop over a text of the data", "t -d d", {"t": "{% for c in shop.name %}{% endfor %}{% tablerow c in n %}{% endtablerow %}{% for c in b %}{% endfor %}", "d": '{"shop": {"name": "Tea"}, "n": 5, "b": true}'}, warning("t", 1, 1, "NoList", "`shop.name` in the data is a text, and a loop goes over a list or a map") + warning("t", 1, 37, "NoList", "`n` in the data is a number, and a loop goes over a list or a map") + warning("t", 1, 75, "NoList", "`b` in the data is a truth value, and a loop goes over a list or a map"), 3),
        warned("a loop over a literal text", "t", {"t": "{% for c in 'abc' %}{% endfor %}{% for c in nil %}{% endfor %}"}, warning("t", 1, 1, "NoList", "this is a text, and a loop goes over a list or a map")),
        warned("loops over lists, maps and nil", "t -d d", {"t": "{% for c in a %}{% endfor %}{% for c in b %}{% endfor %}{% for c in c %}{% endfor %}", "d": '{"a": [], "b": {}, "c": null}'}, "", 0),
        warned("a limit after an offset past the end", "t -d d", {"t": "{% for c in a offset: 2 limit: 2 %}{% endfor %}{% for c in a offset: 1 limit: 2 %}{% endfor %}{% for c in a limit: 9 %}{% endfor %}{% for c in a offset: 9 %}{% endfor %}{% for c in b offset: 1 limit: 9 %}{% endfor %}", "d": '{"a": [1, 2, 3], "b": {"c": 1, "d": 2}}'}, warning("t", 1, 1, "PastEnd", "`a` has 3 items in the data; after `offset` the `limit` goes past them, and gives nil") + warning("t", 1, 170, "PastEnd", "`b` has 2 items in the data; after `offset` the `limit` goes past them, and gives nil"), 2),
        warned("a text that is no date", "t -d d", {"t": "{{ a | date: '%Y' }}{{ b | date: '%Y' }}{{ c | date: '%Y' }}{{ d | date: '%Y' }}{% assign x = e | date_in_tz: '%Y', 1 %}{{ x }}", "d": '{"a": "2026-11-27", "b": "2026-11-27 00:00:00 +0000", "c": "", "d": 5, "e": "now"}'}, warning("t", 1, 1, "NoDate", "`a` is `2026-11-27` in the data, which isn't read as a date") + warning("t", 1, 61, "NumberDate", "`d` is a number in the data, which `date` prints as it is") + warning("t", 1, 81, "NoDate", "`e` is `now` in the data, which isn't read as a date"), 3),
        warned("a date of ISO 8601", "t -d d --dates", {"t": "{{ a | date: '%Y' }}", "d": '{"a": "2026-11-27"}'}, "", 0),
    ]


QUOTE = "a quote in this value ends the attribute; write `| escape`"


def attribute_cases():
    return [
        warned("attributes are looked at where that is asked for", "t", {"t": "<a title='{{ b }}'>"}, "", 0),
        warned("outputs in attributes", "t --warn unescaped-attributes", {"t": "<a b=\"{{ c }}\" d='x{{ e }}' f={{ g }} h=i{{ j }}>{{ k }}</a>"}, "".join(warning("t", 1, column, "UnescapedAttribute", QUOTE) for column in (7, 20, 31, 42)), 4),
        warned("what is escaped, literals and a loop's own object", "t --warn unescaped-attributes", {"t": "{% for x in y %}<a b=\"{{ c | escape }}{{ c | url_encode | upcase }}{{ 'x' }}{{ 1 }}{{ forloop.index }}\">{% endfor %}"}, "", 0),
        warned("outside of attributes", "t --warn unescaped-attributes", {"t": "a < b = '{{ c }}' <3 \"{{ d }}\" <p {{ e }}>=\"{{ f }}\"</p {{ g }}><{{ h }} {{ i }}><p q={{ 1 }} {{ j }}>"}, "", 0),
        warned("tags, comments and raw text write nothing", "t --warn unescaped-attributes", {"t": "<a b=\"{% if c %}{{ d }}{% endif %}{% comment %}\">{% endcomment %}{% raw %}\">{% endraw %}{{ e }}\">{{ f }}"}, warning("t", 1, 17, "UnescapedAttribute", QUOTE) + warning("t", 1, 89, "UnescapedAttribute", QUOTE), 2),
        warned("outputs that the language escapes", "t --warn unescaped-attributes --escape html", {"t": "<a b=\"{{ c }}{{ d | raw }}\">"}, warning("t", 1, 14, "UnescapedAttribute", QUOTE), 1),
        warned("a captured text that is escaped again", "t --escape html", {"t": "{% capture a %}<b>{{ c }}</b>{% endcapture %}{{ a }}{{ a | raw }}{{ c }}{{ a }}"}, warning("t", 1, 46, "EscapedTwice", "the outputs in the captured `a` are escaped already; end this one with `| raw`"), 1),
        case("another kind", "check t --warn all", {"t": ""}, status=2, errors=("error: invalid value 'all' for '--warn <KIND>'", "  [possible values: unescaped-attributes]")),
    ]


MAP = "`%s` in the data is a map: a loop goes by its keys, Ruby's by the file; make it a list of pairs"
NIL = "`%s` in the data has no value: `contains` is a fault, in Ruby false; use `--missing nil` or `default`"
SOUGHT = "`%s` in the data is nil: every text contains it, in Ruby none; test for it first"
MODE = "`slugify` has no mode `%s`: here `default`, in Jekyll `none`; write the one you mean"
SITE = '{"menu": {"b": 1, "a": 2}, "one": {"b": 1}, "none": {}, "rows": [{"links": {"b": 1, "a": 2}}, {"links": null}], "pairs": [["b", 1], ["a", 2]], "nav": null, "page": {"nav": null, "url": "/a/"}}'
LOOPS = "{% for m in menu %}{% endfor %}{% tablerow m in rows %}{% for l in m.links %}{% endfor %}{% endtablerow %}{% for m in one %}{% endfor %}{% for m in none %}{% endfor %}{% for m in pairs %}{% endfor %}{% for m in menu %}{% endfor %}{% assign own = menu %}{% for m in own %}{% endfor %}"
SEARCHES = "{% if nav contains 'a' %}{% elsif page.url contains page.nav %}{% endif %}{% if page.nav contains 'a' %}{% endif %}{% unless page.nav.of contains 'a' %}{% endunless %}{% if page.url.of contains 'a' or page.size contains 1 or 'a' contains 'a' or page.nav == 'a' %}{% endif %}{% for r in rows %}{% if r.links contains 'a' %}{% endif %}{% endfor %}"
MODES = "{{ a | slugify: 'prety' }}{{ a | slugify: 'pretty' | slugify: 'latin' | slugify: mode | slugify | slugify: '' }}{% assign b = a | slugify: 'none' | slugify: 'raw' | slugify: 'ascii' | slugify: 'default' | slugify: 'Raw' %}{{ b | upcase }}"


def ruby_cases():
    """What Ruby's engines do otherwise, which is warned of only in templates for one of them."""
    maps = warning("t", 1, 1, "KeyOrder", MAP % "menu") + warning("t", 1, 56, "KeyOrder", MAP % "rows[].links")
    found = ((1, NIL, "nav"), (26, SOUGHT, "page.nav"), (75, NIL, "page.nav"), (116, NIL, "page.nav.of"), (294, NIL, "rows[].links"))
    nils = "".join(warning("t", 1, column, "NilContains", words % path) for column, words, path in found)
    fixed = warning("t", 1, 168, "FixedTest", "no side of this comparison is a name, so it always comes out the same; a name has no quotes")
    at = nils.index(warning("t", 1, 294, "NilContains", NIL % "rows[].links"))
    nils = nils[:at] + fixed + nils[at:]
    modes = "".join(warning("t", 1, column, "UnknownMode", MODE % mode) for column, mode in ((1, "prety"), (27, ""), (113, "Raw")))
    return [
        warned("a loop over a map, of Jekyll's templates", "t -d d --filters jekyll", {"t": LOOPS, "d": SITE}, maps, 2),
        warned("a loop over a map, of Shopify's templates", "t -d d --filters shopify", {"t": LOOPS, "d": SITE}, maps, 2),
        warned("a loop over a map", "t -d d", {"t": LOOPS, "d": SITE}, "", 0),
        warned("a loop over what isn't known to be a map", "t --filters jekyll", {"t": "{% for m in menu %}{{ m[0] }}{% endfor %}"}, "", 0),
        warned("a render for each member of a map", "t -d d -p p --filters jekyll", {"t": "{% render 'q' for menu as m %}", "p/q": "{{ m }}", "d": SITE}, warning("t", 1, 1, "KeyOrder", MAP % "menu"), 1, 2),
        warned("contains of nil, of Jekyll's templates", "t -d d --filters jekyll", {"t": SEARCHES, "d": SITE}, nils, 6),
        warned("contains of nil, of Shopify's templates", "t -d d --filters shopify", {"t": SEARCHES, "d": SITE}, nils, 6),
        warned("contains of nil", "t -d d", {"t": SEARCHES, "d": SITE}, fixed, 1),
        warned("contains of what the data lacks", "t -d d --filters jekyll", {"t": "{% if page.nva contains 'a' %}{% endif %}{% if xyzzy contains 'a' %}{% endif %}", "d": SITE}, warning("t", 1, 1, "UnknownPath", "the data has no `page.nva`; did you mean `page.nav`?") + warning("t", 1, 1, "NilContains", NIL % "page.nva") + warning("t", 1, 42, "UnknownName", "the data has no `xyzzy`") + warning("t", 1, 42, "NilContains", NIL % "xyzzy"), 4),
        warned("contains with what the data lacks", "t -d d --filters jekyll", {"t": "{% if 'a' contains page.nva %}{% endif %}", "d": SITE}, warning("t", 1, 1, "UnknownPath", "the data has no `page.nva`; did you mean `page.nav`?"), 1),
        warned("contains of a name that a tag sets", "t -d d --filters jekyll", {"t": "{% assign nav = nav | default: '' %}{% if nav contains 'a' %}{% endif %}", "d": SITE}, "", 0),
        warned("modes of slugify, of Jekyll's templates", "t --filters jekyll", {"t": MODES}, modes, 3),
        warned("modes of slugify, of Shopify's templates", "t --filters shopify", {"t": MODES}, "", 0),
        warned("modes of slugify", "t", {"t": MODES}, "", 0),
        warned("two warnings of one output", "t --filters jekyll", {"t": "{{ 'now' | date: '%Y' | slugify: 'x' }}"}, warning("t", 1, 1, "NoClock", "`'now' | date` gives `now`, since there is no clock; give the time as data") + warning("t", 1, 1, "UnknownMode", MODE % "x"), 2),
    ]


def check_cases():
    return (
        fault_cases() + selection_cases() + strict_cases() + format_cases() + file_cases() + partial_cases() + name_cases()
        + path_cases() + value_cases() + attribute_cases() + ruby_cases()
    )
