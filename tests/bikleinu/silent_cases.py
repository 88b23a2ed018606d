"""The cases of what is printed after a page of what it shows silently, for tests/bikleinu/run."""

MISSING = "  tip: --missing nil goes on with nil"
DATES = "  tip: --dates reads a date as 2026-04-05, with or without a time"


def case(title, words, files, out="", errors=(), status=0):
    return {"title": title, "words": words, "files": files, "out": out, "errors": errors, "status": status}


def silent_cases():
    return kinds() + slips() + texts() + misused() + truths() + shapes() + lacks() + passing() + places() + merges()


def kinds():
    otherwise = {"t": "{% if a %}x{% else if b %}y{% endif %}", "d": '{"a": false}'}
    dated = {"t": "{{ day | date: '%Y' }}", "d": '{"day": "03/04/2026"}'}
    otherwise_said = "warning: t: ElseIf: line 1, column 12: what stands after `else` isn't read; for a condition write `elsif`"
    return [
        case("an else with more after it", "render t d", otherwise, "y", (otherwise_said,)),
        case("an else with more after it, quietly", "render t d -q", otherwise, "y"),
        {**case("an else with more after it, into a file", "render t d -o p", otherwise, "", (otherwise_said,)), "left": {"p": "y"}},
        case("a word for the present time", "render t", {"t": "a{{ 'now' | date: '%Y' }}"}, "anow", ("warning: t: NoClock: line 1, column 2: `'now' | date` gives `now`",)),
        case("a text that is no date", "render t d", dated, "03/04/2026", ("warning: t: NoDate: line 1, column 1: ", DATES)),
        case("a text that is no date of ISO 8601 either", "render t d --dates", dated, "03/04/2026", ("warning: t: NoDate: line 1, column 1: ",)),
        case("a date", "render t d --dates", {**dated, "d": '{"day": "2026-04-05"}'}, "2026"),
        case("a text that is compared with a number", "render t d", {"t": "{% for r in rows %}{% if 5 < r.n or r.n == 3 %}x{% endif %}{% endfor %}!", "d": '{"rows": [{"n": 9}, {"n": "250"}]}'}, "x!", ("warning: t: TextNumber: line 1, column 20: `rows[].n` is the text `250` in the data, and no number: such a comparison never holds",)),
        case("a text without a digit", "render t d", {"t": "{% if n > 3 %}x{% endif %}!", "d": '{"n": "a"}'}, "!"),
        case("an amount with a fraction", "render t d", {"t": "{% if n > 100 %}x{% endif %}!", "d": '{"n": "1.234,50"}'}, "!", ("warning: t: TextNumber: line 1, column 1: `n` is the text `1.234,50` in the data, and no number: such a comparison never holds",)),
        case("dates of a list in another order", "render t d", {"t": "{% assign s = posts | sort: 'day' | reverse %}{% for p in s %}{{ p.day | date: '%Y' }}{% endfor %}", "d": '{"posts": [{"day": "May"}]}'}, "May", ("warning: t: NoDate: line 1, column 63: `posts[].day` is `May` in the data, which isn't read as a date", DATES)),
        case("a pattern without a sign", "render t", {"t": "{{ '2026-01-02 00:00:00 +0000' | date: 'DD.MM.YYYY' }}"}, "DD.MM.YYYY", ("warning: t: NoPattern: line 1, column 1: `DD.MM.YYYY` has no `%`, so `date` prints it as it is: write it as `%d.%m.%Y`",)),
        case("a key to sort by", "render t d", {"t": "{{ xs | sort: 'nmae' | map: 'nmae' | size }}{{ xs | where: 'id', 1 | map: 'name' }}", "d": '{"xs": [{"name": "b"}, {"name": "a"}]}'}, "0", ("warning: t: UnknownPath: line 1, column 1: an item of `xs` has no `nmae`; did you mean `name`?",)),
        case("a name that is assigned twice", "render t d", {"t": "{% assign s = day %}{% assign s = 'x' %}{{ s | date: '%Y' }}", "d": '{"day": "May"}'}, "x"),
        case("a part of a list", "render t d", {"t": "{% assign s = posts | where: 'a', 1 %}{% for p in s %}{{ p.day | date: '%Y' }}{% endfor %}!", "d": '{"posts": [{"day": "May"}]}'}, "!"),
        case("a page with a fault", "render t", {"t": "{{ 'now' | date: '%Y' }}{{ b }}"}, "now", ("error: t: UnknownVariable: line 1, column 28", "  tip: --missing nil goes on with nil"), 1),
        case("a name that nothing reads", "render t", {"t": "{% assign a = 1 %}b"}, "b", ("warning: t: UnusedVariable: line 1, column 1: `a` is set here, and nothing reads it",)),
    ]


def said(kind, column, message, line=1, path="t"):
    return f"warning: {path}: {kind}: line {line}, column {column}: {message}"


def slips():
    parts = "it has `parentloop`, `first`, `index`, `index0`, `last`, `length`, `rindex` and `rindex0`"
    columns = "it has `col`, `col0`, `col_first`, `col_last`, `first`, `index`, `index0`, `last`, `length`, `rindex` and `rindex0`"
    sign = "a `\\` escapes nothing in a text; for a line end write the line end itself between the quotes"
    again = "what `%s` wrote is escaped here, and shows as text; write one `escape`, and before it"
    late = "`%s` never leaves nothing, so the `default` after it is never used; write it before"
    down = "this range goes downwards and has no numbers; write the lesser one first, and `reversed`"
    fixed = "no side of this comparison is a name, so it always comes out the same; a name has no quotes"
    joined = "here `and` binds before `or`, as `(a and b) or c`, in Ruby `a and (b or c)`; use two `if`s"
    joins = {"t": "{% if a and b or c %}x{% endif %}{% if c or a and b %}y{% endif %}!", "d": '{"a": false, "b": false, "c": true}'}
    return [
        case("a part that a loop's object hasn't", "render t", {"t": "{% for i in (1..2) %}{% if forloop.frist %}x{% endif %}{% endfor %}!"}, "!", (said("UnknownPart", 22, f"`forloop` has no `frist`; {parts}"),)),
        case("parts that a loop's object has", "render t", {"t": "{% for i in (1..2) %}{% unless forloop.last or forloop.parentloop %}{{ forloop['index'] }}{% endunless %}{% endfor %}!"}, "1!"),
        case("a part of the other sort of loop", "render t", {"t": "{% tablerow i in (1..1) %}{% if tablerow.parentloop %}{% endif %}{{ tablerow.col_last }}{% endtablerow %}"}, '<tr class="row1"><td class="col1">true</td></tr>', (said("UnknownPart", 27, f"`tablerow` has no `parentloop`; {columns}"),)),
        case("a text with a sign for a line end", "render t d", {"t": "{{ a | split: '\\n' | size }}{{ a | append: '\\d' | size }}", "d": '{"a": "x\\ny"}'}, "15", (said("NoEscape", 1, sign),)),
        case("a text with a line end", "render t d", {"t": "{{ a | split: '\n' | size }}", "d": '{"a": "x\\ny"}'}, "2"),
        case("a text that is escaped again", "render t", {"t": "{{ '<' | escape | escape }}{{ '<' | escape | upcase }}"}, "&amp;lt;&LT;", (said("EscapedAgain", 1, again % "escape"),)),
        case("line breaks that are escaped", "render t", {"t": "{{ 'a' | newline_to_br | escape }}{{ 'a' | escape | newline_to_br }}"}, "aa", (said("EscapedAgain", 1, again % "newline_to_br"),)),
        case("a default that is too late", "render t d", {"t": "{{ a | append: '!' | default: 'x' }}{{ a | append: '' | default: 'y' }}{{ a | size | default: 'z' }}", "d": '{"a": null}'}, "!y0", (said("LateDefault", 1, late % "append"), said("LateDefault", 72, late % "size"))),
        case("a range that goes downwards", "render t", {"t": "{% for i in (3..1) %}x{% endfor %}{% for i in (1..1) %}y{% endfor %}!"}, "y!", (said("DownRange", 1, down),)),
        case("two literals that are compared", "render t d", {"t": "{% if '1' == true or a == 1 %}x{% endif %}!", "d": '{"a": 2}'}, "!", (said("FixedTest", 1, fixed),)),
        case("an output for a tag", "render t d", {"t": "{% if a %}x{{ else }}y{% endif %}!", "d": '{"a": false}'}, "!", (said("TagAsOutput", 12, "this output shows the value of a name `else`; the tag is written `{% else %}`"),)),
        case("an or after an and", "render t d --filters jekyll", joins, "x" "y!", (said("AndOr", 1, joined),)),
        case("an or after an and, of a template of its own", "render t d", joins, "x" "y!"),
    ]


def texts():
    value = "`%s` is text here; the value is written `{{ %s }}`"
    found = "{{ a }} {a} ${a.b} %a% [[a]] <%= a %>"
    words = [said("ForeignOutput", column, value % (whole, path)) for column, whole, path in ((9, "{a}", "a"), (13, "${a.b}", "a.b"), (20, "%a%", "a"), (24, "[[a]]", "a"), (30, "<%= a %>", "a"))]
    code = "<script>let {a} = b;</script><style>{a}</style>{{ a }} x{a} {x} $a %7Ba% {a: 1} [a]"
    tag = "what begins with `%s` is text here; a tag is written `{%% if a %%}`"
    comment = "this is text here; a comment is written `{% comment %}text{% endcomment %}`"
    front = "front matter isn't read here, and is printed as text; give its values as data"
    stray = "this `%s` stands in no loop, and ends the page here"
    one = '{"a": "1"}'
    return [
        case("values as others write them", "render t d", {"t": found, "d": one}, "1" + found[7:], tuple(words)),
        case("a name of the data that no output shows", "render t d", {"t": "Dear { a },", "d": one}, "Dear { a },", (said("ForeignOutput", 6, value % ("{ a }", "a")),)),
        case("what is no value of others", "render t d", {"t": code, "d": one}, code.replace("{{ a }}", "1")),
        case("tags and comments as others write them", "render t", {"t": "{ % if a %}x<% end %>{# note #}"}, "{ % if a %}x<% end %>{# note #}", (said("ForeignOutput", 1, tag % "{ %"), said("ForeignOutput", 13, tag % "<%"), said("ForeignOutput", 22, comment))),
        case("front matter", "render t", {"t": "---\na: b\n---\nx"}, "---\na: b\n---\nx", (said("FrontMatter", 1, front),)),
        case("front matter of Jekyll", "render t --filters jekyll", {"t": "---\na: b\n---\nx"}, "---\na: b\n---\nx"),
        case("a line that is no front matter", "render t", {"t": "---\nab\n---\nx"}, "---\nab\n---\nx"),
        case("a break in no loop", "render t d", {"t": "A{% if a %}{% break %}{% endif %}B", "d": one}, "A", (said("StrayBreak", 12, stray % "break"),)),
        case("a continue after a loop", "render t", {"t": "{% for i in (1..2) %}{{ i }}{% break %}{% else %}{% continue %}{% endfor %}A{% continue %}B"}, "1A", (said("StrayBreak", 50, stray % "continue"), said("StrayBreak", 77, stray % "continue"))),
        case("a break in a partial", "render t -p parts", {"t": "{% for i in (1..2) %}{% include 'p' %}{% endfor %}", "parts/p": "x{% break %}"}, "x"),
    ]


def misused():
    number, truth = ("a tag sets `a` to a text, which is no %s: such a comparison never holds" % other for other in ("number", "truth value"))
    empty = "the captured `a` counts as true, also empty; write `a != ''`"
    quoted = "`'name'` is a text, and the data has a value of that name; write it without quotes"
    captured = "{% capture a %}{% endcapture %}"
    name = '{"name": "Ada"}'
    return [
        case("a captured number", "render t", {"t": "{% capture a %}5{% endcapture %}{% if a > 3 or 5 == a %}x{% endif %}!"}, "!", (said("TextNumber", 33, number),)),
        case("an assigned text beside a truth value", "render t", {"t": "{% assign a = 'true' %}{% if a == true %}x{% endif %}!"}, "!", (said("TextTruth", 24, truth),)),
        case("an assigned text of a filter", "render t", {"t": "{% assign a = 5 | append: '' %}{% if a == 5 %}x{% endif %}!"}, "!", (said("TextNumber", 32, number),)),
        case("a name that is a number once", "render t", {"t": "{% assign a = '5' %}{% assign a = a | plus: 0 %}{% if a == 5 %}x{% endif %}!"}, "x!"),
        case("an assigned text beside a text", "render t", {"t": "{% assign a = 'b' %}{% if a == 'b' and a contains 'b' %}x{% endif %}!"}, "x!"),
        case("a captured text that is tested", "render t", {"t": captured + "{% if a %}x{% endif %}!"}, "x!", (said("AlwaysTrue", 32, empty),)),
        case("a text that is captured under a condition", "render t", {"t": "{% if b %}" + captured + "{% endif %}{% if a %}x{% endif %}!"}, "!"),
        case("a text that is captured later", "render t", {"t": "{% if a %}x{% endif %}" + captured + "!"}, "!"),
        case("a captured text that an include may set", "render t -p p", {"t": captured + "{% include 'q' %}{% if a %}x{% endif %}!", "p/q": "{% assign a = false %}"}, "!"),
        case("a name in quotes", "render t d", {"t": "{{ 'name' | upcase }}{{ 'name' | append: 's' }}{{ 'game' }}", "d": name}, "NAMEnamesgame", (said("QuotedName", 1, quoted),)),
    ]


def shapes():
    never = "`a` is %s in the data, and no %s: such a comparison never holds"
    compared = (("[1]", "1", "NoNumber", "a list", "number"), ('{"b": 1}', "1", "NoNumber", "a map", "number"), ("true", "1", "NoNumber", "a truth value", "number"), ("1", "true", "NoTruth", "a number", "truth value"), ("true", "'yes'", "NoText", "a truth value", "text"))
    shown = "`a` is a map or a list of maps in the data, and is shown with all that it has; name a part, as `a.name`"
    asked = "`a` is a list in the data, which has no such key; take each item by `for`, or one as `a[0]`"
    false = "`a` is `false` in the data, which `default` replaces too; test it by `if`"
    date = "`a` is a number in the data, which `date` prints as it is"
    sized = "`a.size` is a number, and 0 counts as true too; write `a.size > 0`"
    return [
        *(case(f"{value} beside {other}", "render t d", {"t": f"{{% if a == {other} %}}x{{% endif %}}!", "d": f'{{"a": {value}}}'}, "!", (said(kind, 1, never % (what, wanted)),)) for value, other, kind, what, wanted in compared),
        case("a list beside a truth value", "render t d", {"t": "{% if a != false %}x{% endif %}!", "d": '{"a": [1]}'}, "x!"),
        case("a map that is shown", "render t d", {"t": "{{ a }}", "d": '{"a": {"b": "c"}}'}, "bc", (said("WholeMap", 1, shown),)),
        case("a list of maps that is shown", "render t d", {"t": "{{ a }}", "d": '{"a": [{"b": "c"}]}'}, "bc", (said("WholeMap", 1, shown),)),
        case("a list of texts that is shown", "render t d", {"t": "{{ a }}{{ b | size }}", "d": '{"a": ["b", "c"], "b": {"c": 1}}'}, "bc1"),
        case("a list that is asked for a key", "render t d", {"t": "{{ a.b | upcase }}{% if a.b %}x{% endif %}", "d": '{"a": [{"b": "c"}]}'}, "", (said("NoKey", 1, asked),)),
        case("a list that is asked for what it has", "render t d", {"t": "{{ a.first.b | upcase }}{{ a.size | plus: 1 }}{{ c.b | upcase }}", "d": '{"a": [{"b": "c"}], "c": {"b": "d"}}'}, "C2D"),
        case("a list beside a text", "render t d", {"t": "{% if a == 'b' %}x{% endif %}!", "d": '{"a": ["b"]}'}, "!", (said("NoText", 1, never % ("a list", "text")),)),
        case("false before a default", "render t d", {"t": "{{ a | default: 'x' }}{{ b | default: 'y' }}", "d": '{"a": false, "b": 0}'}, "x0", (said("FalseDefault", 1, false),)),
        case("a number for a date", "render t d", {"t": "{{ a | date: '%Y' }}", "d": '{"a": 1775000000}'}, "1775000000", (said("NumberDate", 1, date),)),
        case("the size of an empty list", "render t d", {"t": "{% if a.size %}x{% endif %}{% if a.size > 0 %}y{% endif %}", "d": '{"a": []}'}, "x", (said("AlwaysTrue", 1, sized),)),
        case("a key named size", "render t d", {"t": "{% if a.size %}x{% endif %}", "d": '{"a": {"size": "XL"}}'}, "x"),
    ]


def truths():
    tested = {"t": "{% if a %}x{% endif %}"}
    said = "warning: t: AlwaysTrue: line 1, column 1: `a` is %s in the data, which counts as true: compare it, or its `size`"
    shown = (("\"\"", "an empty text"), ("\"no\"", "the text `no`"), ("0", "0"), ("[]", "an empty list"), ("{}", "an empty map"))
    return [
        *(case(f"a condition over {what}", "render t d", {**tested, "d": f'{{"a": {value}}}'}, "x", (said % what,)) for value, what in shown),
        *(case(f"a condition over {value}", "render t d", {**tested, "d": f'{{"a": {value}}}'}, "" if value in ("false", "null") else "x") for value in ("false", "null", "true", "1", "[0]", '"yes"')),
        case("a text that is compared with a truth value", "render t d", {"t": "{% if a == true %}x{% endif %}!", "d": '{"a": "true"}'}, "!", ("warning: t: TextTruth: line 1, column 1: `a` is the text `true` in the data, and no truth value: such a comparison never holds",)),
        case("a number that is compared with a text", "render t d", {"t": "{% if a == '3' %}x{% endif %}{% case a %}{% when '3' %}y{% endcase %}!", "d": '{"a": 3}'}, "!", ("warning: t: NoText: line 1, column 1: `a` is a number in the data, and no text: such a comparison never holds",)),
        case("a truth value that is compared with a text", "render t d", {"t": "{% if a == 'true' %}x{% endif %}!", "d": '{"a": true}'}, "!", ("warning: t: NoText: line 1, column 1: `a` is a truth value in the data, and no text: such a comparison never holds",)),
        case("a number that is compared with a word", "render t d", {"t": "{% if a == 'all' %}x{% endif %}!", "d": '{"a": 3}'}, "!"),
        case("a number of a case", "render t d", {"t": "{% case a %}{% when 3 %}y{% endcase %}!", "d": '{"a": "3"}'}, "!", ("warning: t: TextNumber: line 1, column 1: `a` is the text `3` in the data",)),
        case("a text by itself", "render t d", {"t": "{% if a == 'x' or 'y' %}z{% endif %}{% unless 1 %}{% endunless %}", "d": '{"a": "b"}'}, "z", ("warning: t: AlwaysTrue: line 1, column 1: a text or a number by itself counts as true: compare with each, as `a == 1 or a == 2`", "warning: t: AlwaysTrue: line 1, column 37: a text or a number by itself")),
        case("a truth value by itself", "render t", {"t": "{% if true %}z{% endif %}{% if nil %}{% endif %}"}, "z"),
        case("a truth value that is compared with one", "render t d", {"t": "{% if a == true %}x{% endif %}!", "d": '{"a": true}'}, "x!"),
    ]


def lacks():
    title = {"t": "<{{ titel | upcase }}>", "d": '{"title": "Tea"}'}
    said = "warning: t: UnknownName: line 1, column 2: the data has no `titel`; did you mean `title`?"
    return [
        case("a missing name that a filter gets", "render t d", title, "<>", (said,)),
        case("a missing name that is nil", "render t d --missing nil", title, "<>"),
        case("a missing name with what stands in for it", "render t d", {**title, "t": "{{ titel | default: 'x' }}"}, "x", (said.replace("column 2", "column 1"),)),
        case("a missing name with what stands in for it, and none like it", "render t d", {**title, "t": "{{ note | default: 'x' }}"}, "x"),
        case("a missing name that is tested before", "render t d", {**title, "t": "{% if titel %}{{ titel | upcase }}{% endif %}!"}, "!", (said.replace("column 2", "column 1"),)),
        case("a missing name that is tested before, and none like it", "render t d", {**title, "t": "{% if note %}{{ note | upcase }}{% endif %}!"}, "!"),
        case("names with other letters", "render t d", {"t": "{% if site.name %}x{% endif %}!", "d": '{"site": {"time": 1}}'}, "!"),
        case("a missing name that an assign filters", "render t d", {**title, "t": "<{% assign a = titel | upcase %}{{ a }}>"}, "<>", (said,)),
        case("a missing member that a filter gets", "render t d", {"t": "{{ tea.titel | upcase }}", "d": '{"tea": {"title": "Tea"}}'}, "", ("warning: t: UnknownPath: line 1, column 1: the data has no `tea.titel`; did you mean `tea.title`?",)),
        case("a missing member like no other", "render t d", {"t": "{{ tea.note | upcase }}!", "d": '{"tea": {"title": "Tea"}}'}, "!"),
        case("a name that a tag sets", "render t", {"t": "{% assign a = 'b' %}{{ a | upcase }}"}, "B"),
    ]


def passing():
    unread = "the partial reads no `nmae`; did you mean `name`?"
    lost = "no `render` of this partial gives `name`, so it is nil here; write `name: name` there"
    lacks_x = "the data has no `x`"
    return [
        case("a pair with another name", "render t d -p p", {"t": "{% render 'q', nmae: 'x' %}", "p/q": "[{{ name | upcase }}]", "d": '{"name": "Ada"}'}, "[]", (said("UnusedPair", 1, unread), said("NotGiven", 2, lost, path="p/q"))),
        case("a pair of an include", "render t -p p", {"t": "{% include 'q' nmae: 'x' %}", "p/q": "[{{ name | upcase }}]"}, "[]", (said("UnusedPair", 1, unread), said("UnknownName", 2, "the data has no `name`; did you mean `nmae`?", path="p/q"))),
        case("a pair that is read, and one that goes on", "render t -p p", {"t": "{% render 'q', name: 'x' %}{% include 'r' name: 'y' %}", "p/q": "{{ name }}", "p/r": "{% include 'q' %}"}, "xy"),
        case("a name that the partial may lack", "render t d -p p", {"t": "{% render 'q' %}", "p/q": "{% if note %}x{% endif %}{% assign a = 1 %}{{ a }}", "d": '{"a": 2}'}, "1"),
        case("a partial that is included too", "render t d -p p", {"t": "{% render 'q' %}{% include 'q' %}", "p/q": "[{{ name | upcase }}]", "d": '{"name": "Ada"}'}, "[][ADA]"),
        case("what a rendered partial sets", "render t -p p", {"t": "{% render 'q' %}{{ x | upcase }}", "p/q": "{% assign x = 1 %}{{ x }}"}, "1", (said("UnknownName", 17, lacks_x),)),
        case("what an included partial sets", "render t -p p", {"t": "{% include 'q' %}{{ x | upcase }}", "p/q": "{% assign x = 1 %}{{ x }}"}, "11"),
        case("a loop's object by another name", "render t", {"t": "{% for i in (1..2) %}{% if loop.last %}x{% endif %}{% endfor %}!"}, "!", (said("UnknownName", 22, "the data has no `loop`; did you mean `forloop`?"),)),
    ]


def places():
    many = "".join(f"{{{{ a{n} | upcase }}}}" for n in range(25))
    first = tuple(f"warning: t: UnknownName: line 1, column {many.index(f'{{{{ a{n} ') + 1}: the data has no `a{n}`" for n in range(20))
    partial = {"t": "{% render 'p/b' %}{% render 'p/b.html' %}{% render 'p/c' %}", "parts/p/b.html": "{{ 'today' | date: '%d' }}", "parts/p/c.html": "c", "parts/d.html": "{{ 'now' | date: '%d' }}"}
    return [
        case("a partial once, and none that isn't reached", "render t -p parts", partial, "todaytodayc", ("warning: parts/p/b.html: NoClock: line 1, column 1: ",)),
        case("more warnings than are printed", "render t", {"t": many}, "", (*first, "warnings: 5 more")),
    ]


def merges():
    table = {"t": "{{ day | date: '%Y' }}{{ titel | upcase }}\n", "r.csv": "title,day\nA,2026-01-02 00:00:00 +0000\nB,May\nC,June\n"}
    dated = "warning: record 2: t: NoDate: line 1, column 1: `day` is `May` in the data, which isn't read as a date"
    lack = "warning: record 1: t: UnknownName: line 1, column 23: the data has no `titel`; did you mean `title`?"
    pages = "2026\n\nMay\n\nJune\n\n"
    lines = {"t": "{{ hi | upcase }}{% render 'p' %}", "p": "{{ 'now' | date: '%d' }}", "s.json": '{"hi": "a"}', "r": "{}\n" * 3}
    many = "".join(f"{{{{ a{n} | upcase }}}}" for n in range(25))
    first = tuple(f"warning: record 1: t: UnknownName: line 1, column {many.index(f'{{{{ a{n} ') + 1}: the data has no `a{n}`" for n in range(20))
    enough = "note: after 20 warnings no more are looked for"
    long = {"t": f"{'x' * 2097152}{{{{ day | date: '%Y' }}}}", "r": '{"day": "2026-01-02 00:00:00 +0000"}\n{"day": "May"}\n{"day": "May"}\n'}
    return [
        case("each place of a merge once", "merge t r.csv", table, pages, (lack, dated, DATES, "pages 3, failed 0")),
        case("a merge, quietly", "merge t r.csv -q", table, pages),
        {**case("a merge into files", "merge t r.csv -o '{{ title }}'", table, "", (lack, dated, DATES, "pages 3, failed 0")), "left": {"A": "2026\n", "B": "May\n", "C": "June\n"}},
        case("a merge that writes nothing", "merge t r.csv -o '{{ title }}' --dry-run", table, "A\nB\nC\n", (lack, dated, DATES, "pages 3, failed 0")),
        case("a merge over shared data, with a partial", "merge t r -d s.json -p p=p", lines, "Anow\n" * 3, ("warning: record 1: p: NoClock: line 1, column 1: ", "pages 3, failed 0")),
        case("a record without a page", "merge t r", {"t": "{{ a | upcase }}{{ b }}", "r": "{}\n{\"b\": 1}\n"}, "1\n", ("error: record 1: UnknownVariable: ", MISSING, "warning: record 2: t: UnknownName: line 1, column 1: the data has no `a`", "pages 1, failed 1"), 1),
        case("more warnings of a merge than are printed", "merge t r", {"t": many, "r": "{}\n{}\n"}, "\n\n", (*first, enough, "pages 2, failed 0")),
        case("a merge of long templates", "merge t r -o 'f{{ day | size }}' --dry-run", long, "f25\nf3\n", ("note: no warnings are looked for from record 2 on", "error: record 3: the file `f3` is that of record 2", "pages 2, failed 1"), 1),
    ]
