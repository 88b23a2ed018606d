"""The cases of long data and long records of which `bikleinu render` and `merge` read what the template uses, for tests/bikleinu/run: what
is printed is as over the whole data."""
import json

from entries import Link
from word_cases import DECIMALS, MISSING

# members that no template here uses
REST = {f"rest{n}": [n, "text " * 9, {"deep": [None, True, -n]}] for n in range(400)}


def long(**members):
    """Data of some 40,000 bytes, with these members."""
    half = dict(list(REST.items())[:200])
    return json.dumps({**half, **members, **REST})


PRODUCTS = [{"title": f"tea {n}", "price": n, "tags": ["a", "b"], "maker": {"town": "Oslo"}} for n in range(60)]
SHOP = long(town="Oslo", owner={"name": "Ada", "age": 40}, products=PRODUCTS)
# a fault in a member that no template here uses
BAD = long(town="Oslo", part=1.5)


# what converters made of a text
CONVERSIONS = {"markdownify": {"*a*": "<p><em>a</em></p>"}, "smartify": {"*a*": "*a*"}}


def case(title, template, words="d", data=SHOP, out="", errors=(), status=None, **files):
    """The page of a template over `d`, and the files that stand beside it."""
    return {"title": title, "words": f"render t {words}", "files": {"t": template, "d": data, **files}, "out": out, "errors": errors, "status": bool(errors) if status is None else status}


def record(**members):
    """A record of some 1,000 bytes with these members among others, on a line."""
    rest = list(REST.items())
    return json.dumps({**dict(rest[:7]), **members, **dict(rest[7:14])}) + "\n"


ADA, BO = record(id=1, name="Ada", town="Oslo"), record(id=2, name="Bo", town="Rome")


def merge(title, template, records=ADA + BO, words="", pages=2, failed=0, errors=(), out="", **files):
    """The pages of records by a template, with `d` as their shared data where it is long."""
    given = {"t": template, "r": records, "d": SHOP, **files}
    return {"title": title, "words": f"merge t r {words}", "files": given, "out": out, "errors": (*errors, f"pages {pages}, failed {failed}"), "status": bool(failed), "left": LEFT if "-o" in words and "--dry" not in words else {}}


LEFT = {"Oslo-1": "Ada", "Rome-2": "Bo"}
NAMES = "-o '{{ town }}-{{ id }}'"


def record_cases():
    unknown = "UnknownVariable: line 1, column 4: "
    return [
        merge("of long records a member", "{{ name }}", out="Ada\nBo\n"),
        merge("of long records in a list a member", "{{ name }}", f"[{ADA},{BO}]", out="Ada\nBo\n"),
        merge("of long records a member, and others in the names of files", "{{ name }}", words=NAMES),
        merge("the names of files of long records", "{{ name }}", words=f"{NAMES} --dry-run", out="Oslo-1\nRome-2\n"),
        merge("a long record before long shared data", "{{ town }} {{ owner.name }}", record(name="Cy") + BO, "-d d", out="Oslo Ada\nRome Ada\n"),
        merge("a short record before long shared data", "{{ town }} {{ products.last.price }}", '{}\n{"town": null}\n', "-d d", out="Oslo 59\n 59\n"),
        merge("a long record before shared data that are nil", "{{ town }}{% if rest1 %}!{% endif %}", record() + BO, "-d e", e='{"town": null}', out="!\nRome!\n"),
        merge("a member that the record replaces whole", "{{ owner.name }}{{ owner.age }}", record(owner={"name": "Cy"}), "-d d --missing nil", pages=1, out="Cy\n"),
        merge("a page in a partial over long records", "{% include 'p' %}", words="-p p=f", f="{{ name }} {{ rest3[0] }}", out="Ada 3\nBo 3\n"),
        merge("a name of a file by a partial", "{% if id == 0 %}{% include 'p' %}{% endif %}{{ name }}", words="-p p=f -o \"{% include 'p' %}-{{ id }}\"", f="{{ town }}"),
        merge("a name that is similar to one of a record that isn't used", "{{ nome }}", pages=0, failed=2, errors=(f"error: record 1: {unknown}`nome` has no value; did you mean `name`?", MISSING, f"error: record 2: {unknown}`nome` has no value; did you mean `name`?")),
        merge("a name that is similar to one of the shared data that isn't used", "{% if id == 1 %}{{ owmer.name }}{% endif %}{{ owner.age }}", words="-d d", pages=1, failed=1, out="40\n", errors=("error: record 1: UnknownVariable: line 1, column 20: `owmer.name` has no value: there is no `owmer`; did you mean `owner`?", MISSING, "warning: record 2: t: UnknownName: line 1, column 17: the data has no `owmer`; did you mean `owner`?")),
        merge("a member that is similar to one of a record that isn't used", "{{ who.nome }}", record(who={"name": 1, "x": 2}) + record(who={"nome": 3}), pages=1, failed=1, out="3\n", errors=(f"error: record 1: {unknown}`who.nome` has no value: `who` has no `nome`; did you mean `name`?", MISSING)),
        merge("a name of a file that is similar to a member that isn't used", "{{ name }}", ADA, "-o '{{ towm }}' --dry-run", pages=0, failed=1, errors=(f"error: record 1: the name of its file: {unknown}`towm` has no value; did you mean `town`?",)),
        merge("a fault of a long record that isn't used", "{{ name }}", record(name="Cy", part=1.5) + BO, pages=1, failed=1, out="Bo\n", errors=("error: record 1: Float: in the data: line 1, column ", DECIMALS)),
        merge("a long record that isn't JSON after what is used", "{{ name }}", ADA[:-3] + "\n" + BO, pages=1, failed=1, out="Bo\n", errors=("error: record 1: InvalidInput: in the data: line 1, column ",)),
        merge("more text than is allowed of a long record", "{{ name }}{{ name }}", words="--max-bytes 4", pages=1, failed=1, out="BoBo\n", errors=("error: record 1: its page takes more than --max-bytes allows",)),
        merge("an address of a site in long shared data", "{{ '/x' | absolute_url }}{{ site.title }}", words="-d e --filters jekyll", e=long(site={"url": "http://x.org", "title": "!"}), out="http://x.org/x!\nhttp://x.org/x!\n"),
        merge("a format of money in long shared data", "{{ id | money }}", words="-d e --filters shopify", e=long(shop={"money_format": "{{amount}} EUR"}), out="0.01 EUR\n0.02 EUR\n"),
    ]


def used_cases():
    return record_cases() + [
        case("of long data a member", "{{ town }}", out="Oslo"),
        case("of long data the first items", "{% for p in products limit:2 %}{{ p.title }},{% endfor %}", out="tea 0,tea 1,"),
        case("of long data a member of all items", "{% for p in products %}{{ p.price }} {% endfor %}", out="".join(f"{n} " for n in range(60))),
        case("of long data a map whole", "{{ owner }} {{ owner.size }}", out="age40nameAda 2", errors=("warning: t: WholeMap: line 1, column 1: ",), status=0),
        case("of long data the last item", "{{ products.last.maker.town }} {{ products[1].title }}", out="Oslo tea 1"),
        case("of long data in a partial", "{% render 'f', p: owner %}", "d -p f=f", f="{{ p.name }}", out="Ada"),
        case("of long data what is missing is nil", "{{ towns }}{{ owner.names }}{% if rest1 %}!{% endif %}", "d --missing nil", out="!", errors=("warning: t: AlwaysTrue: line 1, column 29: `rest1` is an empty list in the data",), status=0),
        case("a name that is similar to one of long data that isn't used", "a{{ towm }}", out="a", errors=("error: t: UnknownVariable: line 1, column 5: `towm` has no value; did you mean `town`?", MISSING)),
        case("a member that is similar to one that isn't used", "{{ owner.ages }}", errors=("error: t: UnknownVariable: line 1, column 4: `owner.ages` has no value: `owner` has no `ages`; did you mean `age`?", MISSING)),
        case("a fault of long data into a file", "{{ towm }}", "d -o p", errors=("error: t: UnknownVariable: line 1, column 4: `towm` has no value; did you mean `town`?", MISSING)),
        case("more text than is allowed of long data", "ab{{ town }}", "d --max-bytes 5", out="ab", errors=("error: t: the page takes more than --max-bytes allows, 5",)),
        case("a fault of long data that isn't used", "{{ town }}", data=BAD, errors=("error: d: Float: in the data: line 1, column ", DECIMALS)),
        case("long data that isn't JSON after what is used", "{{ town }}", data=SHOP[:-2], errors=("error: d: InvalidInput: in the data: line 1, column ",)),
        case("long data that is no object", "{{ town }}", data=f"[{SHOP}]", errors=("error: d: InvalidInput: in the data",)),
        case("long data under a name", "{{ shop.town }} {{ shop.owner.name }}", "-d shop=d", out="Oslo Ada"),
        case("the number of members under a name", "{{ shop.size }}", "-d shop=d", out="403"),
        case("a loop over the members under a name", "{% for m in shop limit:1 %}{{ m[0] }} {{ m[1].name }}{% endfor %}", "-d shop=d", out="owner Ada"),
        case("a computed member under a name", "{% assign x = 'town' %}{{ shop[x] }}", "-d shop=d", out="Oslo"),
        case("long data under a name that isn't used", "{{ town }}", "e -d shop=d", e='{"town": "Rome"}', out="Rome"),
        case("a fault of long data under a name that isn't used", "{{ town }}", "e -d shop=d", data=BAD, e='{"town": "Rome"}', errors=("error: d: Float: in the data: line 1, column ", DECIMALS)),
        case("a member under a name that is similar to one that isn't used", "{{ shop.towm }}", "-d shop=d", errors=("error: t: UnknownVariable: line 1, column 4: `shop.towm` has no value: `shop` has no `towm`; did you mean `town`?", MISSING)),
        case("the later of two files of long data", "{{ town }} {{ owner.name }}", "d -d e", e=long(town="Rome"), out="Rome Ada"),
        case("a later member replaces the whole earlier one", "{{ owner.age }}", "d -d e", e=long(owner={"name": "Bo"}), errors=("error: t: UnknownVariable: line 1, column 4: `owner.age` has no value: `owner` has no `age`; it has `name`", MISSING)),
        case("the later of two files under a name", "{{ shop.town }}", "-d shop=d -d shop=e", e=long(town="Rome"), out="Rome", errors=("note: d: a later -d gives `shop`, and replaces all of this",), status=0),
        case("TOML beside long data", "{{ town }} {{ owner.name }}", "d -d e.toml", **{"e.toml": 'town = "Rome"'}, out="Rome Ada"),
        case("long data with decimals", "{{ town }}", "d --decimals text", data=BAD, out="Oslo"),
        case("a time beside long data", "{{ now | date: '%Y' }} {{ town }}", "d --now 2026-11-27", out="2026 Oslo"),
        case("no time beside long data", "{{ town }}", "d --now never", errors=("error: --now wants a day or an instant",), status=2),
        case("an address of a site in long data", "{{ '/x' | absolute_url }}", "d --filters jekyll", data=long(site={"url": "http://x.org"}), out="http://x.org/x"),
        case("the base of a site in long data, and another member", "{{ '/x' | relative_url }} {{ site.pages.last }}", "d --filters jekyll", data=long(site={"baseurl": "/b", "pages": [1, 2]}), out="/b/x 2"),
        case("a site that isn't used but for its address", "{{ '/x' | absolute_url }}{% for i in list %}{{ i.a }}{% endfor %}", "d --filters jekyll", data=long(site={"pages": [1]}, list=[{"a": 1}]), out="/x1"),
        case("a site that is no map in long data", "{{ '/x' | absolute_url }}", "d --filters jekyll", data=long(site=["http://x.org"]), out="/x"),
        case("a text that a converter of the data knows", "{{ t | markdownify }}{{ t | smartify }}", "d --filters jekyll", data=long(t="*a*", conversions=CONVERSIONS), out="<p><em>a</em></p>*a*"),
        case("a text that no converter knows", "{{ t | markdownify }}", "d --filters jekyll", data=long(t="b", conversions=CONVERSIONS), errors=("error: t: InvalidInput: line 1, column 8: `markdownify`: the input must be a text that `conversions.markdownify` of the data has, not the text `b`",)),
        case("data without conversions", "{{ t | smartify }}", "d --filters jekyll", data=long(t=5), errors=("error: t: InvalidInput: line 1, column 8: `smartify`: the input must be a text that `conversions.smartify` of the data has, not a number",)),
        case("the text of a plugin in long data", "{% seo title=false %}{% seo %}", "d --filters jekyll", data=long(seo_tag="<title>Tea</title>"), out="<title>Tea</title><title>Tea</title>"),
        case("data without the text of a plugin", "{% seo %}", "d --filters jekyll", errors=("error: t: InvalidArgument: line 1, column 1: `seo`: the argument must be `seo_tag` of the data, the text that jekyll-seo-tag writes for the page, not nil",)),
        case("a partial of the page's folder", "{% include_relative parts/a.md of=town %}", "d --filters jekyll -p parts/a.md=parts/a.md", **{"parts/a.md": "in {{ include.of }}"}, out="in Oslo"),
        case("a condition over items of long data", "{% assign p = products | where_exp: 'p', 'p.price > 57' %}{{ p | map: 'title' | join }}", "d --filters jekyll", out="tea 58 tea 59"),
        case("a name that is similar to one of long data, with a set", "{{ towm }}", "d --filters shopify", errors=("error: t: UnknownVariable: line 1, column 4: `towm` has no value; did you mean `town`?", MISSING)),
        case("tags of a page in long data", "{{ 'a' | link_to_add_tag: 'a' }}", "d --filters shopify", data=long(collection={"handle": "teas", "x": 1}, current_tags=["b", 1, "c"]), out='<a title="Show tag a" href="/collections/teas/b+c+a">a</a>'),
        case("sums of long data", "{{ '0.1' | decimal_plus: x }}", "d --filters decimals", data=long(x="0.2"), out="0.3"),
        case("a format of money in long data", "{{ 5 | money }}", "d --filters shopify", data=long(shop={"money_format": "{{amount}} EUR"}), out="0.05 EUR"),
        # which fault comes first
        case("a fault of the data before a file that isn't there", "{{ town }}", "d -d u", data=BAD, errors=("error: d: Float: in the data: line 1, column ", DECIMALS)),
        case("a file that isn't there before a fault of the data", "{{ town }}", "e -d u -d d", data=BAD, e="{}", errors=("error: u: No such file or directory",)),
        case("a fault of the data before what is left out", "{{ town }}", "d -p parts", data=BAD, **{"parts/a": Link("nowhere")}, errors=("error: d: Float: in the data: line 1, column ", DECIMALS)),
        case("a fault of the data before a folder that isn't there", "{{ town }}", "d -p parts", data=BAD, errors=("error: d: Float: in the data: line 1, column ", DECIMALS)),
        case("no time before a folder that isn't there", "{{ town }}", "d -p parts --now never", errors=("error: --now wants a day or an instant",), status=2),
        case("what is left out before a fault of the page", "{{ towm }}", "d -p parts", **{"parts/a": Link("nowhere")}, errors=("left out: parts/a ", "error: t: UnknownVariable: line 1, column 4: `towm` has no value; did you mean `town`?", MISSING)),
        case("what is left out before a folder that isn't there", "{{ town }}", "d -p parts -p others", **{"parts/a": Link("nowhere")}, errors=("left out: parts/a ", "error: others: No such file or directory")),
    ]
