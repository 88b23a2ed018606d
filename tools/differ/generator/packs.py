"""The filters of hosts: what each takes, and what the data says of the site or the shop."""
from . import samples
from .expressions import ARGUMENTS, FILTERS, Filters

PATHS = ("a b", "/a/b", "", "/", "//", "a/./../b", "http://y/z", "x:y", "1a:b", "a?b=c&d=é", "#f", "%41", "%4", "%zz", "a%20b", "mailto:x@y", "HTTP://A", "é/日", "[x]", "a\\b", "^`{|}", "b/", " a ", "a+b:c", "-x:y", "a.b:c", "\t", "a;b,c", "~*'()!$@")
CONDITIONS = (
    "item.price > 1", "item.a == 'a'", "item.title contains 'a'", "item", "item.k", "item.a == nil", "item.a or item.b and item.k", "item.price <= 3 and item.title != 'x'",
    "other == nil", "item.size > 1", "item contains 'a'", "item ==", "", "item.a = 1", "item.a | size", "(1..2)", "item.a == 1.5", "item %}", "not item", "item[other]", "item['a'] < item.b",
    "item.author.name == 'a'", "item.tags contains 'a'", "item.tags contains item.title", "item.author.name contains 'a' or item.price > 1", "item.tags.first == nil", "x > 1", "x.a == x.b", "item == 'a' or", "true", "nil", "item.a == empty", "  item.a  ", "item.a,item.b", "item and\nitem.b", "'", "item.first == 1", "item[0] > 0",
)
MARKUPS = ("ruby", "ruby", "c++ linenos", "Html+Erb linenos=table", "c# a=\"1 2\"", "ruby a=\"1  2\"", "ruby, b", "a\nb\tc=d", "a=b", "é", "", "{{ a }}", "ruby a = b", "a-b_c.d  e", "ruby \"1\"")
DIGESTED = ("md5", "sha1", "sha256")
MORE_ARGUMENTS = {
    "dotted": (*samples.PROPERTIES, "title", "tags", "author", "author.name", "author.name.x", "tags.0", "a.b", "a.k", ".", "a.", "k.title", "nope"),
    "path": ("a", "a.b", "a[0]", "a['k']", "title.size", "price", "a-b", "a b", "", ".a", "a.", "a[", "a[b]", "a[-1].k", 'a["b c"]', "nil", "true.a", "a.1", "a[ 0 ]", "empty", "é", "a[99999999999999999999]", "a[+1]", "_u"),
    "nils": ("first", "last", "last", "First", "", "none"),
    "style": ("ordinal", "ordinal", "other", ""),
    "country": ("US", "US", "UK", ""),
    "variable": ("item", "item", "item", "x", "", "i t"),
    "conditional": CONDITIONS,
    "code": MARKUPS,
    "form": ("cart", "contact", "customer", "create_customer", "customer_login", "recover_customer_password", "storefront_password", "product", "product", "new_comment", "localization", "", "Cart"),
    "image": ("small", "grande", "large", "medium", "compact", "thumb", "icon", "original", "Small", "", "1x1"),
}
JEKYLL = {
    "relative_url": ("address", [], "text"),
    "absolute_url": ("address", [], "text"),
    "uri_escape": ("address", [], "text"),
    "cgi_escape": ("address", [], "text"),
    "date_to_string": ("date", ["style?", "country?"], "text"),
    "date_to_long_string": ("date", ["style?", "country?"], "text"),
    "date_to_xmlschema": ("date", [], "text"),
    "date_to_rfc822": ("date", [], "text"),
    "xml_escape": ("markup", [], "text"),
    "normalize_whitespace": ("text", [], "text"),
    "number_of_words": ("text", [], "number"),
    "to_integer": ("decimal", [], "number"),
    "jsonify": ("any", [], "text"),
    "array_to_sentence_string": ("list", ["text?"], "text"),
    "where": ("maps", ["dotted", "any"], "maps"),
    "find": ("maps", ["dotted", "any"], "map"),
    "group_by": ("maps", ["dotted"], "maps"),
    "where_exp": ("maps", ["variable", "conditional"], "maps"),
    "highlight": ("text", ["code"], "text"),
    "sort": ("maps", ["path?", "nils?"], "list"),
}
SHOPIFY = {
    "money": ("number", [], "text"),
    "money_with_currency": ("number", [], "text"),
    "money_without_currency": ("number", [], "text"),
    "money_without_trailing_zeros": ("number", [], "text"),
    "asset_url": ("text", [], "text"),
    "global_asset_url": ("text", [], "text"),
    "shopify_asset_url": ("text", [], "text"),
    "url_for_vendor": ("text", [], "text"),
    "url_for_type": ("text", [], "text"),
    "product_img_url": ("picture", ["image?"], "text"),
    "within": ("text", ["map"], "text"),
    "link_to": ("text", ["text", "text?"], "text"),
    "link_to_vendor": ("any", [], "text"),
    "link_to_type": ("text", [], "text"),
    "link_to_tag": ("text", ["tag"], "text"),
    "link_to_add_tag": ("text", ["tag"], "text"),
    "link_to_remove_tag": ("text", ["tag"], "text"),
    "highlight_active_tag": ("tag", ["text?"], "text"),
    "img_tag": ("text", ["text?"], "text"),
    "script_tag": ("text", [], "text"),
    "stylesheet_tag": ("text", ["text?"], "text"),
    "handle": ("text", [], "text"),
    "handleize": ("text", [], "text"),
    "camelize": ("text", [], "text"),
    "squish": ("text", [], "text"),
    "replace_last": ("text", ["text", "text"], "text"),
    "remove_last": ("text", ["text"], "text"),
    "base64_encode": ("text", [], "text"),
    "base64_decode": ("base64", [], "text"),
    **{name: ("text", [], "text") for name in DIGESTED},
    "hmac_sha256": ("text", ["text"], "text"),
    "json": ("any", [], "text"),
    "reject": ("maps", ["property", "any?"], "maps"),
    "find": ("maps", ["property", "any?"], "map"),
    "find_index": ("maps", ["property", "any?"], "number"),
    "has": ("maps", ["property", "any?"], "truth"),
    "sum": ("numbers", ["property?"], "number"),
    "weight_with_unit": ("number", [], "text"),
    "default_pagination": ("map", [], "text"),
    "form": ("text", ["form", "map?"], "text"),
    "section": ("map", ["text"], "text"),
    "style": ("text", [], "text"),
}
INPUTS = {
    "address": PATHS,
    "picture": ("products/tea.jpg", "products/a-b_c.jpeg?x=1", "products/x.j", "products/x.abcde", "/products/x.png", "products/é.jpg", "products/x_small.gif.png", "products/.jpg", "x products/tea.jpg", ""),
    "tag": ("new", "green", "a b", "", "Green", "x+y"),
    "base64": ("", "YQ==", "YWI=", "YWJj", "YQ", "YQ=", "Y Q==", "/w==", "w6k=", "YR==", "YWJj\n", "____", "=", "AAAA"),
}
ARGUMENTS.update(MORE_ARGUMENTS, **INPUTS)
FORMATS = (
    "{{amount}} kr", "${{ amount }}", "{{amount_no_decimals}}", "{{ amount_with_comma_separator }} €", "x{{amount_no_decimals_with_comma_separator}}y", "{{amount_with_apostrophe_separator}}",
    "{{amount_no_decimals_with_space_separator}}", "{{amount_with_space_separator}}", "{{amount_with_period_and_space_separator}}", "plain", "", "{{nope}}", "{{amount", "{{amount}}{{amount}}",
    "{{  amount}}", "{{ Amount }}", "{amount}", "{{amount }} {{nope}}", "{{nope}} {{amount}}", "{{{amount}}}", "{{}}", "<b>{{amount}}</b>",
)


def jekyll_data(rng):
    """What the data says of a site, or doesn't."""
    if rng.random() < 0.2:
        return {"site": rng.choice((None, 1, "x", [], {}))} if rng.random() < 0.3 else {}
    urls, bases = ("http://x.org", "", "https://a.b/c", "http://x.org/", "//h", "x y", 1, None), ("/blog", "", "/", "blog", "/a/b/", "/a b", "é", 2, None)
    return {"site": {"url": rng.choice(urls), "baseurl": rng.choice(bases), "posts": posts(rng), **parts_of_site(rng)}}


def parts_of_site(rng):
    """What Jekyll's tags look at, or some of it."""
    paths = ("about.md", "/about.md", "_posts/2020-01-31-tea.md", "a/_posts/2020-01-31-tea.html", "_posts/a/2020-01-31-tea.md", "2020-01-31-tea", "", 5, None)
    pages = [{"path": rng.choice(paths), "relative_path": rng.choice((*paths, None)), "url": rng.choice(("/a b", "http://x.org/é", "", "a", None, 5))} for _ in range(4)]
    titles = ("Tea", "a & b", "\"'<", "", False, 5, None, ["a"])
    parts = {"pages": pages[:1], "static_files": pages[1:2], "documents": pages, "title": rng.choice(titles), "name": rng.choice(titles), "feed": {"path": rng.choice(("f.xml", "", None))}}
    return {name: held if rng.random() < 0.9 else rng.choice((None, 1, "x", [1, "a"], {})) for name, held in parts.items() if rng.random() < 0.8}


def posts(rng):
    """Maps whose members are lists and maps too, or are missing."""
    tags = (["a", "b"], [None, "a"], [["a"], {"a": 1}], [], "a", [1, True], ["", None], None)
    authors = ({"name": "a"}, {"name": ["a", "b"]}, {"name": None}, {}, "a", ["a"], 5)
    members = {"title": ("a", "b", "007", "7", 7), "tags": tags, "author": authors, "price": (1, 2, "2", None, -1)}
    return [{key: rng.choice(held) for key, held in members.items() if rng.random() < 0.8} for _ in range(rng.choice((0, 1, 2, 3)))]


def shopify_data(rng):
    """What the data says of a shop and of the page, or doesn't."""
    data = {}
    if rng.random() < 0.8:
        shop = {"money_format": rng.choice(FORMATS), "money_with_currency_format": rng.choice(FORMATS)}
        data["shop"] = {name: held for name, held in shop.items() if rng.random() < 0.8} if rng.random() < 0.95 else "shop"
    if rng.random() < 0.7:
        data["collection"] = rng.choice(({"handle": "tea"}, {"handle": "a b"}, {"handle": 5}, {}, "tea", None))
    if rng.random() < 0.7:
        data["current_tags"] = rng.choice((["new", "green"], ["new"], [], ["a b", "new", "a b"], ["x+y", 1, None], "new", None, ["Green", ""]))
    if rng.random() < 0.7:
        data["sections"] = rng.choice(({"header": "<h1>"}, {"header": "", "footer": "f"}, {"header": 5, "5": "five"}, [], None))
    if rng.random() < 0.7:
        data["product"] = rng.choice(({"id": 5, "url": "/p"}, {"id": None}, {"url": "/é"}, {}, "p", None))
    if rng.random() < 0.7:
        data["paginate"] = paginated(rng)
    return data


def paginated(rng):
    """The object of a block `paginate`, or something else."""
    page = lambda: rng.choice(({"title": 1, "url": "/1", "is_link": True}, {"title": "&hellip;", "is_link": False}, {"title": 2}, {"title": "3", "url": "/3"}, {}, "x", None))
    members = {"current_page": rng.choice((1, 2, "3", None)), "parts": [page() for _ in range(rng.choice((0, 1, 2, 5)))], "previous": page(), "next": page()}
    return {name: held for name, held in members.items() if rng.random() < 0.9} if rng.random() < 0.9 else rng.choice((None, [], "p"))


PACKS = {
    "jekyll": (Filters({**FILTERS, **JEKYLL}, list(JEKYLL), is_jekyll=True), jekyll_data),
    "shopify": (Filters({**FILTERS, **SHOPIFY}, list(SHOPIFY), is_shopify=True), shopify_data),
}
