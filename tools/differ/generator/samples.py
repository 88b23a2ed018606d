"""What sources and data are made of: names, texts and numbers, many at the edge of a rule."""

NAMES = ("a", "b", "c", "n", "s", "t", "l", "m", "x", "y", "items", "user", "page-title", "_u", "w1")
# words that tags and paths use, as names of variables
ODD_NAMES = (
    "in", "with", "as", "or", "and", "contains", "limit", "offset", "reversed", "cols", "for", "if", "else", "forloop", "tablerow", "size",
    "first", "include", "true1", "nil-", "Nil", "emptyx", "endif",
)
MISSING = ("nope", "lost", "gone.far", "a.b.c.d", "nope[0]")
KEYS = ("a", "b", "c", "k", "title", "price", "size", "first", "last", "0", "1", "-1", "true", "a b", "é", "", "tags", "A", "a-b")
PROPERTIES = ("a", "b", "k", "title", "price", "size", "a.b", "", "0")
TEXTS = (
    "", "a", "b", "ab", "aba", "abc", "B", "Zed", "Hello World", " a b ", "  ", "é!", "ünï", "Éa", "a,b,c", ",", "a, b, ,c", "a-b", "-", "--A b--",
    "it's", 'say "hi"', "one two three", "a  b", "line\nbreak", "a\r\nb", "tab\tx", "\u00a0x\u2003", "日本語", "A_b/c~D.txt", "size", "first", "last",
    "Ground control to Major Tom.", "The quick brown fox jumps over the lazy dog and runs on and on.", "e\u0301x", "🇩🇪🇫🇷z", "👩‍👩‍👧x", "ß",
    "true", "nil", "x" * 70, "aaaa", "raw", "ascii", "pretty", "none", "latin", "default", "and", "...", " ", "\n", "{{ a }}", "a}}", "%}",
)
DIGITS = ("0", "1", "2", "-1", "-12", "+5", "007", "-0", "+-1", " 1", "1 ", "9223372036854775807", "-9223372036854775808", "00000000000000000000000012")
DECIMALS = (
    "2.5", "-0.5", "0.5", "-2.5", "1.49999999999999999999", "+3.0", "-0.0", "00.50", "9223372036854775808", "9223372036854775807.5", "9223372036854775807.4",
    "-9223372036854775808.5", "-9223372036854775809", "1e5", ".5", "5.", "1.2.3", "0x1F", "1_000", "-", "+", "٣",
)
MARKUP = (
    "<b>x</b>", "<script>a</script>b", "<SCRIPT x>a</scripT>b<p>", "<style>s</style>t", "<!-- x -->y", "<!--->y-->z", "<<a>b>c", "a<b", "a>b<c", "<ſcript>x</script>y",
    "&lt;&", "&amp;amp;", "&#39;&quot;&gt;&xyz;", "a&b<c>'d'\"e\"", "<br />\n", "<\n>", "<script>x", "<style><script></style>a</script>b", "<!--<b>-->c>", "é<é>é",
)
ESCAPED = ("a+b%2Bc", "%ff", "%C3%A9", "%c3%a9", "100%", "%2", "%%41", "a b/c?d=é~", "%E2%82", "%zz", "+", "-._~", "%00")
DATES = (
    "13 Jun 2016 02:30:00 +0300", "1 Jan 2015 00:00:00 +0000", "01 Jan 2015 00:00:00 -0000", "2016-02-29 23:59:59 -0130", "31 Feb 2016 00:00:00 +0000",
    "2015-02-29 00:00:00 +0000", "31 Dec 2018 23:00:00 -2300", "2020-12-31 12:00:00 +2359", "2020-12-31 24:00:00 +0000", "2020-12-31 12:00:60 +0000",
    "2020-1-1 12:00:00 +0000", "2020-01-01 12:00:00 +2400", "2020-01-01 12:00:00", "now", "today", "13 jun 2016 02:30:00 +0300", "2020-01-01  12:00:00 +0000",
    "5 Mar 2024 13:05:09 +0545", "2020-01-01 12:00:00 +0060", "0 Jan 2015 00:00:00 +0000", "013 Jun 2016 02:30:00 +0300", "0001-01-01 00:00:00 +0000",
    "1 Jan 0001 00:30:00 +2359", "31 Dec 9998 23:59:59 -2359", "0000-12-31 00:00:00 +0000", "9999-01-01 00:00:00 +0000", "0099-08-09 09:08:07 -0001", "7 Oct 0999 12:59:01 +1000",
    "1970-01-01 00:00:00 +0000", "31 Dec 1969 23:59:59 +0000", "1 Jan 2017 11:11:11 +0030", "2018-01-01 21:00:00 -0930", "3 Jan 2021 10:20:30 +0100", "30 Dec 2024 00:05:00 -0030",
    "1 May 1900 12:00:00 +0000", "2000-02-29 00:00:00 -0015",
)
PATTERNS = (
    "%Y-%m-%d", "%F %T", "%H:%M:%S %z", "%d.%m.%y", "%A %a %B %b", "%j %U %W %V %u %w", "%I %p", "%G %C %D %R", "", "%%", "plain", "%n%t", "%", "%Y %", "é %Y",
    "%i", "%J!",
)
NUMBERS = (0, 1, 2, 3, 4, 5, 7, 10, 12, -1, -2, -3, 100, 2**31 - 1, 2**31, 2**63 - 1, -(2**63), 23, -24)
SMALL = (0, 1, 2, 3, 4, 5, -1, -2)
HOURS = (*range(-23, 24), 23, -23, 24, 24, -24, -24, 100)
PIECES = (
    "a", "b ", " c", " ", "\n", " x\n", "\t", "é", "-", "<p>", "</p>", "}}", "%}", "{ ", "}", "% }", "'", '"', "text ", ", ", "}", "-}}", "日", "\r\n", "#",
)
PARTIAL_NAMES = ("p", "q", "r", "p.liquid", "a/b.liquid", "7", "true", "x y", "v", "empty")
# what a broken source may get at any place
JUNK = (
    "{{", "}}", "{%", "%}", "-%}", "-}}", "{%-", "{{-", "'", '"', "[", "]", "(", ")", "..", ".", "|", ":", ",", "=", "==", "<>", "!", "!=", "&", "$", "é", "empty", "blank",
    "nil", "nil.", "true[", "1.5", "1.", "1a", "9223372036854775808", "+", "-", "--", "+1", "-1", "a.1", "a.", "a .b", "a[0]", "a[", "(1..2)", "(a..b)", "(nil..2)", "(1 ..2)",
    "(1..", "1..2", " ", "\n", "x", "or", "and", "contains", "in", "with", "for", "as", "limit", "reversed", "| nosuch", "| first: 1", "| join", "| plus", "{% endif %}",
    "{% else %}", "{% elsif a %}", "{% when 1 %}", "{% endfor %}", "{% if a %}", "{% for i in a %}", "{% raw %}", "{% endraw %}", "{% comment %}", "{% endcomment %}",
    "{% case a %}", "{% endcase %}", "{% nosuch %}", "{% %}", "{{ }}", "{% break %}", "{% unless a %}", "{% endunless %}", "{% capture c %}", "{% tablerow", "{% raw x %}",
    "{% ifchanged x %}", "{% else x %}", "{% endif x %}", "_", "a-", "#", "\u00a0", "\x0b", "{% 1 %}", "{% = %}", "{% 'a' %}", "{% 1.5 %}", "{% empty %}", "{% nil %}",
)
