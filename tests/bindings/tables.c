/* Pages with filters, tags and blocks of the caller's: which calls a table is said to lack, what becomes of the answers that are put into it, and which
 * calls can't be. Each rendering is made once more for each of its requests for memory, of which that one is refused: it then has to
 * answer BIKLEINU_MEMORY, or that calls are lacking, and called again what it answered at first. So are the calls that make a language
 * and a table, and that put answers into it. When all is freed, no memory may be left. A line tells each thing that isn't well, and
 * the last one "tables: N". */
#define _GNU_SOURCE
#include <stdio.h>
#include <stdlib.h>
#include <string.h>

#include "bikleinu.h"

extern void *__libc_malloc(size_t), *__libc_realloc(void *, size_t);
extern void __libc_free(void *);

static size_t requests, refused_at, blocks, tests, wrong;
static bool counts;

static bool is_refused(void) { return counts && ++requests == refused_at; }

void *malloc(size_t size) {
    void *made = is_refused() ? NULL : __libc_malloc(size);
    blocks += made != NULL;
    return made;
}

void *realloc(void *old, size_t size) {
    void *made = is_refused() ? NULL : __libc_realloc(old, size);
    blocks += !old && made;
    return made;
}

void free(void *old) {
    blocks -= old != NULL;
    __libc_free(old);
}

enum { ROOM = 4096 };

static const char two_filters[] = "{{ p | money: 'EUR' }} {{ n | shout | shout }} {{ p | money: 'EUR' }}";
static bikleinu_handle language, template_, data, partials, answers, page, answer;

static const uint8_t *bytes(const char *text) { return (const uint8_t *)text; }

static const char *read_part(bikleinu_handle *handle, uint32_t part) {
    static char text[ROOM];
    text[bikleinu_copy(handle, part, (uint8_t *)text, ROOM - 1)] = 0;
    return text;
}

static void is(const char *what, uint32_t found, uint32_t wanted) {
    tests++;
    if (found == wanted) return;
    wrong++;
    printf("%s: %u, not %u\n", what, (unsigned)found, (unsigned)wanted);
}

static void reads(const char *what, bikleinu_handle *handle, uint32_t part, const char *wanted) {
    const char *found = read_part(handle, part);
    tests++;
    if (!strcmp(found, wanted)) return;
    wrong++;
    printf("%s: %s, not %s\n", what, found, wanted);
}

static void begin(const char *source, const char *json) {
    is("language", bikleinu_language(&language), BIKLEINU_DONE);
    is("register money", bikleinu_register(&language, bytes("money"), 5, 0, 1), BIKLEINU_DONE);
    is("register shout", bikleinu_register(&language, bytes("shout"), 5, 0, 0), BIKLEINU_DONE);
    is("parse", bikleinu_parse(&language, bytes(source), strlen(source), &template_), BIKLEINU_DONE);
    is("data", bikleinu_data(bytes(json), strlen(json), &data), BIKLEINU_DONE);
    is("answers", bikleinu_answers(&answers), BIKLEINU_DONE);
    is("the filter money", bikleinu_answers_filter(&answers, bytes("money"), 5), BIKLEINU_DONE);
    is("the filter shout", bikleinu_answers_filter(&answers, bytes("shout"), 5), BIKLEINU_DONE);
}

static void end(void) {
    bikleinu_free(&language), bikleinu_free(&template_), bikleinu_free(&data), bikleinu_free(&partials);
    bikleinu_free(&answers), bikleinu_free(&page), bikleinu_free(&answer);
}

static bikleinu_limits limits = {.bytes = BIKLEINU_ANY, .turns = BIKLEINU_ANY};

static uint32_t render(void) { return bikleinu_render_with(&template_, &data, &partials, 32, &limits, &answers, &page); }

/* The rendering, then with each of its requests refused, and what it leaves. */
static void renders(uint32_t wanted, uint32_t part, const char *text) {
    requests = refused_at = 0, counts = true;
    uint32_t found = render();
    counts = false;
    is("render", found, wanted);
    reads("page", &page, part, text);
    for (size_t at = 1, most = requests; at <= most; at++) {
        requests = 0, refused_at = at, counts = true;
        found = render();
        counts = false;
        if (requests < at) break;
        if (found != BIKLEINU_MEMORY && !(found == wanted && wanted == BIKLEINU_LACKING)) is("a refused request", found, BIKLEINU_MEMORY);
    }
    is("render again", render(), wanted);
    reads("page again", &page, part, text);
}

static void answers_by(size_t number, const char *json) {
    is("the answer", bikleinu_data(bytes(json), strlen(json), &answer), BIKLEINU_DONE);
    is("answer", bikleinu_answer(&answers, &page, number, &answer), BIKLEINU_DONE);
}

/* A page by answers: in two rounds, as one filter stands over another. */
static void of_rounds(void) {
    begin(two_filters, "{\"p\":1999,\"n\":\"a\"}");
    renders(BIKLEINU_LACKING, BIKLEINU_TEXT, "[[\"money\",1999,\"EUR\"],[\"shout\",null],[\"shout\",\"a\"]]");
    is("calls", (uint32_t)bikleinu_calls(&page), 3);
    answers_by(0, "{\"answer\":\"19.99 EUR\"}"), answers_by(1, "{}"), answers_by(2, "{\"answer\":\"A\"}");
    renders(BIKLEINU_LACKING, BIKLEINU_TEXT, "[[\"shout\",\"A\"]]");
    answers_by(0, "{\"answer\":[\"A\",\"!\"]}");
    renders(BIKLEINU_DONE, BIKLEINU_TEXT, "19.99 EUR A! 19.99 EUR");
    is("no calls", (uint32_t)bikleinu_calls(&page), 0);
    end();
}

/* A page that ends by a fault of the caller's, and the same answered anew. */
static void of_faults(void) {
    begin("a{{ p | money }}b", "{\"p\":{\"x\":[true,null,-1]}}");
    renders(BIKLEINU_LACKING, BIKLEINU_TEXT, "[[\"money\",{\"x\":[true,null,-1]}]]");
    is("refuse", bikleinu_refuse(&answers, &page, 0, BIKLEINU_NUMBER_RANGE, bytes("too dear"), 8), BIKLEINU_DONE);
    bikleinu_handle calls = page;
    page = (bikleinu_handle)BIKLEINU_NONE;
    renders(BIKLEINU_NUMBER_RANGE, BIKLEINU_TEXT, "a");
    tests++;
    if (!strstr(read_part(&page, BIKLEINU_MESSAGE), "too dear")) wrong++, printf("message: %s\n", read_part(&page, BIKLEINU_MESSAGE));
    is("refuse by no kind", bikleinu_refuse(&answers, &calls, 0, 77, bytes("no"), 2), BIKLEINU_DONE);
    renders(BIKLEINU_INVALID_INPUT, BIKLEINU_TEXT, "a");
    is("an answer in its place", bikleinu_data(bytes("{\"answer\":7}"), 12, &answer), BIKLEINU_DONE);
    is("put", bikleinu_answer(&answers, &calls, 0, &answer), BIKLEINU_DONE);
    renders(BIKLEINU_DONE, BIKLEINU_TEXT, "a7b");
    bikleinu_free(&calls);
    end();
}

static uint32_t make_jekyll(void) { return bikleinu_jekyll_language(&language); }
static uint32_t register_money(void) { return bikleinu_register(&language, bytes("money"), 5, 0, 1); }
static uint32_t make_answers(void) { return bikleinu_answers(&answers); }
static uint32_t add_money(void) { return bikleinu_answers_filter(&answers, bytes("money"), 5); }
static uint32_t find_names(void) { return bikleinu_names(&template_, &partials, &answer); }
static uint32_t find_partial_names(void) { return bikleinu_partial_names(&template_, &answer); }
static uint32_t put_answer(void) { return bikleinu_answer(&answers, &page, 0, &data); }
static uint32_t put_fault(void) { return bikleinu_refuse(&answers, &page, 0, BIKLEINU_NUMBER_RANGE, bytes("too dear"), 8); }
static uint32_t read_names(void) { return strcmp(read_part(&answer, BIKLEINU_TEXT), "[\"p\",\"q\"]") != 0; }

/* A call with each of its requests refused, which changes nothing, and then as it is. */
static void each(const char *what, uint32_t (*call)(void)) {
    for (size_t at = 1;; at++) {
        requests = 0, refused_at = at, counts = true;
        uint32_t found = call();
        counts = false;
        is(what, found, requests < at ? BIKLEINU_DONE : BIKLEINU_MEMORY);
        if (requests < at || found == BIKLEINU_DONE) break;
    }
}

/* The calls before a page and between two rounds, with each of their requests refused. To read what a
 * call made takes no memory. */
static void of_memory(void) {
    static const char source[] = "{{ p | money }}{{ q }}";
    static const char json[] = "{\"p\":1,\"q\":2,\"answer\":\"x\"}";
    each("jekyll's language", make_jekyll);
    each("register", register_money), each("register again", register_money);
    is("parse", bikleinu_parse(&language, bytes(source), strlen(source), &template_), BIKLEINU_DONE);
    is("data", bikleinu_data(bytes(json), strlen(json), &data), BIKLEINU_DONE);
    each("names of partials", find_partial_names), each("names", find_names), each("what is read", read_names);
    is("requests of what is read", (uint32_t)requests, 0);
    each("answers", make_answers), each("a filter", add_money);
    renders(BIKLEINU_LACKING, BIKLEINU_TEXT, "[[\"money\",1]]");
    bikleinu_handle calls = page;
    page = (bikleinu_handle)BIKLEINU_NONE;
    renders(BIKLEINU_LACKING, BIKLEINU_TEXT, "[[\"money\",1]]");
    each("an answer", put_answer);
    renders(BIKLEINU_DONE, BIKLEINU_TEXT, "x2");
    bikleinu_free(&page);
    page = calls;
    each("a fault in its place", put_fault);
    renders(BIKLEINU_NUMBER_RANGE, BIKLEINU_TEXT, "");
    end();
}

/* Calls that can't be. */
static void of_refusals(void) {
    begin("{{ p | money }}", "{\"p\":1}");
    is("lacking", render(), BIKLEINU_LACKING);
    is("a number too far", bikleinu_answer(&answers, &page, 1, &data), BIKLEINU_NO_SUCH_CALL);
    is("no calls", bikleinu_answer(&answers, &data, 0, &data), BIKLEINU_OTHER_HANDLE);
    is("no data", bikleinu_answer(&answers, &page, 0, &template_), BIKLEINU_OTHER_HANDLE);
    is("no table", bikleinu_answer(&template_, &page, 0, &data), BIKLEINU_OTHER_HANDLE);
    is("no text", bikleinu_refuse(&answers, &page, 0, 2, bytes("\xff"), 1), BIKLEINU_NO_TEXT);
    is("no name", bikleinu_answers_filter(&answers, bytes("\xff"), 1), BIKLEINU_NO_TEXT);
    is("a filter for a template", bikleinu_answers_filter(&template_, bytes("a"), 1), BIKLEINU_OTHER_HANDLE);
    is("no name to register", bikleinu_register(&language, bytes("\xff"), 1, 0, 0), BIKLEINU_NO_TEXT);
    is("to register in data", bikleinu_register(&data, bytes("a"), 1, 0, 0), BIKLEINU_OTHER_HANDLE);
    is("nothing came of it", render(), BIKLEINU_LACKING);
    bikleinu_handle none = BIKLEINU_NONE;
    is("without a table", bikleinu_render_with(&template_, &data, &partials, 32, &limits, &none, &page), BIKLEINU_OTHER_HANDLE);
    is("a table without the filter", bikleinu_answers(&answers), BIKLEINU_DONE);
    renders(BIKLEINU_UNSUPPORTED, BIKLEINU_TEXT, "");
    is("with an argument too many", bikleinu_parse(&language, bytes("{{ 1 | shout: 2 }}"), 18, &page), BIKLEINU_FILTER_ARGUMENTS);
    end();
}

/* The bounds: a page of 1,500 calls takes two rounds, and of long ones fewer are listed at once. */
static void of_bounds(void) {
    begin("{% for i in (1..1500) %}{{ i | shout }}{% endfor %}", "{}");
    is("many", render(), BIKLEINU_LACKING);
    is("listed", (uint32_t)bikleinu_calls(&page), BIKLEINU_CALLS);
    is("the answer", bikleinu_data(bytes("{\"answer\":\"\"}"), 13, &answer), BIKLEINU_DONE);
    for (uint32_t at = 0; at < BIKLEINU_CALLS; at++)
        if (bikleinu_answer(&answers, &page, at, &answer)) is("answer", 1, 0);
    is("the rest", render(), BIKLEINU_LACKING);
    is("listed too", (uint32_t)bikleinu_calls(&page), 1500 - BIKLEINU_CALLS);
    for (uint32_t at = 0; at < 1500 - BIKLEINU_CALLS; at++)
        if (bikleinu_answer(&answers, &page, at, &answer)) is("answer", 1, 0);
    is("all", render(), BIKLEINU_DONE);
    end();
    begin("{% assign s = 'abcdefgh' %}{% for i in (1..15) %}{% assign s = s | append: s %}{% endfor %}"
          "{% for i in (1..20) %}{{ s | append: i | shout | size }}{% endfor %}", "{}");
    is("long", render(), BIKLEINU_LACKING);
    tests++;
    if (bikleinu_calls(&page) < 4 || bikleinu_calls(&page) > 5) wrong++, printf("long ones: %zu\n", bikleinu_calls(&page));
    tests++;
    size_t length = bikleinu_length(&page, BIKLEINU_TEXT), last = 262144 + strlen(",[\"shout\",\"10\"]");
    if (length > BIKLEINU_CALLS_BYTES + last) wrong++, printf("long ones of %zu bytes\n", length);
    end();
}

/* Limits beside a table: a page that one of them ended has its text up to there. */
static void of_limits(void) {
    begin("{% for i in (1..5) %}{{ 'a' | shout }}{% endfor %}", "{}");
    is("lacking", render(), BIKLEINU_LACKING);
    answers_by(0, "{\"answer\":\"A\"}");
    /* the loop takes a turn, and an output with a filter two; what a filter answers takes its bytes twice */
    limits = (bikleinu_limits){.bytes = BIKLEINU_ANY, .turns = 8};
    renders(BIKLEINU_TURNS_REACHED, BIKLEINU_TEXT, "AAA");
    limits = (bikleinu_limits){.bytes = 4, .turns = BIKLEINU_ANY};
    renders(BIKLEINU_BYTES_REACHED, BIKLEINU_TEXT, "AA");
    limits = (bikleinu_limits){.bytes = BIKLEINU_ANY};
    renders(BIKLEINU_TURNS_REACHED, BIKLEINU_TEXT, "");
    limits = (bikleinu_limits){.turns = BIKLEINU_ANY};
    renders(BIKLEINU_BYTES_REACHED, BIKLEINU_TEXT, "");
    limits = (bikleinu_limits){.bytes = BIKLEINU_ANY, .turns = BIKLEINU_ANY};
    end();
}

/* The names of partials that stand in a template. */
static void partials_named(const char *source, const char *wanted) {
    is("language", bikleinu_language(&language), BIKLEINU_DONE);
    is("parse", bikleinu_parse(&language, bytes(source), strlen(source), &template_), BIKLEINU_DONE);
    is(source, bikleinu_partial_names(&template_, &answer), BIKLEINU_DONE);
    reads(source, &answer, BIKLEINU_TEXT, wanted);
    end();
}

/* Jekyll's language, and the names of a template. */
static void of_languages(void) {
    static const char source[] = "{% include p a=b %}{{ xs | sort: 'k', 'first' | join: ',' }}";
    is("language", bikleinu_jekyll_language(&language), BIKLEINU_DONE);
    is("parse", bikleinu_parse(&language, bytes(source), strlen(source), &template_), BIKLEINU_DONE);
    is("partial", bikleinu_parse(&language, bytes("{{ include.a }}{{ z.y }}"), 24, &page), BIKLEINU_DONE);
    is("names", bikleinu_names(&template_, &partials, &answer), BIKLEINU_DONE);
    reads("names", &answer, BIKLEINU_TEXT, "[\"b\",\"include\",\"xs\"]");
    is("partials", bikleinu_partials(&partials), BIKLEINU_DONE);
    is("insert", bikleinu_insert(&partials, bytes("p"), 1, &page), BIKLEINU_DONE);
    is("names", bikleinu_names(&template_, &partials, &answer), BIKLEINU_DONE);
    reads("names", &answer, BIKLEINU_TEXT, "[\"b\",\"include\",\"xs\",\"z\"]");
    is("names of a language", bikleinu_names(&language, &partials, &answer), BIKLEINU_OTHER_HANDLE);
    is("names of partials", bikleinu_partial_names(&template_, &answer), BIKLEINU_DONE);
    reads("names of partials", &answer, BIKLEINU_TEXT, "[\"p\"]");
    is("names of partials of a language", bikleinu_partial_names(&language, &answer), BIKLEINU_OTHER_HANDLE);
    end();
    partials_named("{% include 'b' %}{% if x %}{% render 'a' %}{% endif %}{% render 'b' for x as y %}", "[\"a\",\"a.liquid\",\"b\",\"b.liquid\"]");
    partials_named("{% include 'b' %}{% render x %}", "null");
    partials_named("{{ x }}", "[]");
    is("standard", bikleinu_language(&language), BIKLEINU_DONE);
    is("in the standard language", bikleinu_parse(&language, bytes(source), strlen(source), &template_), BIKLEINU_EXPECTED);
    end();
}

/* A language that escapes, and handles that hold none. */
static void of_escaping(void) {
    static const char source[] = "{{ a }}{{ a | raw }}{% cycle a %}";
    is("language", bikleinu_language(&language), BIKLEINU_DONE);
    is("raw", bikleinu_parse(&language, bytes(source), strlen(source), &template_), BIKLEINU_UNKNOWN_FILTER);
    is("escape", bikleinu_escape_html(&language), BIKLEINU_DONE);
    is("parse", bikleinu_parse(&language, bytes(source), strlen(source), &template_), BIKLEINU_DONE);
    is("data", bikleinu_data(bytes("{\"a\":\"<\"}"), 9, &data), BIKLEINU_DONE);
    is("render", bikleinu_render(&template_, &data, &partials, 32, &page), BIKLEINU_DONE);
    reads("escaped", &page, BIKLEINU_TEXT, "&lt;<&lt;");
    is("in data", bikleinu_escape_html(&data), BIKLEINU_OTHER_HANDLE);
    is("share", bikleinu_share(&language, &answer), BIKLEINU_DONE);
    is("in what is shared", bikleinu_escape_html(&language), BIKLEINU_SHARED_HANDLE);
    end();
}

static uint32_t add_tag(const char *name, const char *filter, uint32_t style) {
    return bikleinu_register_tag(&language, bytes(name), strlen(name), bytes(filter), strlen(filter), style);
}
static uint32_t add_block(const char *name, const char *filter, uint32_t style) {
    return bikleinu_register_block(&language, bytes(name), strlen(name), bytes(filter), strlen(filter), style);
}
static uint32_t register_link(void) { return add_tag("link", "{% link %}", BIKLEINU_STYLE_TEXT); }
static uint32_t register_box(void) { return add_block("box", "{% box %}", BIKLEINU_STYLE_ITEMS); }
static uint32_t parse(const char *source) { return bikleinu_parse(&language, bytes(source), strlen(source), &template_); }

/* A language with a tag and a block, registered with each of the requests refused, and a table with their filters. */
static void begin_tags(const char *source, const char *json) {
    begin("", json);
    is("the filter of link", bikleinu_register(&language, bytes("{% link %}"), 10, 1, 1), BIKLEINU_DONE);
    is("the filter of box", bikleinu_register(&language, bytes("{% box %}"), 9, 0, 2), BIKLEINU_DONE);
    each("a tag", register_link), each("a block", register_box);
    is("link in the table", bikleinu_answers_filter(&answers, bytes("{% link %}"), 10), BIKLEINU_DONE);
    is("box in the table", bikleinu_answers_filter(&answers, bytes("{% box %}"), 9), BIKLEINU_DONE);
    is(source, parse(source), BIKLEINU_DONE);
}

/* A tag in a block: the tag's filter is given nil and its text, and that of the block the text of the body and its values. */
static void of_tags(void) {
    begin_tags("{% box 'a' n %}<{% link tea.md %}>{% endbox ignored %}.", "{\"n\":7}");
    renders(BIKLEINU_LACKING, BIKLEINU_TEXT, "[[\"{% box %}\",\"<>\",\"a\",7],[\"{% link %}\",null,\"tea.md\"]]");
    answers_by(0, "{}"), answers_by(1, "{\"answer\":\"/tea\"}");
    renders(BIKLEINU_LACKING, BIKLEINU_TEXT, "[[\"{% box %}\",\"</tea>\",\"a\",7]]");
    answers_by(0, "{\"answer\":\"Tea\"}");
    renders(BIKLEINU_DONE, BIKLEINU_TEXT, "Tea.");
    limits.levels = 1;
    is("a block is a level", render(), BIKLEINU_TOO_MANY_LEVELS);
    limits.levels = 0;
    end();
    begin_tags("a{% link tea.md %}b", "{}");
    renders(BIKLEINU_LACKING, BIKLEINU_TEXT, "[[\"{% link %}\",null,\"tea.md\"]]");
    is("refuse", bikleinu_refuse(&answers, &page, 0, BIKLEINU_INVALID_ARGUMENT, bytes("no tea"), 6), BIKLEINU_DONE);
    renders(BIKLEINU_INVALID_ARGUMENT, BIKLEINU_TEXT, "a");
    reads("the message", &page, BIKLEINU_MESSAGE, "`{% link %}`: no tea");
    size_t line = 0, column = 0;
    is("the place", bikleinu_location(&page, &line, &column), BIKLEINU_IN_TEMPLATE);
    is("the column", (uint32_t)column, 2);
    end();
}

/* A source that is refused, at a column, by a message that has these words. */
static void refuses(const char *source, uint32_t wanted, size_t at, const char *words) {
    size_t line = 0, column = 0;
    is(source, parse(source), wanted);
    is(source, bikleinu_location(&template_, &line, &column), BIKLEINU_IN_TEMPLATE);
    is("its column", (uint32_t)column, (uint32_t)at);
    tests++;
    if (!strstr(read_part(&template_, BIKLEINU_MESSAGE), words)) wrong++, printf("%s: %s\n", source, read_part(&template_, BIKLEINU_MESSAGE));
}

/* Tags that are refused in a source, and names and styles that no tag has. */
static void of_refused_tags(void) {
    begin_tags("{% link a b, c %}{% box 1 2 %}{% endbox %}", "{}");
    refuses("a{% box %}b", BIKLEINU_MISSING_END, 2, "endbox");
    refuses("{% link %}", BIKLEINU_FILTER_ARGUMENTS, 1, "link");
    refuses("{% box 1, 2, 3 %}{% endbox %}", BIKLEINU_FILTER_ARGUMENTS, 1, "box");
    refuses("{% link a", BIKLEINU_UNCLOSED, 1, "");
    refuses("{% boxes %}", BIKLEINU_UNKNOWN_TAG, 1, "boxes");
    refuses("{{ 1 | box }}", BIKLEINU_UNKNOWN_FILTER, 8, "box");
    is("a tag without its filter", add_tag("bare", "none", BIKLEINU_STYLE_ITEMS), BIKLEINU_DONE);
    refuses("{% bare %}", BIKLEINU_UNKNOWN_FILTER, 1, "bare");
    is("a path", add_tag("bare", "{% box %}", BIKLEINU_STYLE_PATH), BIKLEINU_DONE);
    is("a path first", parse("{% bare a/b.md 'x' %}"), BIKLEINU_DONE);
    renders(BIKLEINU_LACKING, BIKLEINU_TEXT, "[[\"{% box %}\",null,\"a/b.md\",\"x\"]]");
    is("no word", add_tag("1a", "f", 0), BIKLEINU_NO_WORD);
    is("an end", add_block("ending", "f", 0), BIKLEINU_RESERVED_NAME);
    is("a block of the language", add_tag("if", "f", 0), BIKLEINU_TAKEN_NAME);
    is("no style", add_tag("else", "\xff", 3), BIKLEINU_NO_SUCH_STYLE);
    is("no text of a filter", add_tag("else", "\xff", 2), BIKLEINU_NO_TEXT);
    is("no text of a name", add_block("\xff", "f", 2), BIKLEINU_NO_TEXT);
    is("in data", bikleinu_register_tag(&data, bytes("a"), 1, bytes("f"), 1, 9), BIKLEINU_OTHER_HANDLE);
    is("in nothing", bikleinu_register_block(&partials, bytes("a"), 1, bytes("f"), 1, 9), BIKLEINU_OTHER_HANDLE);
    is("share", bikleinu_share(&language, &answer), BIKLEINU_DONE);
    is("in what is shared", add_tag("a", "f", 9), BIKLEINU_SHARED_HANDLE);
    end();
}

/* Jekyll's highlight, which needs no table: with one, and in place of its own answer that of the table. */
static void of_highlight(void) {
    static const char source[] = "a{% highlight Ruby linenos %}\nx < {{ n }}\n{% endhighlight %}b";
    static const char wanted[] = "a<figure class=\"highlight\"><pre><code class=\"language-ruby\" data-lang=\"ruby\">x &lt; 3</code></pre></figure>b";
    is("language", bikleinu_jekyll_language(&language), BIKLEINU_DONE);
    is("parse", parse(source), BIKLEINU_DONE);
    is("data", bikleinu_data(bytes("{\"n\":3,\"answer\":\"own\"}"), 22, &data), BIKLEINU_DONE);
    is("render", bikleinu_render(&template_, &data, &partials, 32, &page), BIKLEINU_DONE);
    reads("highlight", &page, BIKLEINU_TEXT, wanted);
    is("within", bikleinu_render_within(&template_, &data, &partials, 32, &(bikleinu_limits){.bytes = 99, .turns = 99}, &page), 104);
    is("answers", bikleinu_answers(&answers), BIKLEINU_DONE);
    renders(BIKLEINU_DONE, BIKLEINU_TEXT, wanted);
    is("its filter in the table", bikleinu_answers_filter(&answers, bytes("{% highlight %}"), 15), BIKLEINU_DONE);
    renders(BIKLEINU_LACKING, BIKLEINU_TEXT, "[[\"{% highlight %}\",\"\\nx < 3\\n\",\"Ruby linenos\"]]");
    is("answer", bikleinu_answer(&answers, &page, 0, &data), BIKLEINU_DONE);
    renders(BIKLEINU_DONE, BIKLEINU_TEXT, "aownb");
    is("markup that is none", parse("{% highlight a=1 %}{% endhighlight %}"), BIKLEINU_DONE);
    is("render", bikleinu_render(&template_, &data, &partials, 32, &page), BIKLEINU_INVALID_ARGUMENT);
    refuses("{% highlight %}{% endhighlight %}", BIKLEINU_FILTER_ARGUMENTS, 1, "highlight");
    refuses("{{ 1 | highlight: 'a' }}", BIKLEINU_UNKNOWN_FILTER, 8, "highlight");
    is("the standard language", bikleinu_language(&language), BIKLEINU_DONE);
    is("no block of the standard language", parse(source), BIKLEINU_UNKNOWN_TAG);
    end();
}

static uint32_t register_jekyll(void) { return bikleinu_register_jekyll(&language); }
static uint32_t put_site(bikleinu_handle *into, const char *address, const char *base) {
    return bikleinu_answers_jekyll(into, bytes(address), strlen(address), bytes(base), strlen(base));
}
static uint32_t put_example(void) { return put_site(&answers, "https://example.org", "/blog"); }

/* Jekyll's filters, which the library answers over the table's site, but for those that the table has. */
static void of_sites(void) {
    static const char source[] = "{{ '/a b' | absolute_url }} {{ '/t' | relative_url }} {{ p | shout }}";
    begin("", "{\"p\":\"x\"}");
    is("a filter that isn't registered", parse(source), BIKLEINU_UNKNOWN_FILTER);
    each("jekyll's filters", register_jekyll);
    is(source, parse(source), BIKLEINU_DONE);
    renders(BIKLEINU_UNSUPPORTED, BIKLEINU_TEXT, "");
    each("a site", put_example);
    renders(BIKLEINU_LACKING, BIKLEINU_TEXT, "[[\"shout\",\"x\"]]");
    answers_by(0, "{\"answer\":\"X\"}");
    renders(BIKLEINU_DONE, BIKLEINU_TEXT, "https://example.org/blog/a%20b /blog/t X");
    is("another site", put_site(&answers, "", "/b/"), BIKLEINU_DONE);
    renders(BIKLEINU_DONE, BIKLEINU_TEXT, "/b/a%20b /b/t X");
    is("a filter of the table's", bikleinu_answers_filter(&answers, bytes("relative_url"), 12), BIKLEINU_DONE);
    renders(BIKLEINU_LACKING, BIKLEINU_TEXT, "[[\"relative_url\",\"/t\"]]");
    answers_by(0, "{\"answer\":\"own\"}");
    renders(BIKLEINU_DONE, BIKLEINU_TEXT, "/b/a%20b own X");
    is("no text of an address", put_site(&answers, "\xff", "/c"), BIKLEINU_NO_TEXT);
    is("no text of a base path", put_site(&answers, "/c", "\xff"), BIKLEINU_NO_TEXT);
    is("a site for data", put_site(&data, "", ""), BIKLEINU_OTHER_HANDLE);
    is("a site for nothing", put_site(&partials, "", ""), BIKLEINU_OTHER_HANDLE);
    is("share a table", bikleinu_share(&answers, &answer), BIKLEINU_DONE);
    is("a site for what is shared", put_site(&answers, "", ""), BIKLEINU_SHARED_HANDLE);
    renders(BIKLEINU_DONE, BIKLEINU_TEXT, "/b/a%20b own X");
    is("an argument too few", parse("{{ 1 | where: 'a' }}"), BIKLEINU_FILTER_ARGUMENTS);
    is("jsonify with arguments", bikleinu_register(&language, bytes("jsonify"), 7, 0, 5), BIKLEINU_DONE);
    is("jsonify with one", parse("{{ 1 | jsonify: 2 }}"), BIKLEINU_DONE);
    renders(BIKLEINU_UNSUPPORTED, BIKLEINU_TEXT, "");
    is("filters in data", bikleinu_register_jekyll(&data), BIKLEINU_OTHER_HANDLE);
    is("filters in nothing", bikleinu_register_jekyll(&partials), BIKLEINU_OTHER_HANDLE);
    is("share a language", bikleinu_share(&language, &answer), BIKLEINU_DONE);
    is("filters in what is shared", bikleinu_register_jekyll(&language), BIKLEINU_SHARED_HANDLE);
    end();
}

static uint32_t add_given(const char *name, const char *filter, const char *given) {
    return bikleinu_register_tag_given(&language, bytes(name), strlen(name), bytes(filter), strlen(filter), BIKLEINU_STYLE_ITEMS, bytes(given),
                                       strlen(given));
}
static uint32_t frame_given(const char *given) {
    return bikleinu_register_block_given(&language, bytes("frame"), 5, bytes("{% box %}"), 9, BIKLEINU_STYLE_TEXT, bytes(given), strlen(given));
}
static uint32_t register_about(void) { return add_given("about", "about", "page.title, site['a b'], 3"); }
static uint32_t register_frame(void) { return frame_given("site.name,"); }

/* Values that are given with a tag and a block: nil where one is missing, also where what is missing is a fault. */
static void of_given(void) {
    begin_tags("", "{\"page\":{\"title\":\"T\"},\"site\":{\"name\":\"N\"}}");
    is("the filter of about", bikleinu_register(&language, bytes("about"), 5, 3, 4), BIKLEINU_DONE);
    is("about in the table", bikleinu_answers_filter(&answers, bytes("about"), 5), BIKLEINU_DONE);
    each("a tag with given values", register_about), each("a block with one", register_frame);
    is("parse", parse("{% about %}{% about 'x' %}{% frame %}b{% endframe %}"), BIKLEINU_DONE);
    renders(BIKLEINU_LACKING, BIKLEINU_TEXT, "[[\"about\",null,\"T\",null,3],[\"about\",null,\"x\",\"T\",null,3],[\"{% box %}\",\"b\",\"N\"]]");
    refuses("{% about 1, 2 %}", BIKLEINU_FILTER_ARGUMENTS, 1, "about");
    is("no given values", add_given("about", "money", ""), BIKLEINU_DONE);
    is("parse", parse("{% about %}"), BIKLEINU_DONE);
    renders(BIKLEINU_LACKING, BIKLEINU_TEXT, "[[\"money\",null]]");
    is("no comma", add_given("else", "f", "a b"), BIKLEINU_NO_VALUES);
    is("a filter", add_given("about", "f", "a | size"), BIKLEINU_NO_VALUES);
    is("more than values", frame_given("a %} b"), BIKLEINU_NO_VALUES);
    is("white space", frame_given(" "), BIKLEINU_NO_VALUES);
    is("no text of values", frame_given("\xff"), BIKLEINU_NO_TEXT);
    is("a reserved name", add_given("else", "f", "a"), BIKLEINU_RESERVED_NAME);
    is("in data", bikleinu_register_tag_given(&data, bytes("a"), 1, bytes("f"), 1, 9, bytes("a"), 1), BIKLEINU_OTHER_HANDLE);
    is("nothing came of it", parse("{% about %}"), BIKLEINU_DONE);
    renders(BIKLEINU_LACKING, BIKLEINU_TEXT, "[[\"money\",null]]");
    end();
}

static uint32_t set_now;
static uint32_t make_set_language(void) { return bikleinu_set_language(set_now, &language); }
static uint32_t put_set(void) { return bikleinu_answers_set(&answers, set_now, &data); }

/* A page in the language of a set, whose filters the library answers over what the data say. */
static void of_set(uint32_t set, const char *source, const char *json, const char *wanted) {
    set_now = set;
    each("the language of a set", make_set_language);
    is(source, parse(source), BIKLEINU_DONE);
    is("data", bikleinu_data(bytes(json), strlen(json), &data), BIKLEINU_DONE);
    is("answers", bikleinu_answers(&answers), BIKLEINU_DONE);
    renders(BIKLEINU_UNSUPPORTED, BIKLEINU_TEXT, "");
    each("a set", put_set);
    renders(BIKLEINU_DONE, BIKLEINU_TEXT, wanted);
    end();
}

/* The sets of filters that the library has itself. */
static void of_sets(void) {
    of_set(BIKLEINU_SET_DECIMALS, "{{ p | decimal_times: 3 }} {{ p | decimal_compare: '20' }}", "{\"p\":\"19.99\"}", "59.97 -1");
    of_set(BIKLEINU_SET_SHOPIFY, "{{ p | money }} {{ 'Green Tea' | handleize }}", "{\"p\":1999,\"shop\":{\"money_format\":\"EUR {{amount}}\"}}",
           "EUR 19.99 green-tea");
    of_set(BIKLEINU_SET_JEKYLL, "{{ '/t' | absolute_url }} {{ xs | where_exp: 'x', 'x.a > 1' | size }}{% link a.md %}",
           "{\"xs\":[{\"a\":1},{\"a\":2}],\"site\":{\"url\":\"https://example.org\",\"baseurl\":\"/b\",\"pages\":[{\"path\":\"a.md\",\"url\":\"/a.html\"}]}}",
           "https://example.org/b/t 1/b/a.html");
    begin("", "{\"answer\":\"own\"}");
    is("no set", bikleinu_set_language(0, &answer), BIKLEINU_NO_SUCH_SET);
    is("nor this", bikleinu_answers_set(&answers, 4, &data), BIKLEINU_NO_SUCH_SET);
    is("no data", bikleinu_answers_set(&answers, BIKLEINU_SET_DECIMALS, &partials), BIKLEINU_OTHER_HANDLE);
    is("no table", bikleinu_answers_set(&language, BIKLEINU_SET_SHOPIFY, &data), BIKLEINU_OTHER_HANDLE);
    is("decimals", bikleinu_answers_set(&answers, BIKLEINU_SET_DECIMALS, &data), BIKLEINU_DONE);
    is("a name of the table's", bikleinu_answers_filter(&answers, bytes("decimal_plus"), 12), BIKLEINU_DONE);
    is("its filter", bikleinu_register(&language, bytes("decimal_plus"), 12, 0, 2), BIKLEINU_DONE);
    is("its filter", bikleinu_register(&language, bytes("decimal_minus"), 13, 0, 2), BIKLEINU_DONE);
    is("parse", parse("{{ 1 | decimal_plus: 2 }} {{ 1 | decimal_minus: 2 }}"), BIKLEINU_DONE);
    renders(BIKLEINU_LACKING, BIKLEINU_TEXT, "[[\"decimal_plus\",1,2]]");
    is("answer", bikleinu_answer(&answers, &page, 0, &data), BIKLEINU_DONE);
    renders(BIKLEINU_DONE, BIKLEINU_TEXT, "own -1");
    is("another number of arguments", parse("{{ 1 | decimal_minus }}"), BIKLEINU_DONE);
    renders(BIKLEINU_UNSUPPORTED, BIKLEINU_TEXT, "");
    is("share", bikleinu_share(&answers, &answer), BIKLEINU_DONE);
    is("for what is shared", bikleinu_answers_set(&answers, BIKLEINU_SET_SHOPIFY, &data), BIKLEINU_SHARED_HANDLE);
    end();
}

int main(void) {
    size_t before = blocks;
    of_rounds(), of_faults(), of_memory(), of_refusals(), of_languages(), of_escaping(), of_bounds(), of_limits();
    of_tags(), of_refused_tags(), of_given(), of_highlight(), of_sites(), of_sets();
    if (blocks != before) wrong++, printf("%zu pieces of memory are left\n", blocks - before);
    printf("tables: %zu\n", tests);
    return wrong != 0;
}
