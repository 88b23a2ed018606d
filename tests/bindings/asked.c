/* What templates ask of their data, as paths, data that are read no further, and pages in which what is missing is nil. It prints each
 * thing that isn't well, and at the end "asked: N". */
#include <stdbool.h>
#include <stdio.h>
#include <string.h>

#include "bikleinu.h"

enum { ROOM = 4096 };

static bikleinu_handle language, template_, data, partials, paths, made, answers, page, none;
static size_t tests, wrong;

static const uint8_t *bytes(const char *text) { return (const uint8_t *)text; }

static void is(const char *what, uint32_t found, uint32_t wanted) {
    tests++;
    if (found == wanted) return;
    wrong++;
    printf("%s: %u, not %u\n", what, (unsigned)found, (unsigned)wanted);
}

static void reads(const char *what, bikleinu_handle *handle, const char *wanted) {
    char text[ROOM];
    text[bikleinu_copy(handle, BIKLEINU_TEXT, (uint8_t *)text, ROOM - 1)] = 0;
    tests++;
    if (!strcmp(text, wanted)) return;
    wrong++;
    printf("%s: %s, not %s\n", what, text, wanted);
}

static void parse(const char *source, bikleinu_handle *made) { is(source, bikleinu_parse(&language, bytes(source), strlen(source), made), BIKLEINU_DONE); }

static void asks(const char *source, const char *wanted) {
    parse(source, &template_);
    is("paths", bikleinu_paths(&template_, &partials, &paths), BIKLEINU_DONE);
    reads(source, &paths, wanted);
}

/* The page of a template over data that lack something, where that is nil: whole, within limits and with a table. Else it is a fault. */
static void lacks(const char *source, const char *json, const char *text) {
    bikleinu_limits limits = {.missing = BIKLEINU_MISSING_IS_NIL, .bytes = BIKLEINU_ANY, .turns = BIKLEINU_ANY};
    parse(source, &template_);
    is("data", bikleinu_data(bytes(json), strlen(json), &data), BIKLEINU_DONE);
    is(source, bikleinu_render_within(&template_, &data, &partials, 1, &limits, &page), BIKLEINU_DONE);
    reads(json, &page, text);
    is(source, bikleinu_render_with(&template_, &data, &partials, 1, &limits, &answers, &page), BIKLEINU_DONE);
    reads(json, &page, text);
    limits.bytes = limits.turns = 100;
    is(source, bikleinu_render_within(&template_, &data, &partials, 1, &limits, &page), BIKLEINU_DONE);
    reads(json, &page, text);
    limits.missing = BIKLEINU_MISSING_IS_FAULT;
    is(source, bikleinu_render_within(&template_, &data, &partials, 1, &limits, &page), BIKLEINU_UNKNOWN_VARIABLE);
    is(source, bikleinu_render(&template_, &data, &partials, 1, &page), BIKLEINU_UNKNOWN_VARIABLE);
}

/* No other number says what becomes of what is missing. */
static void of_missing(void) {
    bikleinu_limits limits = {.missing = 2, .bytes = BIKLEINU_ANY, .turns = BIKLEINU_ANY};
    is("answers", bikleinu_answers(&answers), BIKLEINU_DONE);
    lacks("{{ a.b }}|{{ c }}", "{\"a\":{\"d\":1}}", "|");
    lacks("{{ a.b }}|{{ c }}", "{\"a\":{\"b\":7}}", "7|");
    lacks("{% for r in rows %}{{ r.x }};{% endfor %}", "{\"rows\":[{\"x\":1},{}]}", "1;;");
    lacks("{{ a.b }}", "{\"a\":null}", "");
    lacks("{% if a %}a{% else %}{{ a.b.c }}-{% render 'line' %}{% endif %}", "{}", "--  of \n");
    is("another number", bikleinu_render_within(&template_, &data, &partials, 1, &limits, &page), BIKLEINU_NO_SUCH_MISSING);
    is("another number", bikleinu_render_with(&template_, &data, &partials, 1, &limits, &answers, &page), BIKLEINU_NO_SUCH_MISSING);
    is("no page", (uint32_t)page.there, 0);
}

/* The page over data that are read no further than a template sees is that over all of them, and how another template ends over them. */
static void reads_for(const char *source, const char *json, const char *text, const char *other, uint32_t ended) {
    parse(source, &template_);
    is("paths", bikleinu_paths(&template_, &partials, &paths), BIKLEINU_DONE);
    is("data for it", bikleinu_data_for(bytes(json), strlen(json), &paths, &data), BIKLEINU_DONE);
    is(source, bikleinu_render(&template_, &data, &partials, 32, &page), BIKLEINU_DONE);
    reads(json, &page, text);
    parse(other, &template_);
    is(other, bikleinu_render(&template_, &data, &partials, 32, &page), ended);
}

/* A text is refused as where all of it is read, at the same place. */
static void refuses(const char *json, uint32_t wanted, size_t wanted_line) {
    size_t line = 0, column = 0;
    is(json, bikleinu_data_for(bytes(json), strlen(json), &paths, &data), wanted);
    is("in the data", bikleinu_location(&data, &line, &column), BIKLEINU_IN_DATA);
    is("line", (uint32_t)line, (uint32_t)wanted_line);
}

/* Data that are read no further than a template and its partials see. */
static void of_reading(void) {
    static const char all[] = "{\"lines\":[{\"count\":2,\"tea\":\"green\",\"of\":\"Assam\"}],\"shop\":{\"name\":\"Bay\"},\"n\":7}";
    reads_for("{% for line in lines %}{% render 'line', line: line %}{% endfor -%}", all, "- 2 of green\n", "{{ lines[0].of }}{{ n }}",
              BIKLEINU_OTHER_PATHS);
    reads_for("{{ shop.name }}{% if lines %}!{% endif %}", all, "Bay!", "{{ shop.name }}", BIKLEINU_DONE);
    reads_for("no data", all, "no data", "{{ n }}", BIKLEINU_OTHER_PATHS);
    reads_for("{{ shop }}", "{\"shop\":\"Bay\"}", "Bay", "{% if shop %}{{ shop.size }}{% endif %}", BIKLEINU_DONE);
    reads_for("{% for l in lines %}{{ l.tea }}{% endfor %}", all, "green", "{% for l in lines %}{{ l.of }}{% endfor %}",
              BIKLEINU_OTHER_PATHS);
    is("no page", (uint32_t)page.there, 0);
    is("nor with a table", bikleinu_answers(&answers), BIKLEINU_DONE);
    is("nor with a table", bikleinu_render_with(&template_, &data, &partials, 32, &(bikleinu_limits){.bytes = 9, .turns = 9}, &answers, &page),
       BIKLEINU_OTHER_PATHS);
    reads_for("{{ n }}", all, "7", "{{ n }}", BIKLEINU_DONE);
    refuses("{\"n\":7,\n\"m\":[1.5]}", BIKLEINU_FLOAT, 2);
    refuses("{\"n\":7,\n\n\"m\":]}", BIKLEINU_INVALID_INPUT, 3);
    is("no paths to read for", bikleinu_data_for(bytes(all), strlen(all), &template_, &data), BIKLEINU_OTHER_HANDLE);
    is("nothing to read for", bikleinu_data_for(bytes(all), strlen(all), &none, &data), BIKLEINU_OTHER_HANDLE);
    is("no text to read", bikleinu_data_for(bytes("\xff"), 1, &paths, &data), BIKLEINU_NO_TEXT);
}

/* The key of a text for the paths that were found last. */
static const char *key_of(const char *json) {
    static char texts[2][ROOM];
    static int at;
    char *text = texts[at ^= 1];
    is(json, bikleinu_seen_key(bytes(json), strlen(json), &paths, &made), BIKLEINU_DONE);
    text[bikleinu_copy(&made, BIKLEINU_TEXT, (uint8_t *)text, ROOM - 1)] = 0;
    return text;
}

/* Two texts have one key, or each its own. */
static void keys(const char *one, const char *other, bool is_same) { is(other, !strcmp(key_of(one), key_of(other)), is_same); }

/* A text has no key, where it gives no data. */
static void has_no_key(const char *json, uint32_t wanted) { is(json, bikleinu_seen_key(bytes(json), strlen(json), &paths, &made), wanted); }

/* Keys of what a template sees: the page over a text is that over its key. */
static void of_keys(void) {
    static const char tea[] = "{\"lines\":[{\"count\":2,\"tea\":\"green\",\"of\":\"Assam\"}],\"n\":7}";
    asks("{% for line in lines %}{% render 'line', line: line %}{% endfor -%}", "[\"lines[].count\",\"lines[].tea\"]");
    keys(tea, "{\"n\":8,\"lines\":[{\"tea\":\"green\",\"count\":2}]}", true);
    keys(tea, "{\"lines\":[{\"count\":3,\"tea\":\"green\"}]}", false);
    keys(tea, "{\"lines\":[{\"count\":2,\"tea\":\"green\"},{}]}", false);
    keys("{}", "{\"lines\":null}", false);
    const char *key = key_of(tea);
    is("the key as data", bikleinu_data(bytes(key), strlen(key), &data), BIKLEINU_DONE);
    is("render", bikleinu_render(&template_, &data, &partials, 32, &page), BIKLEINU_DONE);
    reads("over a key", &page, "- 2 of green\n");
    has_no_key("{\"n\":1.5}", BIKLEINU_FLOAT);
    has_no_key("[]", BIKLEINU_INVALID_INPUT);
    has_no_key("\xff", BIKLEINU_NO_TEXT);
    is("no paths to ask for", bikleinu_seen_key(bytes(tea), strlen(tea), &template_, &made), BIKLEINU_OTHER_HANDLE);
    is("nothing to ask for", bikleinu_seen_key(bytes(tea), strlen(tea), &none, &made), BIKLEINU_OTHER_HANDLE);
}

int main(void) {
    bikleinu_handle part = BIKLEINU_NONE;
    is("language", bikleinu_language(&language), BIKLEINU_DONE);
    asks("no data", "[]");
    asks("{{ shop.currency }}{% if customer %}y{% endif %}", "[\"customer?\",\"shop.currency\"]");
    asks("{% for p in products %}{{ p.title }}{% endfor %}", "[\"products[].title\"]");
    is("partials", bikleinu_partials(&partials), BIKLEINU_DONE);
    parse("- {{ line.count }} of {{ line.tea }}\n", &part);
    is("insert", bikleinu_insert(&partials, bytes("line"), 4, &part), BIKLEINU_DONE);
    asks("{% for line in lines %}{% render 'line', line: line %}{% endfor -%}", "[\"lines[].count\",\"lines[].tea\"]");
    asks("{% for line in lines %}{% include 'line' %}{% endfor -%}", "[\"lines[].count\",\"lines[].tea\"]");
    asks("{% include 'line' line: shop %}{{ n }}", "[\"n\",\"shop.count\",\"shop.tea\"]");

    of_missing();
    is("no template", bikleinu_paths(&data, &none, &made), BIKLEINU_OTHER_HANDLE);
    is("no partials", bikleinu_paths(&template_, &data, &made), BIKLEINU_OTHER_HANDLE);
    of_reading();
    of_keys();
    bikleinu_handle *all[] = {&language, &template_, &data, &partials, &paths, &made, &answers, &page};
    for (size_t at = 0; at < sizeof all / sizeof *all; at++) bikleinu_free(all[at]);
    printf("asked: %zu\n", tests);
    return wrong != 0;
}
