/* Runs templates in threads of small and large stacks, each at the most levels that the header says its stack holds: blocks of one
 * kind round a tag that runs a partial of the same blocks, which runs itself, with work at each level that takes stack too. Such a run
 * has to end by the depth, and one with one more partial must be refused before it begins; so must the deepest that numbers can say.
 * Each other call is made in a thread of just the stack that the header says it takes, with the deepest source or data that it takes.
 * With an argument it measures instead: how many bytes of stack a level takes for each kind of block and tag, and how many the rest,
 * and how many each other call takes. A line tells each thing that isn't well, and the last one "runs: N". */
#define _GNU_SOURCE
#include <pthread.h>
#include <stdio.h>
#include <stdlib.h>
#include <string.h>

#include "bikleinu.h"

enum { BLOCKS = 9, LISTS = 127, NESTED = 200, MOST = 1 << 16 };

static const char *const kinds[][2] = {
    {"{% if true %}", "{% endif %}"},
    {"{% if false %}{% elsif true %}", "{% endif %}"},
    {"{% unless false %}", "{% endunless %}"},
    {"{% case 1 %}{% when 1 %}", "{% endcase %}"},
    {"{% for i in (1..1) %}", "{% endfor %}"},
    {"{% for i in (1..0) %}{% else %}", "{% endfor %}"},
    {"{% tablerow i in (1..1) %}", "{% endtablerow %}"},
    {"{% capture c %}", "{% endcapture %}"},
    {"{% ifchanged %}", "{% endifchanged %}"},
    {"{% box %}", "{% endbox %}"},
};
static const char *const calls[] = {
    "{% render 'p', d: d, w: w %}", "{% render 'p' for (1..1) as i, d: d, w: w %}", "{% include 'p' %}", "{% include 'p' d: d, w: w %}"};
static const char work[] = "{{ d }}{% assign x = w | sort | join: ',' | date: '%Y' | split: ',' | reverse | last %}";

typedef struct {
    const char *open, *close, *call;
    size_t blocks;
    uint32_t depth, levels, answer;
    bool works;
} run;

static size_t runs, wrong;

static void need(uint32_t answer) {
    if (answer != BIKLEINU_DONE) abort();
}

static const uint8_t *bytes(const char *text) { return (const uint8_t *)text; }

/* The source of the template, and of its partial. */
static void write_source(const run *it, char *into) {
    *into = 0;
    for (size_t at = 0; at < it->blocks; at++) strcat(into, it->open);
    if (it->works) strcat(into, work);
    strcat(into, it->call);
    for (size_t at = 0; at < it->blocks; at++) strcat(into, it->close);
}

/* Data with lists in one another, and words. */
static void write_data(char *into) {
    strcpy(into, "{\"w\":[\"b\",\"a\",\"2024-01-02\"],\"d\":");
    for (int at = 1; at < LISTS - 1; at++) strcat(into, "[");
    for (int at = 1; at < LISTS - 1; at++) strcat(into, "]");
    strcat(into, "}");
}

static void *render(void *given) {
    run *it = given;
    static _Thread_local char *source, *json;
    source = malloc(MOST), json = malloc(MOST);
    if (!source || !json) abort();
    bikleinu_handle language = BIKLEINU_NONE, template_ = BIKLEINU_NONE, partial = BIKLEINU_NONE, partials = BIKLEINU_NONE;
    bikleinu_handle data = BIKLEINU_NONE, page = BIKLEINU_NONE;
    write_source(it, source), write_data(json);
    need(bikleinu_language(&language));
    need(bikleinu_register(&language, bytes("box"), 3, 0, 0));
    need(bikleinu_register_block(&language, bytes("box"), 3, bytes("box"), 3, BIKLEINU_STYLE_ITEMS));
    need(bikleinu_parse(&language, bytes(source), strlen(source), &template_));
    need(bikleinu_parse(&language, bytes(source), strlen(source), &partial));
    need(bikleinu_partials(&partials));
    need(bikleinu_insert(&partials, bytes("p"), 1, &partial));
    need(bikleinu_data(bytes(json), strlen(json), &data));
    bikleinu_limits limits = {.levels = it->levels, .bytes = BIKLEINU_ANY, .turns = BIKLEINU_ANY};
    it->answer = it->levels ? bikleinu_render_within(&template_, &data, &partials, it->depth, &limits, &page)
                            : bikleinu_render(&template_, &data, &partials, it->depth, &page);
    bikleinu_free(&page), bikleinu_free(&data), bikleinu_free(&partials), bikleinu_free(&template_), bikleinu_free(&language);
    free(source), free(json);
    return NULL;
}

static void in_thread(void *(*call)(void *), void *given, void *stack, size_t size) {
    pthread_t thread;
    pthread_attr_t how;
    pthread_attr_init(&how);
    if (stack ? pthread_attr_setstack(&how, stack, size) : pthread_attr_setstacksize(&how, size)) abort();
    if (pthread_create(&thread, &how, call, given) || pthread_join(thread, NULL)) abort();
    pthread_attr_destroy(&how);
    runs++;
}

static void wants(run it, size_t size, uint32_t answer) {
    in_thread(render, &it, NULL, size);
    if (it.answer == answer) return;
    wrong++;
    printf("%s %s, depth %u, levels %u, stack %zu: %u, and %u is wanted\n", it.open, it.call, (unsigned)it.depth, (unsigned)it.levels, size, (unsigned)it.answer, (unsigned)answer);
}

/* How much of a stack that was filled with a mark has another byte after a call. */
static size_t used_by(void *(*call)(void *), void *given) {
    static const size_t size = 64 << 20;
    uint8_t *stack = aligned_alloc(4096, size);
    if (!stack) abort();
    memset(stack, 0xA5, size);
    in_thread(call, given, stack, size);
    size_t clean = 0;
    while (clean < size && stack[clean] == 0xA5) clean++;
    free(stack);
    return size - clean;
}

static size_t used(const run *asked) {
    run it = *asked;
    return used_by(render, &it);
}

static void measure(run it) {
    it.levels = UINT32_MAX, it.works = true;
    it.blocks = 0, it.depth = 100;
    size_t few = used(&it);
    it.depth = 200;
    size_t call = (used(&it) - few) / 100;
    it.blocks = BLOCKS;
    size_t many = used(&it);
    it.depth = 100;
    size_t level = (many - used(&it)) / 100;
    it.depth = 0;
    printf("%-34s %-46s a partial %5zu, a block %5zu, the rest %6zu\n", it.open, it.call, call, (level - call) / BLOCKS, used(&it));
}

/* ---- the calls that run no page */

/* What they are made with: the deepest that they take, and what they make. */
static bikleinu_handle language = BIKLEINU_NONE, template_ = BIKLEINU_NONE, partials = BIKLEINU_NONE, paths = BIKLEINU_NONE, data = BIKLEINU_NONE;
static bikleinu_handle answers = BIKLEINU_NONE, lacking = BIKLEINU_NONE, answer = BIKLEINU_NONE, made = BIKLEINU_NONE;
static bikleinu_handle part = BIKLEINU_NONE;
static char source[MOST], json[MOST], text[MOST], given[MOST];

static void write_times(char *into, const char *piece, size_t times) {
    for (into += strlen(into); times; times--) into += strlen(strcpy(into, piece));
}

/* The most blocks round a value of the most brackets, members of members as deep as maps may be, and a call of a caller's filter. */
static void write_deepest_source(void) {
    *source = 0;
    write_times(source, "{% if true %}", NESTED);
    write_times(source, "{{ d | f: m }}{{ m", 1), write_times(source, ".m", LISTS - 1), write_times(source, " }}{{ d", 1);
    write_times(source, "[d", NESTED), write_times(source, "]", NESTED), write_times(source, " }}{% include 'p' %}", 1);
    write_times(source, "{% endif %}", NESTED);
}

/* Lists and maps in one another, as deep as they may be, under the name that an answer has too. */
static void write_deepest_data(void) {
    *json = 0;
    write_times(json, "{\"d\":", 1), write_times(json, "[", LISTS - 1), write_times(json, "]", LISTS - 1);
    write_times(json, ",\"answer\":", 1), write_times(json, "[", LISTS - 1), write_times(json, "]", LISTS - 1);
    write_times(json, ",\"m\":", 1), write_times(json, "{\"m\":", LISTS - 2), write_times(json, "{}", 1), write_times(json, "}", LISTS - 1);
}

static uint32_t parses(void) { return bikleinu_parse(&language, bytes(source), strlen(source), &made); }
static uint32_t reads_names(void) { return bikleinu_names(&template_, &partials, &made); }
static uint32_t finds_called(void) { return bikleinu_partial_names(&template_, &made); }
static uint32_t finds_paths(void) { return bikleinu_paths(&template_, &partials, &made); }
static uint32_t reads_data(void) { return bikleinu_data(bytes(json), strlen(json), &made); }
static uint32_t reads_data_for(void) { return bikleinu_data_for(bytes(json), strlen(json), &paths, &made); }
static uint32_t makes_key(void) { return bikleinu_seen_key(bytes(json), strlen(json), &paths, &made); }
/* a page over data that were read for paths first finds its own, on this stack too */
static uint32_t renders_part(void) {
    return bikleinu_render_with(&template_, &part, &partials, 0, &(bikleinu_limits){.levels = 1, .bytes = 9, .turns = 9}, &answers, &made) ==
           BIKLEINU_TOO_MANY_LEVELS ? BIKLEINU_DONE : 1;
}
static uint32_t gives_values(void) {
    return bikleinu_register_tag_given(&language, bytes("t"), 1, bytes("f"), 1, BIKLEINU_STYLE_ITEMS, bytes(given), strlen(given));
}
static uint32_t makes_set_language(void) { return bikleinu_set_language(BIKLEINU_SET_SHOPIFY, &made); }
static uint32_t places_set(void) { return bikleinu_answers_set(&answers, BIKLEINU_SET_SHOPIFY, &data); }
static uint32_t answers_call(void) { return bikleinu_answer(&answers, &lacking, 0, &answer); }
static uint32_t shares(void) { return bikleinu_share(&data, &made); }
static uint32_t copies(void) {
    size_t length = bikleinu_length(&lacking, BIKLEINU_TEXT);
    return length == 0 || length > sizeof text || bikleinu_copy(&lacking, BIKLEINU_TEXT, (uint8_t *)text, sizeof text) != length;
}

static const struct {
    const char *name;
    uint32_t (*call)(void);
} others[] = {
    {"bikleinu_parse", parses}, {"bikleinu_names", reads_names}, {"bikleinu_partial_names", finds_called},
    {"bikleinu_paths", finds_paths}, {"bikleinu_data", reads_data},
    {"bikleinu_data_for", reads_data_for}, {"bikleinu_seen_key", makes_key}, {"bikleinu_render_with", renders_part},
    {"bikleinu_register_tag_given", gives_values}, {"bikleinu_set_language", makes_set_language},
    {"bikleinu_answers_set", places_set}, {"bikleinu_answer", answers_call},
    {"bikleinu_share", shares}, {"bikleinu_copy", copies}};

/* Makes one of them, and frees what it makes. */
static void *call_other(void *given) {
    size_t number = *(size_t *)given;
    if (others[number].call() != BIKLEINU_DONE) {
        wrong++;
        printf("%s doesn't end as it has to\n", others[number].name);
    }
    bikleinu_free(&made);
    return NULL;
}

static void make_deepest(void) {
    bikleinu_handle partial = BIKLEINU_NONE;
    write_deepest_source(), write_deepest_data();
    need(bikleinu_language(&language));
    need(bikleinu_register(&language, bytes("f"), 1, 1, 1));
    need(bikleinu_parse(&language, bytes(source), strlen(source), &template_));
    need(bikleinu_parse(&language, bytes(source), strlen(source), &partial));
    need(bikleinu_partials(&partials));
    need(bikleinu_insert(&partials, bytes("p"), 1, &partial));
    need(bikleinu_paths(&template_, &partials, &paths));
    need(bikleinu_data(bytes(json), strlen(json), &data));
    need(bikleinu_data_for(bytes(json), strlen(json), &paths, &part));
    *given = 0;
    write_times(given, "d[", NESTED), write_times(given, "d", 1), write_times(given, "]", NESTED);
    need(bikleinu_data(bytes(json), strlen(json), &answer));
    need(bikleinu_answers(&answers));
    need(bikleinu_answers_filter(&answers, bytes("f"), 1));
    bikleinu_limits limits = {.levels = UINT32_MAX, .bytes = BIKLEINU_ANY, .turns = BIKLEINU_ANY};
    if (bikleinu_render_with(&template_, &data, &partials, 0, &limits, &answers, &lacking) != BIKLEINU_LACKING) abort();
}

static void try_others(bool measures) {
    make_deepest();
    for (size_t number = 0; number < sizeof others / sizeof *others; number++) {
        if (measures) printf("%-34s %6zu\n", others[number].name, used_by(call_other, &number));
        else in_thread(call_other, &number, NULL, BIKLEINU_CALL_STACK);
    }
}

int main(int count, char **words) {
    static const size_t sizes[] = {256 << 10, 1 << 20, 2 << 20, 8 << 20};
    (void)words;
    for (size_t kind = 0; kind < sizeof kinds / sizeof *kinds; kind++) {
        for (size_t call = 0; call < sizeof calls / sizeof *calls; call++) {
            run it = {.open = kinds[kind][0], .close = kinds[kind][1], .call = calls[call], .blocks = BLOCKS, .works = true};
            if (count > 1) {
                measure(it);
                continue;
            }
            for (size_t at = 0; at < 2 * sizeof sizes / sizeof *sizes; at++) {
                size_t size = sizes[at / 2];
                it.blocks = at % 2 ? BLOCKS : 0;
                uint32_t fit = (size - BIKLEINU_REST_STACK) / BIKLEINU_LEVEL_STACK / (it.blocks + 1);
                it.levels = fit * (it.blocks + 1);
                it.depth = fit - 1, wants(it, size, BIKLEINU_TOO_DEEP);
                it.depth = fit, wants(it, size, BIKLEINU_TOO_MANY_LEVELS);
                it.depth = UINT32_MAX, wants(it, size, BIKLEINU_TOO_MANY_LEVELS);
            }
            it.levels = 0;
            it.depth = BIKLEINU_LEVELS / (BLOCKS + 1) - 1, wants(it, 1 << 20, BIKLEINU_TOO_DEEP);
            it.depth++, wants(it, 1 << 20, BIKLEINU_TOO_MANY_LEVELS);
        }
    }
    try_others(count > 1);
    printf("runs: %zu\n", runs);
    return wrong != 0;
}
