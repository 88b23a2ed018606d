/* Refuses memory to the library, request by request: in each row on standard input it makes each call first as it is, and then with
 * its first request refused, then with its second, and so on, up to the first that makes no such request. A call that was refused a
 * request has to answer BIKLEINU_MEMORY, and called again what it answered at first, and no other call may answer otherwise than at
 * first. A row is a line with the numbers of bytes of its source and its data and how many partials it has, those bytes, and for each
 * partial a line with the numbers of bytes of its name and its source, and those. When its handles are freed, a row must leave no memory
 * allocated, which no proof speaks of. A line tells each thing that isn't well, and the last one "rows: N calls: N refused: N". */
#define _GNU_SOURCE
#include <stdio.h>
#include <stdlib.h>
#include <string.h>

#include "bikleinu.h"

extern void *__libc_malloc(size_t), *__libc_realloc(void *, size_t);
extern void __libc_free(void *);

enum { MOST = 200 };

/* blocks: how many pieces of memory are taken and not given back. */
static size_t requests, refused_at, blocks;
static bool counts;

/* Whether this request is the one that is refused. */
static bool is_refused(void) { return counts && ++requests == refused_at; }

void *malloc(size_t size) {
    void *made = is_refused() ? NULL : __libc_malloc(size);
    blocks += made != NULL;
    return made;
}

void *realloc(void *old, size_t size) {
    void *made = is_refused() ? NULL : __libc_realloc(old, size);
    blocks += !old && made;
    return made;
}

void free(void *old) {
    blocks -= old != NULL;
    __libc_free(old);
}

typedef struct {
    uint8_t *at;
    size_t length;
} text;

typedef struct {
    text source, data, name;
} row;

enum { LANGUAGE, TEMPLATE, PARTIAL, PARTIALS, DATA, PAGE, PATHS, READ, SHARED, NAMES, CALLED, WITHIN, KEY, HANDLES };

static bikleinu_handle held[HANDLES];
static size_t rows, calls, refused, wrong;

static uint32_t make_language(const row *it) { return (void)it, bikleinu_language(&held[LANGUAGE]); }
static uint32_t make_partials(const row *it) { return (void)it, bikleinu_partials(&held[PARTIALS]); }
static uint32_t parse(const row *it) { return bikleinu_parse(&held[LANGUAGE], it->source.at, it->source.length, &held[TEMPLATE]); }
static uint32_t parse_partial(const row *it) { return bikleinu_parse(&held[LANGUAGE], it->source.at, it->source.length, &held[PARTIAL]); }
static uint32_t read_data(const row *it) { return bikleinu_data(it->data.at, it->data.length, &held[DATA]); }
static uint32_t insert(const row *it) { return bikleinu_insert(&held[PARTIALS], it->name.at, it->name.length, &held[PARTIAL]); }
static uint32_t find_paths(const row *it) { return (void)it, bikleinu_paths(&held[TEMPLATE], &held[PARTIALS], &held[PATHS]); }
static uint32_t read_for(const row *it) { return bikleinu_data_for(it->data.at, it->data.length, &held[PATHS], &held[READ]); }
static uint32_t make_key(const row *it) { return bikleinu_seen_key(it->data.at, it->data.length, &held[PATHS], &held[KEY]); }
static uint32_t render_read(const row *it) { return (void)it, bikleinu_render(&held[TEMPLATE], &held[READ], &held[PARTIALS], 32, &held[PAGE]); }
static uint32_t share(const row *it) { return (void)it, bikleinu_share(&held[TEMPLATE], &held[SHARED]); }
static uint32_t render_shared(const row *it) { return (void)it, bikleinu_render(&held[SHARED], &held[DATA], &held[PARTIALS], 32, &held[PAGE]); }
static uint32_t find_names(const row *it) {
    return (void)it, bikleinu_names(&held[TEMPLATE], &held[PARTIALS], &held[NAMES]);
}
static uint32_t render_lenient(const row *it) {
    static const bikleinu_limits lenient = {.missing = BIKLEINU_MISSING_IS_NIL, .bytes = BIKLEINU_ANY, .turns = BIKLEINU_ANY};
    return (void)it, bikleinu_render_within(&held[TEMPLATE], &held[DATA], &held[PARTIALS], 32, &lenient, &held[WITHIN]);
}
static uint32_t find_called(const row *it) { return (void)it, bikleinu_partial_names(&held[TEMPLATE], &held[CALLED]); }
static uint32_t render_within(const row *it) {
    static const bikleinu_limits few = {.bytes = 20, .turns = 5};
    bikleinu_handle *partials = &held[PARTIALS], *made = &held[WITHIN];
    return (void)it, bikleinu_render_within(&held[TEMPLATE], &held[DATA], partials, 32, &few, made);
}
static uint32_t render(const row *it) { return (void)it, bikleinu_render(&held[TEMPLATE], &held[DATA], &held[PARTIALS], 32, &held[PAGE]); }

static void *need(void *made) {
    if (!made) abort();
    return made;
}

/* What a call left to read in its handle: the text of a page and the message of a fault. */
static text shown(int made) {
    size_t page = bikleinu_length(&held[made], BIKLEINU_TEXT), message = bikleinu_length(&held[made], BIKLEINU_MESSAGE);
    text all = {need(malloc(page + message + 1)), page + message};
    bikleinu_copy(&held[made], BIKLEINU_TEXT, all.at, page);
    bikleinu_copy(&held[made], BIKLEINU_MESSAGE, all.at + page, message);
    return all;
}

static void report(const char *name, size_t at, uint32_t answer, const char *what) {
    wrong++;
    printf("row %zu, %s, request %zu: %u, %s\n", rows, name, at, (unsigned)answer, what);
}

/* The same as the call came to at first. */
static bool is_same(int made, uint32_t answer, uint32_t first, text left) {
    text now = shown(made);
    bool same = answer == first && now.length == left.length && !memcmp(now.at, left.at, left.length);
    free(now.at);
    return same;
}

/* The same text and the same end as the page had at first. Its message may say something else. */
static bool is_same_page(uint32_t answer, uint32_t first, text left, size_t length) {
    text now = shown(PAGE);
    bool same = answer == first && bikleinu_length(&held[PAGE], BIKLEINU_TEXT) == length && !memcmp(now.at, left.at, length);
    free(now.at);
    return same;
}

/* Makes a call, with each of its requests refused in turn. A call that takes something of its handles can't be made again as long as
 * it isn't refused, so it is made once. */
static uint32_t each(const char *name, uint32_t (*call)(const row *), const row *it, int made, bool takes) {
    text left = {0};
    uint32_t first = 0;
    calls++;
    size_t step = 1;
    if (!takes) {
        requests = refused_at = 0, counts = true;
        first = call(it);
        counts = false;
        step += requests / MOST;
        left = shown(made);
    }
    for (size_t at = 1;; at += step) {
        requests = 0, refused_at = at, counts = true;
        uint32_t answer = call(it);
        counts = false;
        if (requests < at) {
            if (takes) first = answer;
            else if (!is_same(made, answer, first, left)) report(name, at, answer, "and none was refused");
            break;
        }
        refused++;
        if (answer != BIKLEINU_MEMORY) {
            report(name, at, answer, "where one was refused");
            break;
        }
        if (!takes && !is_same(made, call(it), first, left)) {
            report(name, at, answer, "and another page or fault after it");
            break;
        }
    }
    free(left.at);
    return first;
}

static text take(size_t length) {
    text it = {need(malloc(length + 1)), length};
    if (fread(it.at, 1, length, stdin) != length) abort();
    return it;
}

/* The partials of a row: whether each has a template. */
static bool put_partials(size_t count) {
    bool well = true;
    while (count--) {
        size_t name, source;
        if (scanf("%zu %zu", &name, &source) != 2) abort();
        getchar();
        row it = {.name = take(name)};
        it.source = take(source);
        well = well && !each("parse of a partial", parse_partial, &it, PARTIAL, false) && !each("insert", insert, &it, PARTIAL, true);
        free(it.name.at), free(it.source.at);
    }
    return well;
}

int main(void) {
    size_t source, data, count;
    row none = {0};
    each("language", make_language, &none, LANGUAGE, false);
    while (scanf("%zu %zu %zu", &source, &data, &count) == 3) {
        getchar();
        rows++;
        size_t before = blocks;
        row it = {.source = take(source)};
        it.data = take(data);
        each("partials", make_partials, &it, PARTIALS, false);
        bool well = !each("parse", parse, &it, TEMPLATE, false);
        well = !each("data", read_data, &it, DATA, false) && well;
        if (put_partials(count) && well) {
            uint32_t ended = each("render", render, &it, PAGE, false);
            text page = shown(PAGE);
            size_t length = bikleinu_length(&held[PAGE], BIKLEINU_TEXT);
            each("render within limits", render_within, &it, WITHIN, false);
            each("names", find_names, &it, NAMES, false);
            each("names of partials", find_called, &it, CALLED, false);
            each("share", share, &it, SHARED, true);
            if (!is_same(PAGE, render_shared(&it), ended, page)) report("render of what is shared", 0, ended, "and another page");
            each("paths", find_paths, &it, PATHS, false);
            each("data for the template", read_for, &it, READ, false);
            each("key", make_key, &it, KEY, false);
            if (!is_same_page(render_read(&it), ended, page, length)) report("render of what is read for it", 0, ended, "and another page");
            free(page.at);
            each("render of what is read for it", render_read, &it, PAGE, false);
            each("render where what is missing is nil", render_lenient, &it, WITHIN, false);
        }
        free(it.source.at), free(it.data.at);
        for (int at = TEMPLATE; at < HANDLES; at++) bikleinu_free(&held[at]);
        if (blocks != before) report("all its calls", 0, BIKLEINU_DONE, "and memory is left behind");
    }
    bikleinu_free(&held[LANGUAGE]);
    printf("rows: %zu calls: %zu refused: %zu\n", rows, calls, refused);
    return wrong != 0;
}
