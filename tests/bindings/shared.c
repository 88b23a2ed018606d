/* One template, its data and its partials in eight threads, each with handles of its own on them: every page is the one that a single
 * thread renders, while one thread after another shares them and frees its own. Then what can't be done with what is shared. Memory that
 * is left behind is counted. A line tells each thing that isn't well, and the last one "shared: N". */
#define _GNU_SOURCE
#include <pthread.h>
#include <stdatomic.h>
#include <stdio.h>
#include <stdlib.h>
#include <string.h>

#include "bikleinu.h"

extern void *__libc_malloc(size_t), *__libc_calloc(size_t, size_t), *__libc_realloc(void *, size_t);
extern void __libc_free(void *);

#ifndef PAGES
#define PAGES 2000
#endif

enum { THREADS = 8, ROOM = 4096 };

static atomic_size_t blocks, tests, wrong;

#ifndef UNCOUNTED
void *malloc(size_t size) {
    void *made = __libc_malloc(size);
    blocks += made != NULL;
    return made;
}

void *calloc(size_t count, size_t size) {
    void *made = __libc_calloc(count, size);
    blocks += made != NULL;
    return made;
}

void *realloc(void *old, size_t size) {
    void *made = __libc_realloc(old, size);
    blocks += !old && made;
    return made;
}

void free(void *old) {
    blocks -= old != NULL;
    __libc_free(old);
}
#endif

static const char source[] = "{% for i in items %}{{ i.what | upcase }}{% render 'end', n: i.count %}{% endfor %}{{ name }}";
static const char inner[] = " x {{ n | plus: 1 }}, ";
static const char json[] = "{\"name\":\"Ada\",\"items\":[{\"what\":\"gear\",\"count\":2},{\"what\":\"spring\",\"count\":40}]}";
static const char page_text[] = "GEAR x 3, SPRING x 41, Ada";

enum { TEMPLATE, DATA, PARTIALS, PARTS };

static bikleinu_handle parts[PARTS];
/* only a thread that holds this uses the handles that all have in common */
static pthread_mutex_t common = PTHREAD_MUTEX_INITIALIZER;

static const uint8_t *bytes(const char *text) { return (const uint8_t *)text; }

static void is(const char *what, uint32_t found, uint32_t wanted) {
    tests++;
    if (found == wanted) return;
    wrong++;
    printf("%s: %u, not %u\n", what, (unsigned)found, (unsigned)wanted);
}

static bool reads(bikleinu_handle *handle, const char *wanted) {
    char text[ROOM];
    text[bikleinu_copy(handle, BIKLEINU_TEXT, (uint8_t *)text, ROOM - 1)] = 0;
    return !strcmp(text, wanted);
}

static bool share(bikleinu_handle own[PARTS]) {
    bool well = true;
    pthread_mutex_lock(&common);
    for (int at = 0; at < PARTS; at++) well = !bikleinu_share(&parts[at], &own[at]) && well;
    pthread_mutex_unlock(&common);
    return well;
}

/* Renders PAGES pages, and begins anew with other handles after every hundredth. */
static void *run(void *argument) {
    size_t *well = argument;
    bikleinu_handle own[PARTS] = {BIKLEINU_NONE}, page = BIKLEINU_NONE;
    for (int at = 0; at < PAGES; at++) {
        if (at % 100 == 0 && !share(own)) break;
        if (bikleinu_render(&own[TEMPLATE], &own[DATA], &own[PARTIALS], 32, &page) == BIKLEINU_DONE && reads(&page, page_text)) ++*well;
    }
    for (int at = 0; at < PARTS; at++) bikleinu_free(&own[at]);
    bikleinu_free(&page);
    return NULL;
}

/* Runs this in each thread, of which the first gets the argument, and each further one the next. */
static void in_threads(void *(*run)(void *), size_t arguments[THREADS]) {
    pthread_t threads[THREADS];
    pthread_attr_t small;
    pthread_attr_init(&small);
    pthread_attr_setstacksize(&small, 1 << 20);
    for (int at = 0; at < THREADS; at++) is("a thread", (uint32_t)pthread_create(&threads[at], &small, run, &arguments[at]), 0);
    for (int at = 0; at < THREADS; at++) pthread_join(threads[at], NULL);
    pthread_attr_destroy(&small);
}

static pthread_barrier_t all_here;

/* Ends when all threads are there, so that what the C library keeps for so many is taken. */
static void *wait_for_all(void *argument) {
    pthread_barrier_wait(&all_here);
    return argument;
}

/* What is shared is rendered, and neither changed nor moved until the other handles are freed. */
static void what_is_shared(bikleinu_handle *language) {
    bikleinu_handle other = BIKLEINU_NONE, made = BIKLEINU_NONE, none = BIKLEINU_NONE;
    is("nothing to share", bikleinu_share(&none, &made), BIKLEINU_OTHER_HANDLE);
    is("a template", bikleinu_parse(language, bytes(inner), strlen(inner), &other), BIKLEINU_DONE);
    is("partials", bikleinu_share(&parts[PARTIALS], &made), BIKLEINU_DONE);
    is("into shared partials", bikleinu_insert(&parts[PARTIALS], bytes("a"), 1, &other), BIKLEINU_SHARED_HANDLE);
    is("into them by the other", bikleinu_insert(&made, bytes("a"), 1, &other), BIKLEINU_SHARED_HANDLE);
    bikleinu_free(&made);
    is("into partials that were shared", bikleinu_insert(&parts[PARTIALS], bytes("a"), 1, &other), BIKLEINU_DONE);
    is("a template", bikleinu_share(&parts[TEMPLATE], &made), BIKLEINU_DONE);
    is("a shared template", bikleinu_insert(&parts[PARTIALS], bytes("b"), 1, &parts[TEMPLATE]), BIKLEINU_SHARED_HANDLE);
    bikleinu_free(&made);
    is("one that was shared", bikleinu_insert(&parts[PARTIALS], bytes("b"), 1, &parts[TEMPLATE]), BIKLEINU_DONE);
    is("a language", bikleinu_share(language, &other), BIKLEINU_DONE);
    is("a shared language", bikleinu_register(language, bytes("money"), 5, 0, 1), BIKLEINU_SHARED_HANDLE);
    is("what it parses", bikleinu_parse(&other, bytes("{{ 1 | plus: 1 }}"), 17, &made), BIKLEINU_DONE);
    bikleinu_free(&other);
    is("a language that was shared", bikleinu_register(language, bytes("money"), 5, 0, 1), BIKLEINU_DONE);
    is("the page", bikleinu_render(&made, &none, &none, 0, &other), BIKLEINU_DONE);
    is("its text", reads(&other, "2"), true);
    is("a page", bikleinu_share(&other, &made), BIKLEINU_DONE);
    bikleinu_free(&other);
    is("its text", reads(&made, "2"), true);
    is("a table", bikleinu_answers(&made), BIKLEINU_DONE);
    is("a shared table", bikleinu_share(&made, &other), BIKLEINU_DONE);
    is("a name for it", bikleinu_answers_filter(&other, bytes("money"), 5), BIKLEINU_SHARED_HANDLE);
    bikleinu_free(&made), bikleinu_free(&other);
}

int main(void) {
    size_t well[THREADS] = {0};
    pthread_barrier_init(&all_here, NULL, THREADS);
    in_threads(wait_for_all, well);
    size_t before = blocks;
    bikleinu_handle language = BIKLEINU_NONE, end = BIKLEINU_NONE;
    is("language", bikleinu_language(&language), BIKLEINU_DONE);
    is("parse", bikleinu_parse(&language, bytes(source), strlen(source), &parts[TEMPLATE]), BIKLEINU_DONE);
    is("data", bikleinu_data(bytes(json), strlen(json), &parts[DATA]), BIKLEINU_DONE);
    is("partials", bikleinu_partials(&parts[PARTIALS]), BIKLEINU_DONE);
    is("a partial", bikleinu_parse(&language, bytes(inner), strlen(inner), &end), BIKLEINU_DONE);
    is("insert", bikleinu_insert(&parts[PARTIALS], bytes("end"), 3, &end), BIKLEINU_DONE);
    in_threads(run, well);
    for (int at = 0; at < THREADS; at++) is("the pages of a thread", (uint32_t)well[at], PAGES);
    what_is_shared(&language);
    for (int at = 0; at < PARTS; at++) bikleinu_free(&parts[at]);
    bikleinu_free(&language);
    is("memory left behind", (uint32_t)(blocks - before), 0);
    printf("shared: %zu\n", (size_t)tests);
    return wrong != 0;
}
