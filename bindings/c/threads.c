/* Ten thousand mails by four threads over one template, with a filter of one's own: each thread has handles of its own on the template and
 * the partials, by bikleinu_share, and a table of answers of its own. A mail whose price is below 0 ends by a fault, reported with
 * its number and its place. */
#include <inttypes.h>
#include <pthread.h>
#include <stdio.h>
#include <stdlib.h>
#include <string.h>

#include "bikleinu.h"

enum { THREADS = 4, MAILS = 10000, ROUNDS = 10, ROOM = 4096 };

static bikleinu_handle template_, partials;
static const bikleinu_limits usual = {.bytes = BIKLEINU_ANY, .turns = BIKLEINU_ANY};
/* how each mail ended, and the column of its fault */
static uint32_t ended[MAILS];
static size_t columns[MAILS];

typedef struct {
    size_t first;
    bikleinu_handle template_, partials;
} job;

static const uint8_t *bytes(const char *text) { return (const uint8_t *)text; }

static void need(uint32_t answer, const char *what) {
    if (answer == BIKLEINU_DONE) return;
    printf("%s: %u\n", what, (unsigned)answer);
    exit(1);
}

/* Answers the only call of a mail, as [["money",1999]]. */
static void answer(bikleinu_handle *answers, bikleinu_handle *calls) {
    static const char refused[] = "no price is below 0";
    char text[ROOM], json[80];
    text[bikleinu_copy(calls, BIKLEINU_TEXT, (uint8_t *)text, sizeof text - 1)] = 0;
    int64_t cents = strtoll(text + strlen("[[\"money\","), NULL, 10);
    if (cents < 0) {
        need(bikleinu_refuse(answers, calls, 0, BIKLEINU_INVALID_INPUT, bytes(refused), strlen(refused)), "refuse");
        return;
    }
    bikleinu_handle data = BIKLEINU_NONE;
    snprintf(json, sizeof json, "{\"answer\":\"%" PRId64 ".%02" PRId64 " EUR\"}", cents / 100, cents % 100);
    need(bikleinu_data(bytes(json), strlen(json), &data), "data");
    need(bikleinu_answer(answers, calls, 0, &data), "answer");
    bikleinu_free(&data);
}

/* Renders a mail, and writes how it ended. One that isn't as it should be counts as a page of another kind. */
static void render(job *it, size_t number, bikleinu_handle *answers, bikleinu_handle *page) {
    int cents = number % 1000 ? (int)(number % 500) : -1;
    char json[80], wanted[80], text[ROOM];
    bikleinu_handle data = BIKLEINU_NONE;
    snprintf(json, sizeof json, "{\"name\":%zu,\"cents\":%d}", number, cents);
    snprintf(wanted, sizeof wanted, "Dear %zu: %d.%02d EUR, yours", number, cents / 100, cents % 100);
    need(bikleinu_data(bytes(json), strlen(json), &data), "data");
    uint32_t answered = BIKLEINU_LACKING;
    for (int round = 0; round < ROUNDS && answered == BIKLEINU_LACKING; round++) {
        if (round) answer(answers, page);
        answered = bikleinu_render_with(&it->template_, &data, &it->partials, 32, &usual, answers, page);
    }
    text[bikleinu_copy(page, BIKLEINU_TEXT, (uint8_t *)text, sizeof text - 1)] = 0;
    ended[number] = answered == BIKLEINU_DONE && strcmp(text, wanted) ? BIKLEINU_UNEXPECTED_VALUE : answered;
    size_t line;
    if (answered) bikleinu_location(page, &line, &columns[number]);
    bikleinu_free(&data);
}

static void *run(void *argument) {
    job *it = argument;
    bikleinu_handle answers = BIKLEINU_NONE, page = BIKLEINU_NONE;
    need(bikleinu_answers(&answers), "answers");
    need(bikleinu_answers_filter(&answers, bytes("money"), 5), "filter");
    for (size_t number = it->first; number < MAILS; number += THREADS) render(it, number, &answers, &page);
    bikleinu_free(&page), bikleinu_free(&answers), bikleinu_free(&it->template_), bikleinu_free(&it->partials);
    return NULL;
}

static void parse(bikleinu_handle *language, const char *source, bikleinu_handle *made) {
    need(bikleinu_parse(language, bytes(source), strlen(source), made), "parse");
}

int main(void) {
    bikleinu_handle language = BIKLEINU_NONE, end = BIKLEINU_NONE;
    need(bikleinu_language(&language), "language");
    need(bikleinu_register(&language, bytes("money"), 5, 0, 0), "register");
    parse(&language, "Dear {{ name }}: {{ cents | money }}{% render 'end' %}", &template_);
    parse(&language, ", yours", &end);
    need(bikleinu_partials(&partials), "partials");
    need(bikleinu_insert(&partials, bytes("end"), 3, &end), "insert");
    pthread_t threads[THREADS];
    job jobs[THREADS] = {{0}};
    for (size_t at = 0; at < THREADS; at++) {
        jobs[at].first = at;
        need(bikleinu_share(&template_, &jobs[at].template_), "share");
        need(bikleinu_share(&partials, &jobs[at].partials), "share");
        need((uint32_t)pthread_create(&threads[at], NULL, run, &jobs[at]), "thread");
    }
    for (size_t at = 0; at < THREADS; at++) pthread_join(threads[at], NULL);
    size_t well = 0;
    for (size_t number = 0; number < MAILS; number++) {
        well += ended[number] == BIKLEINU_DONE;
        if (ended[number]) printf("mail %zu: fault %u in column %zu\n", number, (unsigned)ended[number], columns[number]);
    }
    printf("%zu of %d mails\n", well, MAILS);
    bikleinu_free(&template_), bikleinu_free(&partials), bikleinu_free(&language);
    return fflush(stdout) || ferror(stdout); /* what was printed has to be written */
}
