/* A filter of one's own: {{ 1999 | money }} is 19.99 EUR. The library tells which calls it lacks answers to, gets them, and renders
 * again. The calls are JSON, which a program would read by a library; here each is known to be of one filter, with a number as input. */
#include <inttypes.h>
#include <stdio.h>
#include <stdlib.h>
#include <string.h>

#include "bikleinu.h"

enum { ROUNDS = 10, ROOM = 4096 };

static const uint8_t *bytes(const char *text) { return (const uint8_t *)text; }

static void need(uint32_t answer, const char *what) {
    if (answer == BIKLEINU_DONE) return;
    printf("%s: %u\n", what, (unsigned)answer);
    exit(1);
}

/* Answers one call, whose input is these cents. */
static void answer(bikleinu_handle *answers, bikleinu_handle *calls, size_t number, int64_t cents) {
    static const char refused[] = "no price is below 0";
    if (cents < 0) {
        need(bikleinu_refuse(answers, calls, number, BIKLEINU_INVALID_INPUT, bytes(refused), strlen(refused)), "refuse");
        return;
    }
    char json[80];
    bikleinu_handle data = BIKLEINU_NONE;
    snprintf(json, sizeof json, "{\"answer\":\"%" PRId64 ".%02" PRId64 " EUR\"}", cents / 100, cents % 100);
    need(bikleinu_data(bytes(json), strlen(json), &data), "data");
    need(bikleinu_answer(answers, calls, number, &data), "answer");
    bikleinu_free(&data);
}

/* Answers all calls that the handle holds, as [["money",1999],["money",250]]. */
static void answer_all(bikleinu_handle *answers, bikleinu_handle *calls) {
    uint8_t text[ROOM];
    size_t length = bikleinu_copy(calls, BIKLEINU_TEXT, text, sizeof text - 1);
    text[length] = 0;
    const char *at = (const char *)text;
    for (size_t number = 0; number < bikleinu_calls(calls); number++) {
        at = strstr(at, "[\"money\",");
        if (!at) abort();
        at += strlen("[\"money\",");
        answer(answers, calls, number, strtoll(at, NULL, 10));
    }
}

/* Renders a template, and writes its text and how it ended. */
static void show(bikleinu_handle *language, bikleinu_handle *answers, const char *source) {
    bikleinu_handle template_ = BIKLEINU_NONE, none = BIKLEINU_NONE, no_partials = BIKLEINU_NONE, page = BIKLEINU_NONE;
    bikleinu_limits limits = {.bytes = BIKLEINU_ANY, .turns = BIKLEINU_ANY};
    uint8_t text[ROOM];
    need(bikleinu_parse(language, bytes(source), strlen(source), &template_), "parse");
    uint32_t ended = BIKLEINU_LACKING;
    int round = 0;
    for (; round < ROUNDS && ended == BIKLEINU_LACKING; round++) {
        if (round) answer_all(answers, &page);
        ended = bikleinu_render_with(&template_, &none, &no_partials, 32, &limits, answers, &page);
    }
    printf("%.*s (%u, in %d)\n", (int)bikleinu_copy(&page, BIKLEINU_TEXT, text, sizeof text), (char *)text, (unsigned)ended, round);
    if (ended == BIKLEINU_INVALID_INPUT)
        printf("%.*s\n", (int)bikleinu_copy(&page, BIKLEINU_MESSAGE, text, sizeof text), (char *)text);
    bikleinu_free(&page), bikleinu_free(&template_);
}

int main(void) {
    bikleinu_handle language = BIKLEINU_NONE, answers = BIKLEINU_NONE;
    need(bikleinu_language(&language), "language");
    need(bikleinu_register(&language, bytes("money"), 5, 0, 0), "register");
    need(bikleinu_answers(&answers), "answers");
    need(bikleinu_answers_filter(&answers, bytes("money"), 5), "filter");
    show(&language, &answers, "{{ 1999 | money }}, {{ 250 | money }}, {{ 1999 | money }}");
    show(&language, &answers, "{{ 250 | money }}");
    show(&language, &answers, "at {{ -1 | money }}");
    bikleinu_free(&answers), bikleinu_free(&language);
    return fflush(stdout) || ferror(stdout); /* what was printed has to be written */
}
