/* Renderings, without Ruby's lock. */
#include "bikleinu_ext.h"

enum { TEMPLATE, DATA, PARTIALS, ANSWERS, USES };

/* For how many levels the first larger stack has room, and so many times as many each further one. */
enum { FIRST = 4096, STEP = 16 };

/* A rendering with all that it is given, what it makes and what it answers. */
typedef struct {
    VALUE given[USES];
    use uses[USES];
    held *page;
    uint32_t depth, levels, number;
    bikleinu_limits limits;
    size_t left;
    bool ran;
} rendering;

static void render_once(void *given) {
    rendering *it = given;
    bikleinu_handle *template_ = used(&it->uses[TEMPLATE]), *data = used(&it->uses[DATA]), *partials = used(&it->uses[PARTIALS]);
    bikleinu_handle *page = &it->page->own;
    if (NIL_P(it->given[ANSWERS])) it->number = bikleinu_render_within(template_, data, partials, it->depth, &it->limits, page);
    else it->number = bikleinu_render_with(template_, data, partials, it->depth, &it->limits, used(&it->uses[ANSWERS]), page);
}

/* Renders with as many levels as this stack has room for, if it has enough for a call that finds what a template asks of data, and where that isn't enough, in a thread with a larger one: up to the levels
 * that are allowed. */
static void render_on_some_stack(void *given) {
    rendering *it = given;
    size_t room = it->left > BIKLEINU_REST_STACK ? (it->left - BIKLEINU_REST_STACK) / BIKLEINU_LEVEL_STACK : 0;
    it->number = BIKLEINU_TOO_MANY_LEVELS;
    if (room && it->left >= BIKLEINU_CALL_STACK) {
        it->limits.levels = room < it->levels ? (uint32_t)room : it->levels;
        render_once(it);
    }
    for (uint64_t most = FIRST; it->number == BIKLEINU_TOO_MANY_LEVELS && it->limits.levels < it->levels; most *= STEP) {
        it->limits.levels = most < it->levels ? (uint32_t)most : it->levels;
        it->number = BIKLEINU_MEMORY;
        on_stack(render_once, it, BIKLEINU_REST_STACK + (size_t)it->limits.levels * BIKLEINU_LEVEL_STACK);
    }
}

static VALUE begin_and_render(VALUE given) {
    rendering *it = (rendering *)given;
    for (int at = 0; at < USES; at++) begin_use(&it->uses[at], it->given[at]);
    it->left = stack_left();
    it->ran = without_lock(render_on_some_stack, it);
    return Qnil;
}

static VALUE end_all(VALUE given) {
    rendering *it = (rendering *)given;
    for (int at = 0; at < USES; at++) end_use(&it->uses[at]);
    return Qnil;
}

/* The page of a template over data, with partials and answers, each of them or nil, so deep, within limits: levels, bytes, turns and
 * whether what is missing is nil. */
static VALUE render(VALUE self, VALUE data, VALUE partials, VALUE answers, VALUE depth, VALUE limits) {
    rendering it = {.given = {self, data, partials, answers}, .depth = NUM2UINT(depth)};
    Check_Type(limits, T_ARRAY);
    it.levels = NUM2UINT(rb_ary_entry(limits, 0));
    it.limits.bytes = NUM2ULL(rb_ary_entry(limits, 1));
    it.limits.turns = NUM2ULL(rb_ary_entry(limits, 2));
    it.limits.missing = RTEST(rb_ary_entry(limits, 3));
    if (!it.levels) it.levels = BIKLEINU_LEVELS;
    if (self == data || self == partials || self == answers) rb_raise(rb_eArgError, "one object is given twice");
    VALUE object = new_held(&it.page);
    while (!it.ran) {
        rb_ensure(begin_and_render, (VALUE)&it, end_all, (VALUE)&it);
        rb_thread_check_ints();
    }
    it.page->number = checked(it.number);
    RB_GC_GUARD(object);
    return object;
}

void init_render(void) { rb_define_method(handle_class, "render", render, 5); }
