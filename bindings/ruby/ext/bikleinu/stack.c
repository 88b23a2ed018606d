/* Room on the stack for calls of the library. Ruby's threads and fibers have as little as its settings say, and a call that went past
 * the end would end the process. So a call that may not fit runs in a thread of its own, which has a stack as large as it needs. */
#include "bikleinu_ext.h"

#include <pthread.h>

enum { MARGIN = 65536, FALLBACK = 262144 };

/* How large the smallest stack of Ruby's is: that of a fiber, or of a thread. */
static size_t smallest = FALLBACK;

/* How many bytes of stack a call may surely take here. */
size_t stack_left(void) {
    size_t used = ruby_stack_length(NULL) * sizeof(VALUE) + MARGIN;
    return used < smallest ? smallest - used : 0;
}

typedef struct {
    void (*call)(void *);
    void *with;
    bool ran;
} work;

static void *run(void *given) {
    work *it = given;
    it->call(it->with);
    return NULL;
}

/* Makes a call in a thread with so many bytes of stack. Whether there was one: else the call wasn't made. */
bool on_stack(void (*call)(void *), void *with, size_t need) {
    work it = {call, with, false};
    pthread_attr_t how;
    pthread_t thread;
    if (pthread_attr_init(&how)) return false;
    bool made = !pthread_attr_setstacksize(&how, (need + MARGIN + 4095) / 4096 * 4096) && !pthread_create(&thread, &how, run, &it);
    pthread_attr_destroy(&how);
    if (made) pthread_join(thread, NULL);
    return made;
}

/* Makes a call of the library that runs no page, where there is room for it. */
void call_library(void (*call)(void *), void *with) {
    if (stack_left() >= BIKLEINU_CALL_STACK) call(with);
    else on_stack(call, with, BIKLEINU_CALL_STACK);
}

static void *run_released(void *given) {
    work *it = given;
    it->call(it->with);
    it->ran = true;
    return NULL;
}

/* Makes a call without Ruby's lock. Whether it was made: it isn't where this thread is interrupted first. */
bool without_lock(void (*call)(void *), void *with) {
    work it = {call, with, false};
    rb_thread_call_without_gvl2(run_released, &it, NULL, NULL);
    return it.ran;
}

static void take_smaller(VALUE settings, const char *name) {
    VALUE size = rb_hash_lookup(settings, ID2SYM(rb_intern(name)));
    if (FIXNUM_P(size) && FIX2LONG(size) > 0 && (size_t)FIX2LONG(size) < smallest) smallest = (size_t)FIX2LONG(size);
}

void init_stack(void) {
    if (!rb_const_defined(rb_cObject, rb_intern("RubyVM"))) return;
    VALUE machine = rb_const_get(rb_cObject, rb_intern("RubyVM"));
    if (!rb_const_defined(machine, rb_intern("DEFAULT_PARAMS"))) return;
    VALUE settings = rb_const_get(machine, rb_intern("DEFAULT_PARAMS"));
    if (!RB_TYPE_P(settings, T_HASH)) return;
    smallest = SIZE_MAX;
    take_smaller(settings, "thread_machine_stack_size");
    take_smaller(settings, "fiber_machine_stack_size");
    if (smallest == SIZE_MAX) smallest = FALLBACK;
}
