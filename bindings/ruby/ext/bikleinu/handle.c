/* Bikleinu::Handle: what a handle of the library holds, freed by Ruby's collector, and what is read there.
 *
 * All of this runs under Ruby's lock. Where a call releases it, what other threads may use meanwhile is lent to the call by a handle of
 * its own, and anything else is busy until the call has ended. */
#include "bikleinu_ext.h"

VALUE handle_class;

/* Says to Ruby's collector how much memory an object may hold, which Ruby doesn't see. */
void weigh(held *it, size_t weight) {
    ssize_t most = SSIZE_MAX / 2, by = (ssize_t)(weight < (size_t)most ? weight : (size_t)most);
    rb_gc_adjust_memory_usage(by - it->weight);
    it->weight = by;
}

static void free_held(void *given) {
    held *it = given;
    weigh(it, 0);
    bikleinu_free(&it->own);
    while (it->spare) {
        lent *next = it->spare->next;
        bikleinu_free(&it->spare->handle);
        xfree(it->spare);
        it->spare = next;
    }
    xfree(it);
}

static size_t size_of_held(const void *given) {
    const held *it = given;
    size_t size = sizeof *it + (size_t)it->weight;
    for (const lent *at = it->spare; at; at = at->next) size += sizeof *at;
    return size;
}

static const rb_data_type_t type = {
    .wrap_struct_name = "bikleinu_handle",
    .function = {.dfree = free_held, .dsize = size_of_held},
    .flags = RUBY_TYPED_FREE_IMMEDIATELY,
};

held *held_of(VALUE object) { return rb_check_typeddata(object, &type); }

/* An object that holds nothing yet. */
VALUE new_held(held **made) { return TypedData_Make_Struct(handle_class, held, &type, *made); }

/* The number that a call answered, where it isn't that there was no memory. */
uint32_t checked(uint32_t number) {
    if (number == BIKLEINU_MEMORY) rb_raise(rb_eNoMemError, "no memory was to be had");
    return number;
}

static lent *new_lent(held *it) {
    lent *made = ALLOC(lent);
    *made = (lent){BIKLEINU_NONE, NULL};
    uint32_t number = bikleinu_share(&it->own, &made->handle);
    if (number) {
        xfree(made);
        checked(number);
        rb_raise(rb_eRuntimeError, "a handle isn't shared: %u", (unsigned)number);
    }
    return made;
}

/* Takes a handle for a call on what an object holds, or on nothing for nil. Nothing is taken where an error is raised. */
void begin_use(use *it, VALUE object) {
    *it = (use){NULL, NULL, BIKLEINU_NONE};
    if (NIL_P(object)) return;
    held *from = held_of(object);
    if (from->is_lent) {
        lent *found = from->spare;
        if (found) from->spare = found->next;
        else found = new_lent(from);
        it->lent = found;
    } else {
        if (from->is_busy) rb_raise(rb_eThreadError, "another thread uses this");
        from->is_busy = true;
    }
    it->of = from;
}

/* The handle that a call uses. */
bikleinu_handle *used(use *it) { return it->lent ? &it->lent->handle : it->of ? &it->of->own : &it->none; }

/* Gives back what a call used. */
void end_use(use *it) {
    if (!it->of) return;
    if (it->lent) {
        it->lent->next = it->of->spare;
        it->of->spare = it->lent;
    } else {
        it->of->is_busy = false;
    }
    *it = (use){NULL, NULL, BIKLEINU_NONE};
}

/* The handle itself, which no call has now. */
static bikleinu_handle *own(VALUE self) {
    held *it = held_of(self);
    if (it->is_busy) rb_raise(rb_eThreadError, "another thread uses this");
    return &it->own;
}

static VALUE number(VALUE self) { return UINT2NUM(held_of(self)->number); }

/* Frees what it holds, before Ruby's collector would. */
static VALUE release(VALUE self) {
    bikleinu_free(own(self));
    weigh(held_of(self), 0);
    return self;
}

/* From now on calls in several threads may use it, and none changes it. */
static VALUE lend(VALUE self) {
    held_of(self)->is_lent = true;
    return self;
}

/* A part of what it holds, as text. */
static VALUE text(VALUE self, VALUE part) {
    uint32_t which = NUM2UINT(part);
    bikleinu_handle *handle = own(self);
    size_t length = bikleinu_length(handle, which);
    if (length > LONG_MAX) rb_raise(rb_eNoMemError, "no memory for a text");
    VALUE made = rb_utf8_str_new(NULL, (long)length);
    bikleinu_copy(handle, which, (uint8_t *)RSTRING_PTR(made), length);
    return made;
}

/* In which text a fault stands, its line and its column, or nil. */
static VALUE location(VALUE self) {
    size_t line = 0, column = 0;
    uint32_t found = bikleinu_location(own(self), &line, &column);
    return found ? rb_ary_new_from_args(3, UINT2NUM(found), SIZET2NUM(line), SIZET2NUM(column)) : Qnil;
}

void init_handle(VALUE module) {
    handle_class = rb_define_class_under(module, "Handle", rb_cObject);
    rb_gc_register_mark_object(handle_class);
    rb_undef_alloc_func(handle_class);
    rb_undef_method(handle_class, "initialize_copy");
    rb_define_method(handle_class, "number", number, 0);
    rb_define_method(handle_class, "lend", lend, 0);
    rb_define_method(handle_class, "release", release, 0);
    rb_define_method(handle_class, "text", text, 1);
    rb_define_method(handle_class, "location", location, 0);
}
