/* The calls of the library that run no page. What one makes is a Bikleinu::Handle, whose number says whether all is well. */
#include "bikleinu_ext.h"

/* From so many bytes on Ruby's lock is released while they are read, and a byte of a text takes some so many of what is made of it. */
enum { LONG_TEXT = 65536, WEIGHT = 4 };

typedef enum {
    LANGUAGE, JEKYLL, SET, REGISTER, JEKYLLS, TAG, BLOCK, ESCAPE, PARSE, DATA, DATA_FOR, KEY, PARTIALS, INSERT, NAMES, PATHS, ANSWERS, FILTER,
    SITE, OF_SET, ANSWER, REFUSE
} which;

/* A call with all that one may be given, and what it answers: that there is no memory, where it isn't made. */
typedef struct {
    which which;
    bikleinu_handle *on, *with, *made;
    const uint8_t *text, *other, *given;
    size_t length, first, second;
    uint32_t kind, number;
} call;

static void make(void *given) {
    call *it = given;
    switch (it->which) {
    case LANGUAGE: it->number = bikleinu_language(it->made); break;
    case JEKYLL: it->number = bikleinu_jekyll_language(it->made); break;
    case SET: it->number = bikleinu_set_language(it->kind, it->made); break;
    case REGISTER: it->number = bikleinu_register(it->on, it->text, it->length, it->first, it->second); break;
    case JEKYLLS: it->number = bikleinu_register_jekyll(it->on); break;
    case TAG:
        it->number = bikleinu_register_tag_given(it->on, it->text, it->length, it->other, it->first, it->kind, it->given, it->second);
        break;
    case BLOCK:
        it->number = bikleinu_register_block_given(it->on, it->text, it->length, it->other, it->first, it->kind, it->given, it->second);
        break;
    case ESCAPE: it->number = bikleinu_escape_html(it->on); break;
    case PARSE: it->number = bikleinu_parse(it->on, it->text, it->length, it->made); break;
    case DATA: it->number = bikleinu_data(it->text, it->length, it->made); break;
    case DATA_FOR: it->number = bikleinu_data_for(it->text, it->length, it->with, it->made); break;
    case KEY: it->number = bikleinu_seen_key(it->text, it->length, it->with, it->made); break;
    case PARTIALS: it->number = bikleinu_partials(it->made); break;
    case INSERT: it->number = bikleinu_insert(it->on, it->text, it->length, it->with); break;
    case NAMES: it->number = bikleinu_names(it->on, it->with, it->made); break;
    case PATHS: it->number = bikleinu_paths(it->on, it->with, it->made); break;
    case ANSWERS: it->number = bikleinu_answers(it->made); break;
    case FILTER: it->number = bikleinu_answers_filter(it->on, it->text, it->length); break;
    case SITE: it->number = bikleinu_answers_jekyll(it->on, it->text, it->length, it->other, it->first); break;
    case OF_SET: it->number = bikleinu_answers_set(it->on, it->kind, it->with); break;
    case ANSWER: it->number = bikleinu_answer(it->on, it->with, it->first, it->made); break;
    case REFUSE: it->number = bikleinu_refuse(it->on, it->with, it->first, it->kind, it->text, it->length); break;
    }
}

/* The handle of an object that no other call uses now. */
static bikleinu_handle *alone(VALUE object) {
    held *it = held_of(object);
    if (it->is_busy) rb_raise(rb_eThreadError, "another thread uses this");
    return &it->own;
}

static void give_text(call *it, VALUE text) {
    StringValue(text);
    it->text = (const uint8_t *)RSTRING_PTR(text);
    it->length = (size_t)RSTRING_LEN(text);
}

/* Makes a call, and an object of what it makes. */
static VALUE made_by(call *it) {
    held *made;
    VALUE object = new_held(&made);
    it->made = &made->own;
    it->number = BIKLEINU_MEMORY;
    call_library(make, it);
    made->number = checked(it->number);
    return object;
}

static VALUE answered_by(call *it) {
    it->number = BIKLEINU_MEMORY;
    call_library(make, it);
    return UINT2NUM(checked(it->number));
}

static VALUE language(VALUE class, VALUE is_jekyll) { return (void)class, made_by(&(call){.which = RTEST(is_jekyll) ? JEKYLL : LANGUAGE}); }
static VALUE set_language(VALUE class, VALUE set) { return (void)class, made_by(&(call){.which = SET, .kind = NUM2UINT(set)}); }
static VALUE partials(VALUE class) { return (void)class, made_by(&(call){.which = PARTIALS}); }
static VALUE answers(VALUE class) { return (void)class, made_by(&(call){.which = ANSWERS}); }

static VALUE register_filter(VALUE self, VALUE name, VALUE least, VALUE most) {
    call it = {.which = REGISTER, .on = alone(self), .first = NUM2SIZET(least), .second = NUM2SIZET(most)};
    give_text(&it, name);
    VALUE answer = answered_by(&it);
    RB_GC_GUARD(name);
    return answer;
}

static VALUE register_jekyll(VALUE self) { return answered_by(&(call){.which = JEKYLLS, .on = alone(self)}); }
static VALUE escape_html(VALUE self) { return answered_by(&(call){.which = ESCAPE, .on = alone(self)}); }

/* A call that is given two texts. */
static VALUE answered_of_two(call *it, VALUE text, VALUE other) {
    StringValue(other);
    give_text(it, text);
    it->other = (const uint8_t *)RSTRING_PTR(other);
    it->first = (size_t)RSTRING_LEN(other);
    VALUE answer = answered_by(it);
    RB_GC_GUARD(text);
    RB_GC_GUARD(other);
    return answer;
}

/* Registers a tag or a block, which calls a filter, whose markup is read in the style of this number, and which is given these values. */
static VALUE registered(which what, VALUE self, VALUE name, VALUE filter, VALUE style, VALUE given) {
    StringValue(given);
    call it = {.which = what, .on = alone(self), .kind = NUM2UINT(style), .given = (const uint8_t *)RSTRING_PTR(given), .second = (size_t)RSTRING_LEN(given)};
    VALUE answer = answered_of_two(&it, name, filter);
    RB_GC_GUARD(given);
    return answer;
}

static VALUE register_tag(VALUE self, VALUE name, VALUE filter, VALUE style, VALUE given) { return registered(TAG, self, name, filter, style, given); }
static VALUE register_block(VALUE self, VALUE name, VALUE filter, VALUE style, VALUE given) { return registered(BLOCK, self, name, filter, style, given); }

static VALUE parse(VALUE self, VALUE source) {
    call it = {.which = PARSE, .on = alone(self)};
    give_text(&it, source);
    VALUE made = made_by(&it);
    weigh(held_of(made), it.length < SIZE_MAX / WEIGHT ? it.length * WEIGHT : it.length);
    RB_GC_GUARD(source);
    return made;
}

static VALUE insert(VALUE self, VALUE name, VALUE template_) {
    if (self == template_) rb_raise(rb_eArgError, "partials go into no partials");
    call it = {.which = INSERT, .on = alone(self), .with = alone(template_)};
    give_text(&it, name);
    VALUE answer = answered_by(&it);
    RB_GC_GUARD(name);
    return answer;
}

/* The handle of one more object of a call, to which none is given twice. */
static bikleinu_handle *another(VALUE object, VALUE self) {
    if (object == self) rb_raise(rb_eArgError, "one object is given twice");
    return alone(object);
}

/* What a template and its partials, or nil, mention or ask for. */
static VALUE found(which asked, VALUE self, VALUE others) {
    bikleinu_handle none = BIKLEINU_NONE;
    return made_by(&(call){.which = asked, .on = alone(self), .with = NIL_P(others) ? &none : another(others, self)});
}

static VALUE names(VALUE self, VALUE others) { return found(NAMES, self, others); }
static VALUE paths(VALUE self, VALUE others) { return found(PATHS, self, others); }

static VALUE add_filter(VALUE self, VALUE name) {
    call it = {.which = FILTER, .on = alone(self)};
    give_text(&it, name);
    VALUE answer = answered_by(&it);
    RB_GC_GUARD(name);
    return answer;
}

/* Puts the address and the base path of a site into a table. */
static VALUE set_site(VALUE self, VALUE address, VALUE base) { return answered_of_two(&(call){.which = SITE, .on = alone(self)}, address, base); }

/* Lets a table answer the filters of a set, over what data say. */
static VALUE use_set(VALUE self, VALUE set, VALUE data) {
    call it = {.which = OF_SET, .on = alone(self), .kind = NUM2UINT(set)};
    use settings;
    begin_use(&settings, data);
    it.with = used(&settings);
    it.number = BIKLEINU_MEMORY;
    call_library(make, &it);
    end_use(&settings);
    return UINT2NUM(checked(it.number));
}

/* Puts in the answer to a call of this number: the member "answer" of data. */
static VALUE answer(VALUE self, VALUE calls, VALUE number, VALUE data) {
    size_t place = NUM2SIZET(number);
    if (calls == data) rb_raise(rb_eArgError, "one object is given twice");
    call it = {.which = ANSWER, .on = alone(self), .with = another(calls, self), .first = place, .made = another(data, self)};
    return answered_by(&it);
}

/* Puts in a fault as the answer to a call of this number. */
static VALUE refuse(VALUE self, VALUE calls, VALUE number, VALUE kind, VALUE message) {
    call it = {.which = REFUSE, .on = alone(self), .with = another(calls, self), .first = NUM2SIZET(number), .kind = NUM2UINT(kind)};
    give_text(&it, message);
    VALUE answer = answered_by(&it);
    RB_GC_GUARD(message);
    return answer;
}

/* What a call makes of a text of JSON and of paths, where there are some. Nobody may change the text meanwhile. */
static VALUE made_of_json(which what, const char *json, size_t length, VALUE asked) {
    held *made;
    VALUE object = new_held(&made);
    call it = {.which = what, .made = &made->own, .text = (const uint8_t *)json, .length = length};
    it.number = BIKLEINU_MEMORY;
    for (bool ran = false; !ran;) {
        use paths;
        bool is_long = length >= LONG_TEXT && stack_left() >= BIKLEINU_CALL_STACK;
        begin_use(&paths, asked);
        it.with = used(&paths);
        ran = is_long ? without_lock(make, &it) : (call_library(make, &it), true);
        end_use(&paths);
        rb_thread_check_ints();
    }
    made->number = checked(it.number);
    weigh(made, length < SIZE_MAX / WEIGHT ? length * WEIGHT : length);
    return object;
}

/* What is read of a text of JSON: where there are paths, no further than these ask. */
VALUE data_of(const char *json, size_t length, VALUE asked) { return made_of_json(NIL_P(asked) ? DATA : DATA_FOR, json, length, asked); }

/* The key of what paths ask of a text of JSON. */
VALUE key_of(const char *json, size_t length, VALUE paths) { return made_of_json(KEY, json, length, paths); }

static VALUE seen_key(VALUE self, VALUE json) {
    StringValue(json);
    VALUE kept = rb_str_new_frozen(json);
    VALUE made = key_of(RSTRING_PTR(kept), (size_t)RSTRING_LEN(kept), self);
    RB_GC_GUARD(kept);
    return made;
}

static VALUE read_text(VALUE class, VALUE json, VALUE asked) {
    StringValue(json);
    VALUE kept = rb_str_new_frozen(json);
    VALUE made = data_of(RSTRING_PTR(kept), (size_t)RSTRING_LEN(kept), asked);
    RB_GC_GUARD(kept);
    return (void)class, made;
}

void init_calls(void) {
    rb_define_singleton_method(handle_class, "language", language, 1);
    rb_define_singleton_method(handle_class, "set_language", set_language, 1);
    rb_define_singleton_method(handle_class, "partials", partials, 0);
    rb_define_singleton_method(handle_class, "answers", answers, 0);
    rb_define_singleton_method(handle_class, "read", read_text, 2);
    rb_define_method(handle_class, "register", register_filter, 3);
    rb_define_method(handle_class, "register_jekyll", register_jekyll, 0);
    rb_define_method(handle_class, "register_tag", register_tag, 4);
    rb_define_method(handle_class, "register_block", register_block, 4);
    rb_define_method(handle_class, "escape_html", escape_html, 0);
    rb_define_method(handle_class, "parse", parse, 1);
    rb_define_method(handle_class, "insert", insert, 2);
    rb_define_method(handle_class, "names", names, 1);
    rb_define_method(handle_class, "paths", paths, 1);
    rb_define_method(handle_class, "add_filter", add_filter, 1);
    rb_define_method(handle_class, "set_site", set_site, 2);
    rb_define_method(handle_class, "use_set", use_set, 2);
    rb_define_method(handle_class, "seen_key", seen_key, 1);
    rb_define_method(handle_class, "answer", answer, 3);
    rb_define_method(handle_class, "refuse", refuse, 4);
}
