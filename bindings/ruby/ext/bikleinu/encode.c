/* Data as a text of JSON, of values in Ruby, as far as a plan asks for them.
 *
 * A plan is nil for a whole value, and else an array: of a list's items false for none, true for their number, or their plan; the
 * members, each with its name as a text, as a symbol and in JSON, and its plan; and whether the length of a map is asked for. Where
 * there is a fourth, a plan, lists and maps are whole, and it is that of what has no plan there, but if the third is true a map is
 * whole with all in it. With a fifth a text is a list of itself, or, if empty, of nothing. A value of another kind than JSON has is
 * given to the object that converts, with its plan, and what that answers is written in its place. */
#include "bikleinu_ext.h"

/* How many lists and maps may stand in one another, how often a thread is asked whether it is to end, of what a plan has so many for a
 * member, and the places in it. */
enum { LEVELS = 127, PAUSE = 1024, MEMBER = 4, ITEMS = 0, MEMBERS, COUNTED, REST, LOOPED };

static VALUE refusal_class, data_error_class;
static ID convert_id, refuse_id;

/* A step that leads to a value: from what it leads, and a key, or Qundef and an index. */
typedef struct step {
    const struct step *up;
    VALUE from, key;
    long index;
    unsigned level;
} step;

typedef struct {
    char *at;
    size_t length, room;
    VALUE converter;
    unsigned values;
} writer;

static void put_value(writer *to, VALUE value, VALUE plan, const step *up);

static void make_room(writer *to, size_t more) {
    if (to->room - to->length >= more) return;
    size_t room = to->room ? to->room : 256;
    while (room - to->length < more) {
        if (room > SIZE_MAX / 2) rb_raise(rb_eNoMemError, "no memory for the data");
        room *= 2;
    }
    to->at = xrealloc(to->at, room);
    to->room = room;
}

static void put(writer *to, const char *text, size_t length) {
    make_room(to, length);
    memcpy(to->at + to->length, text, length);
    to->length += length;
}

static void put_byte(writer *to, char byte) {
    make_room(to, 1);
    to->at[to->length++] = byte;
}

/* The path of a value as an array, from the data on. */
static VALUE path_to(const step *up) {
    VALUE path = rb_ary_new();
    for (const step *at = up; at; at = at->up) rb_ary_unshift(path, at->key == Qundef ? LONG2NUM(at->index) : at->key);
    return path;
}

/* Raises the error for a value that isn't taken. */
NORETURN(static void refuse(const step *up, uint32_t kind, VALUE message));
static void refuse(const step *up, uint32_t kind, VALUE message) {
    rb_funcall(data_error_class, refuse_id, 3, path_to(up), UINT2NUM(kind), message);
    rb_raise(rb_eRuntimeError, "a value isn't refused");
}

static VALUE recoded(VALUE text) { return rb_str_encode(text, rb_enc_from_encoding(rb_utf8_encoding()), 0, Qnil); }
static VALUE not_recoded(VALUE text, VALUE error) { return (void)text, (void)error, Qnil; }

/* The text as UTF-8: bytes of no known encoding are taken for it, and of other encodings each character is converted. */
static VALUE utf8_of(VALUE text, const step *up) {
    int utf8 = rb_utf8_encindex(), which = rb_enc_get_index(text), range = rb_enc_str_coderange(text);
    if (range == ENC_CODERANGE_7BIT && rb_enc_asciicompat(rb_enc_from_index(which))) return text;
    if (which == utf8 && range == ENC_CODERANGE_VALID) return text;
    if (which == rb_ascii8bit_encindex() || which == rb_usascii_encindex()) {
        VALUE bytes = rb_str_dup(text);
        rb_enc_associate_index(bytes, utf8);
        if (rb_enc_str_coderange(bytes) != ENC_CODERANGE_BROKEN) return bytes;
    } else if (which != utf8 && range != ENC_CODERANGE_BROKEN) {
        VALUE made = rb_rescue2(recoded, text, not_recoded, text, rb_eEncodingError, (VALUE)0);
        if (!NIL_P(made)) return made;
    }
    VALUE name = rb_enc_from_encoding(rb_enc_from_index(which));
    refuse(up, BIKLEINU_NO_TEXT, rb_sprintf("the text isn't UTF-8, and can't be made so: its encoding is %" PRIsVALUE, name));
}

static void put_text(writer *to, VALUE given, const step *up) {
    static const char hex[] = "0123456789abcdef";
    VALUE text = utf8_of(given, up);
    const unsigned char *at = (const unsigned char *)RSTRING_PTR(text), *end = at + RSTRING_LEN(text), *from = at;
    make_room(to, (size_t)(end - at) + 2);
    put_byte(to, '"');
    for (; at < end; at++) {
        if (*at >= ' ' && *at != '"' && *at != '\\') continue;
        char escape[6] = {'\\', (char)*at, '0', '0', 0, 0};
        size_t length = 2;
        if (*at < ' ') length = 6, escape[1] = 'u', escape[4] = hex[*at >> 4], escape[5] = hex[*at & 15];
        put(to, (const char *)from, (size_t)(at - from));
        put(to, escape, length);
        from = at + 1;
    }
    put(to, (const char *)from, (size_t)(end - from));
    put_byte(to, '"');
    RB_GC_GUARD(text);
}

static void put_integer(writer *to, long number) {
    char digits[24], *at = digits + sizeof digits;
    unsigned long rest = number < 0 ? 0ul - (unsigned long)number : (unsigned long)number;
    do *--at = (char)('0' + rest % 10);
    while (rest /= 10);
    if (number < 0) *--at = '-';
    put(to, at, (size_t)(digits + sizeof digits - at));
}

/* A number beyond Ruby's small ones, which has to have 64 bits at most. */
static void put_large(writer *to, VALUE number, const step *up) {
    VALUE bits = rb_funcall(number, rb_intern("bit_length"), 0);
    if (!FIXNUM_P(bits) || FIX2LONG(bits) > 63) {
        refuse(up, BIKLEINU_FLOAT, rb_sprintf("an Integer of %" PRIsVALUE " bits, and numbers have 64 here: give a text, as value.to_s", bits));
    }
    VALUE text = rb_big2str(number, 10);
    put(to, RSTRING_PTR(text), (size_t)RSTRING_LEN(text));
    RB_GC_GUARD(text);
}

/* A step into a list or a map that stands at a path. What is too deep, or stands in itself, is refused. */
static step step_into(VALUE object, const step *up) {
    unsigned level = up ? up->level + 1 : 0;
    for (const step *at = up; at; at = at->up) {
        if (at->from == object) refuse(up, BIKLEINU_INVALID_INPUT, rb_str_new_cstr("a list or a map stands in itself here"));
    }
    if (level > LEVELS) {
        refuse(up, BIKLEINU_INVALID_INPUT, rb_sprintf("more than %d lists and maps stand in one another here", LEVELS));
    }
    return (step){up, object, Qundef, 0, level};
}

/* What a plan has in this place. */
static VALUE in_plan(VALUE plan, long place) { return NIL_P(plan) ? Qnil : rb_ary_entry(plan, place); }

/* A list, which is that of an object. */
static void put_list(writer *to, VALUE list, VALUE object, VALUE plan, const step *up) {
    step inside = step_into(object, up);
    VALUE items = in_plan(plan, ITEMS);
    put_byte(to, '[');
    for (long at = 0; items != Qfalse && at < RARRAY_LEN(list); at++) {
        if (at) put_byte(to, ',');
        inside.index = at;
        if (items == Qtrue) put(to, "null", 4);
        else put_value(to, RARRAY_AREF(list, at), items, &inside);
    }
    put_byte(to, ']');
}

typedef struct {
    writer *to;
    VALUE map, plan;
    step inside;
    bool has_some;
} pairs;

/* The plan of a pair in a map that is whole: nil, where a loop may go over it. */
static VALUE pair_plan(VALUE plan, VALUE name) {
    VALUE rest = in_plan(plan, REST);
    if (NIL_P(rest) || RTEST(rb_ary_entry(plan, COUNTED))) return Qnil;
    VALUE members = rb_ary_entry(plan, MEMBERS);
    for (long at = 0; at + MEMBER <= RARRAY_LEN(members); at += MEMBER) {
        if (RTEST(rb_str_equal(RARRAY_AREF(members, at), name))) return RARRAY_AREF(members, at + 3);
    }
    return rest;
}

static int put_pair(VALUE key, VALUE value, VALUE given) {
    pairs *it = (pairs *)given;
    bool is_symbol = SYMBOL_P(key);
    if (!is_symbol && !RB_TYPE_P(key, T_STRING)) {
        VALUE message = rb_sprintf("has a key of the class %" PRIsVALUE ", and names are texts or symbols: give key.to_s", rb_obj_class(key));
        refuse(it->inside.up, BIKLEINU_INVALID_INPUT, message);
    }
    VALUE name = is_symbol ? rb_sym2str(key) : key;
    if (is_symbol && rb_hash_lookup2(it->map, name, Qundef) != Qundef) return ST_CONTINUE;
    if (it->has_some) put_byte(it->to, ',');
    it->has_some = true;
    it->inside.key = key;
    put_text(it->to, name, &it->inside);
    put_byte(it->to, ':');
    put_value(it->to, value, pair_plan(it->plan, name), &it->inside);
    return ST_CONTINUE;
}

/* The value of a name, given as a text and as a symbol, or Qundef. */
static VALUE value_at(VALUE map, VALUE name, VALUE symbol) {
    VALUE found = rb_hash_lookup2(map, name, Qundef);
    return found == Qundef ? rb_hash_lookup2(map, symbol, Qundef) : found;
}

static bool is_whole(VALUE map, VALUE plan) {
    VALUE items = in_plan(plan, ITEMS);
    if (NIL_P(items) || RB_TYPE_P(items, T_ARRAY)) return true;
    return RTEST(rb_ary_entry(plan, COUNTED)) && value_at(map, rb_str_new_cstr("size"), ID2SYM(rb_intern("size"))) == Qundef;
}

/* A map, which is that of an object. */
static void put_map(writer *to, VALUE map, VALUE object, VALUE plan, const step *up) {
    pairs it = {to, map, plan, step_into(object, up), false};
    put_byte(to, '{');
    if (is_whole(map, plan)) {
        rb_hash_foreach(map, put_pair, (VALUE)&it);
    } else {
        VALUE members = rb_ary_entry(plan, MEMBERS);
        for (long at = 0; at + MEMBER <= RARRAY_LEN(members); at += MEMBER) {
            VALUE value = value_at(map, RARRAY_AREF(members, at), RARRAY_AREF(members, at + 1)), json = RARRAY_AREF(members, at + 2);
            if (value == Qundef) continue;
            if (it.has_some) put_byte(to, ',');
            it.has_some = true;
            it.inside.key = RARRAY_AREF(members, at);
            put(to, RSTRING_PTR(json), (size_t)RSTRING_LEN(json));
            put_value(to, value, RARRAY_AREF(members, at + 3), &it.inside);
        }
    }
    put_byte(to, '}');
}

/* The list that a text is for a loop. */
static void put_looped(writer *to, VALUE text, const step *up) {
    put_byte(to, '[');
    if (RSTRING_LEN(text)) put_text(to, text, up);
    put_byte(to, ']');
}

/* Whether the value is one that JSON has, which is written then. It is that of an object. */
static bool put_plain(writer *to, VALUE value, VALUE object, VALUE plan, const step *up) {
    switch (rb_type(value)) {
    case T_NIL: put(to, "null", 4); return true;
    case T_TRUE: put(to, "true", 4); return true;
    case T_FALSE: put(to, "false", 5); return true;
    case T_FIXNUM: put_integer(to, FIX2LONG(value)); return true;
    case T_BIGNUM: put_large(to, value, up); return true;
    case T_SYMBOL: put_text(to, rb_sym2str(value), up); return true;
    case T_STRING: (value == object && RTEST(in_plan(plan, LOOPED)) ? put_looped : put_text)(to, value, up); return true;
    case T_ARRAY: put_list(to, value, object, plan, up); return true;
    case T_HASH: put_map(to, value, object, plan, up); return true;
    default: return false;
    }
}

static bool is_of_ruby(VALUE value) {
    if (!RB_TYPE_P(value, T_ARRAY) && !RB_TYPE_P(value, T_HASH)) return !RB_TYPE_P(value, T_OBJECT);
    VALUE class = rb_obj_class(value);
    return class == rb_cArray || class == rb_cHash;
}

static void put_value(writer *to, VALUE value, VALUE plan, const step *up) {
    if (++to->values % PAUSE == 0) rb_thread_check_ints();
    if (is_of_ruby(value) && put_plain(to, value, value, plan, up)) return;
    VALUE made = rb_funcall(to->converter, convert_id, 2, value, plan);
    if (rb_obj_is_kind_of(made, refusal_class)) {
        refuse(up, NUM2UINT(rb_funcall(made, rb_intern("number"), 0)), rb_funcall(made, rb_intern("message"), 0));
    }
    if (!put_plain(to, made, value, plan, up)) rb_raise(rb_eTypeError, "a converter answers what JSON has");
    RB_GC_GUARD(made);
}

typedef struct {
    writer to;
    VALUE value, plan;
    VALUE paths; /* of a key, or nil for data */
} encoding;

static VALUE encode(VALUE given) {
    encoding *it = (encoding *)given;
    put_value(&it->to, it->value, it->plan, NULL);
    if (!NIL_P(it->paths)) return key_of(it->to.at, it->to.length, it->paths);
    return data_of(it->to.at, it->to.length, Qnil);
}

static VALUE free_text(VALUE given) {
    xfree(((encoding *)given)->to.at);
    return Qnil;
}

/* What is made of a value, as far as a plan asks for it, with an object that converts what JSON doesn't have. */
static VALUE made_of(VALUE value, VALUE plan, VALUE converter, VALUE paths) {
    encoding it = {{NULL, 0, 0, converter, 0}, value, plan, paths};
    if (!NIL_P(plan)) Check_Type(plan, T_ARRAY);
    return rb_ensure(encode, (VALUE)&it, free_text, (VALUE)&it);
}

/* Data of such a value. */
static VALUE encoded(VALUE class, VALUE value, VALUE plan, VALUE converter) { return (void)class, made_of(value, plan, converter, Qnil); }

/* The key of what paths ask of such a value. */
static VALUE encoded_key(VALUE self, VALUE value, VALUE plan, VALUE converter) { return made_of(value, plan, converter, self); }

void init_encode(VALUE module) {
    refusal_class = rb_const_get(module, rb_intern("Refusal"));
    data_error_class = rb_const_get(module, rb_intern("DataError"));
    rb_gc_register_mark_object(refusal_class);
    rb_gc_register_mark_object(data_error_class);
    convert_id = rb_intern("convert");
    refuse_id = rb_intern("refuse");
    rb_define_singleton_method(handle_class, "encoded", encoded, 3);
    rb_define_method(handle_class, "encoded_key", encoded_key, 3);
}

void Init_bikleinu_ext(void) {
    VALUE module = rb_define_module("Bikleinu");
    init_stack();
    init_handle(module);
    init_calls();
    init_render();
    init_encode(module);
}
