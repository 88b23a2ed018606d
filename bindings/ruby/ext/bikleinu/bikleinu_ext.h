/* What the files of the extension share. Its one class, Bikleinu::Handle, is for the gem's own files in Ruby. */
#ifndef BIKLEINU_EXT_H
#define BIKLEINU_EXT_H

#include <ruby.h>
#include <ruby/encoding.h>
#include <ruby/thread.h>

#include "bikleinu.h"

/* Another handle on what an object holds, for one call at a time. */
typedef struct lent {
    bikleinu_handle handle;
    struct lent *next;
} lent;

/* What a Bikleinu::Handle holds, and what the call that made it answered. */
typedef struct {
    bikleinu_handle own;
    uint32_t number;
    bool is_lent; /* several threads may use it: each call gets a handle of its own */
    bool is_busy; /* a call has it that released Ruby's lock */
    lent *spare;  /* handles on it that no call has now */
    ssize_t weight; /* how many bytes Ruby's collector knows of */
} held;

/* What a call uses: a handle of an object, to be given back, or one that holds nothing. */
typedef struct {
    held *of;
    lent *lent;
    bikleinu_handle none;
} use;

/* handle.c */
extern VALUE handle_class;
held *held_of(VALUE object);
VALUE new_held(held **made);
void weigh(held *it, size_t weight);
uint32_t checked(uint32_t number);
void begin_use(use *it, VALUE object);
void end_use(use *it);
bikleinu_handle *used(use *it);
void init_handle(VALUE module);

/* stack.c */
size_t stack_left(void);
bool on_stack(void (*call)(void *), void *with, size_t need);
void call_library(void (*call)(void *), void *with);
bool without_lock(void (*call)(void *), void *with);
void init_stack(void);

/* calls.c */
VALUE data_of(const char *json, size_t length, VALUE asked);
VALUE key_of(const char *json, size_t length, VALUE paths);
void init_calls(void);

/* render.c */
void init_render(void);

/* encode.c */
void init_encode(VALUE module);

#endif
