/* Bikleinu for C: Liquid templates over data in JSON.
 *
 * What a call makes lies behind a bikleinu_handle of the caller's:
 *
 *   - A handle begins with all its bytes 0 (BIKLEINU_NONE, or a static one). Then it holds nothing.
 *   - A call that makes something puts it behind its last handle. What the handle held before is freed.
 *   - bikleinu_free frees what a handle holds. Then the handle holds nothing again, and can be used again.
 *   - A handle isn't copied: two copies would both own what is behind them. Pass it by its address.
 *
 * Most calls answer a number: 0 where all is well, and else a kind below. Whatever else it reports is read behind the handle
 * that the call made: after a kind of a template, of its source or of the data that handle holds the fault, with its message
 * and its place. A page that ends by a fault holds both, the text up to the fault and the fault. After BIKLEINU_MEMORY a handle
 * may hold nothing; all else is as it was, and the same call can be tried again.
 *
 * Bytes are given by a pointer and a length, and needn't end by a 0. The pointer isn't null, also where the length is 0, and
 * lengths are below 2^63. No handle's address is null, and no handle is given twice to one call.
 *
 * There is no state outside of the handles. Calls may run at the same time in several threads, as long as no two of them are
 * given the same handle; a handle may be used in one thread and then in another, where a lock or a join stands between. For one
 * template, its data and its partials in several threads, bikleinu_share makes each thread handles of its own on them: calls
 * with these run side by side, and nothing is copied. No call is made from a signal handler.
 */
#ifndef BIKLEINU_H
#define BIKLEINU_H

#include <stdbool.h>
#include <stddef.h>
#include <stdint.h>

#ifdef __cplusplus
extern "C" {
#endif

typedef struct {
    bool there; /* whether it holds something; for the library alone to change */
    void *at;
} bikleinu_handle;

#ifdef __cplusplus
#define BIKLEINU_NONE {}
#else
#define BIKLEINU_NONE {0}
#endif

/* Kinds of faults. */
enum {
    BIKLEINU_DONE = 0,

    /* of a run */
    BIKLEINU_UNKNOWN_VARIABLE = 1,
    BIKLEINU_INVALID_INPUT = 2, /* also data that is no JSON, or no object */
    BIKLEINU_INVALID_ARGUMENT = 3,
    BIKLEINU_UNEXPECTED_VALUE = 4,
    BIKLEINU_NUMBER_RANGE = 5,
    BIKLEINU_DIVIDE_BY_ZERO = 6,
    BIKLEINU_FLOAT = 7, /* also a number of the data that isn't whole, or is past 64 bits */
    BIKLEINU_CYCLE_BOUNDS = 8,
    BIKLEINU_ZERO_COLUMNS = 9,
    BIKLEINU_RANGE_TOO_LONG = 10,
    BIKLEINU_UNKNOWN_PARTIAL = 11,
    BIKLEINU_PARTIAL_NAME = 12,
    BIKLEINU_TOO_DEEP = 13,
    BIKLEINU_DATE_FORMAT = 14,
    BIKLEINU_TIMEZONE_RANGE = 15,
    BIKLEINU_UNSUPPORTED = 16,

    BIKLEINU_MEMORY = 17, /* no memory was to be had */

    /* of a source */
    BIKLEINU_UNCLOSED = 21,
    BIKLEINU_BAD_ITEM = 22,
    BIKLEINU_NUMBER_LITERAL = 23,
    BIKLEINU_FLOAT_LITERAL = 24,
    BIKLEINU_STATE_WORD = 25,
    BIKLEINU_UNKNOWN_TAG = 26,
    BIKLEINU_UNKNOWN_FILTER = 27,
    BIKLEINU_FILTER_ARGUMENTS = 28,
    BIKLEINU_EXPECTED = 29,
    BIKLEINU_MISSING_END = 30,
    BIKLEINU_TOO_NESTED = 31,

    /* of a call that can't be: it changed nothing but the handle for what it makes, which then holds nothing */
    BIKLEINU_NO_TEXT = 101,        /* bytes that are no UTF-8 */
    BIKLEINU_OTHER_HANDLE = 102,   /* a handle that holds another kind of thing than the call needs, or nothing */
    BIKLEINU_TOO_MANY_LEVELS = 103, /* a run that could reach more levels than are allowed (below) */
    BIKLEINU_NO_SUCH_CALL = 107,   /* no call of this number behind the handle */
    BIKLEINU_SHARED_HANDLE = 108,  /* a change of what another handle shares */
    BIKLEINU_NO_SUCH_MISSING = 109, /* a number that says nothing of missing values */
    BIKLEINU_NO_WORD = 110,        /* a tag's name that is no word: a letter or _, then letters, digits, _ and - */
    BIKLEINU_RESERVED_NAME = 111,  /* a tag's name that blocks have a use of: else, elsif, when, and what begins with end */
    BIKLEINU_TAKEN_NAME = 112,     /* a tag's name at which the language has a tag or a block of its own */
    BIKLEINU_NO_SUCH_STYLE = 113,  /* a number that is no style */
    BIKLEINU_NO_VALUES = 114,      /* a text of given values that is no values with commas between them */
    BIKLEINU_NO_SUCH_SET = 115,    /* a number that is no set of filters */
    BIKLEINU_OTHER_PATHS = 116,    /* data that were read for paths, and a run that asks for more */

    /* of a page that a limit of the caller's ended: it holds the text up to there, and a fault of the kind Write (18) */
    BIKLEINU_BYTES_REACHED = 104,
    BIKLEINU_TURNS_REACHED = 105,

    /* of a run that needs answers of the caller's filters: the handle for the page holds the calls, and no page */
    BIKLEINU_LACKING = 106
};

/* Makes the standard language. */
uint32_t bikleinu_language(bikleinu_handle *made);

/* Makes Jekyll's language: the standard one with Jekyll's include and sort in place of its own, with its block highlight (as it is where no
 * highlighter is set), and without the white space of blocks that write nothing. The filter of highlight is "{% highlight %}", which the
 * library answers itself, unless a table has a filter of this name. */
uint32_t bikleinu_jekyll_language(bikleinu_handle *made);

/* Registers a filter of the caller's in a language, by its name, with the least and the greatest number of arguments that a template may
 * give it. What the name stood for before is forgotten. After anything but 0 nothing changed. What the filter answers, a table tells
 * (below): a page without one ends by BIKLEINU_UNSUPPORTED where it calls the filter. */
uint32_t bikleinu_register(bikleinu_handle *language, const uint8_t *name, size_t length, size_t least, size_t most);

/* Registers the names of Jekyll's own filters, which bikleinu_answers_jekyll (below) lets the library answer, in a language: relative_url,
 * absolute_url, the four of dates, xml_escape, cgi_escape, uri_escape, jsonify, normalize_whitespace, number_of_words, to_integer,
 * array_to_sentence_string, group_by, where, find and where_exp, and highlight, link, post_url, feed_meta and seo, which tags of Jekyll's call.
 * What such a name stood for before is forgotten. After BIKLEINU_MEMORY some may be registered; after any other number but 0 nothing changed. */
uint32_t bikleinu_register_jekyll(bikleinu_handle *language);

/* Sets of filters that the library has itself. */
enum {
    BIKLEINU_SET_DECIMALS = 1, /* over exact decimals: decimal_plus and so on */
    BIKLEINU_SET_JEKYLL = 2,
    BIKLEINU_SET_SHOPIFY = 3
};

/* Makes the language of a set, as bikleinu --filters has it: the standard one with the names of the set's filters, and with the tags and blocks
 * of Jekyll's or Shopify's templates. A table that bikleinu_answers_set (below) gives the set answers their calls. */
uint32_t bikleinu_set_language(uint32_t set, bikleinu_handle *made);

/* How what stands after the name of a tag of the caller's is read. */
enum {
    BIKLEINU_STYLE_ITEMS = 0, /* as values, with commas between them or none */
    BIKLEINU_STYLE_PATH = 1,  /* as a path without quotes, and then values */
    BIKLEINU_STYLE_TEXT = 2   /* all of it as one text, up to the first closer; as no value where nothing stands there */
};

/* Registers a tag of the caller's in a language: {% name a, b %} writes what the filter answers to nil as its input and the values a and
 * b as its arguments. The filter is one of the caller's, which bikleinu_register gives the language under that name, before or after;
 * where it has none, or one that doesn't take so many arguments, such a tag is refused (BIKLEINU_UNKNOWN_FILTER,
 * BIKLEINU_FILTER_ARGUMENTS). A filter's name that is no word, as "{% name %}", no template calls but by its tag. What the caller had
 * registered at the tag's name is forgotten. A bad style is answered first, then bytes that are no UTF-8, then a refused name. After
 * anything but 0 nothing changed. */
uint32_t bikleinu_register_tag(bikleinu_handle *language, const uint8_t *name, size_t length, const uint8_t *filter, size_t filter_length,
                               uint32_t style);

/* Registers a block in the same way: {% name a, b %}body{% endname %} writes what the filter answers to the text that the body writes as
 * its input, and to the values. A block without its end is BIKLEINU_MISSING_END. */
uint32_t bikleinu_register_block(bikleinu_handle *language, const uint8_t *name, size_t length, const uint8_t *filter, size_t filter_length,
                                 uint32_t style);

/* The same with values that the filter is also given, after those of the tag: a text as "page.title, site.url", which is values as they
 * stand in a tag with commas between them, or no bytes for none. One that is missing is nil for the filter, and no fault. A text that is no
 * such values is BIKLEINU_NO_VALUES, before a refused name. The filter is registered with these among its numbers of arguments. */
uint32_t bikleinu_register_tag_given(bikleinu_handle *language, const uint8_t *name, size_t length, const uint8_t *filter,
                                     size_t filter_length, uint32_t style, const uint8_t *given, size_t given_length);
uint32_t bikleinu_register_block_given(bikleinu_handle *language, const uint8_t *name, size_t length, const uint8_t *filter,
                                       size_t filter_length, uint32_t style, const uint8_t *given, size_t given_length);

/* Makes a language escape for HTML what outputs and cycle write, but not an output that ends with "| raw", in templates that are parsed from
 * then on. A captured text is escaped already, and needs it. */
uint32_t bikleinu_escape_html(bikleinu_handle *language);

/* Parses the source of a template in a language. The template doesn't need the language any more, or the source. It keeps a copy of a source
 * of at most 1 MiB, so that the fault of a run stands at its item, and else at the output or the tag. */
uint32_t bikleinu_parse(bikleinu_handle *language, const uint8_t *source, size_t length, bikleinu_handle *made);

/* Reads data from a text of JSON, which is an object. */
uint32_t bikleinu_data(const uint8_t *json, size_t length, bikleinu_handle *made);

/* Makes partials, of which there are none yet. */
uint32_t bikleinu_partials(bikleinu_handle *made);

/* Puts a template among the partials, by a name; the one of that name before is freed. The template moves: after 0 its handle holds
 * nothing, and after anything else both are as they were. */
uint32_t bikleinu_insert(bikleinu_handle *partials, const uint8_t *name, size_t length, bikleinu_handle *template_);

/* Makes another handle on what a handle holds, whatever that is. Nothing is copied, and what they share is freed with the last of
 * them. Each handle serves one call at a time, and a call with the one may run beside a call with the other. As long as both are there,
 * neither can be changed: a call that would change or move what they share answers BIKLEINU_SHARED_HANDLE. After BIKLEINU_MEMORY made
 * holds nothing, and the handle what it held. */
uint32_t bikleinu_share(bikleinu_handle *handle, bikleinu_handle *made);

/* Renders a template over data and with partials, of which at most depth may be nested. A handle that holds nothing stands for
 * empty data, or for no partials. All three can be used again. The answer is how the page ended.
 *
 * A run takes stack of the thread that it runs in. A page is one level; each block in it, and each partial that runs in it, is one
 * more, up to the deepest that could stand in one another. A level takes at most BIKLEINU_LEVEL_STACK bytes (a block took up
 * to 1,744 and a partial up to 2,928 before nodes took turns, and some 200 more since), and what stands at the end of the deepest one at most BIKLEINU_REST_STACK. bikleinu_render
 * begins no run that could reach more than BIKLEINU_LEVELS levels: it answers BIKLEINU_TOO_MANY_LEVELS. So with a depth of up to 120 it
 * stays within a stack of 1 MiB, and with any depth within 1.5 MiB. What a run could reach is known before it begins:
 *
 *   - Every body counts, whether it would run or not. An elsif is no level of its own.
 *   - A tag that runs a partial counts as if it could name any of the partials, since names may be values of the data. With no
 *     such tag, no partials or a depth of 0 the template's own blocks count alone. Else the deepest such tag of the template
 *     counts once, the deepest one of the partials depth - 1 times, and then the deepest blocks of a partial.
 *   - Of the partials behind a handle all count that were ever put there. */
uint32_t bikleinu_render(bikleinu_handle *template_, bikleinu_handle *data, bikleinu_handle *partials, uint32_t depth, bikleinu_handle *page);

enum { BIKLEINU_LEVELS = 400, BIKLEINU_LEVEL_STACK = 3584, BIKLEINU_REST_STACK = 139264 };

/* A call that runs no page takes at most so many bytes of stack, whatever it is given (as measured, bikleinu_paths up to 136,000, and
 * bikleinu_parse, bikleinu_data and the others less). That is more than a thread of 128 KiB has. */
enum { BIKLEINU_CALL_STACK = 196608 };

/* What stands for any number of bytes, or of turns. */
#define BIKLEINU_ANY UINT64_MAX

/* What becomes of a value that a run needs and that is missing. As nil it writes nothing, and the run goes on: a page without such a
 * fault is the same byte for byte, and any other begins with what it was up to there. */
enum { BIKLEINU_MISSING_IS_FAULT = 0, BIKLEINU_MISSING_IS_NIL = 1 };

/* What a caller allows a run. */
typedef struct {
    uint32_t levels; /* how many levels it may reach: fewer on a smaller stack, and more on a larger one; 0 for BIKLEINU_LEVELS */
    uint32_t missing; /* what becomes of a value that is missing: BIKLEINU_MISSING_IS_FAULT or BIKLEINU_MISSING_IS_NIL */
    uint64_t bytes;  /* how many bytes it may take, or BIKLEINU_ANY: those of each text that it writes, also into the body of a capture or
                      * an ifchanged, of each answer of a filter, of each value that assign stores or a pair of a partial passes, and of
                      * each list beyond the data that a loop goes over; a list or a map takes the bytes of its parts, and 32 more for
                      * each item or pair */
    uint64_t turns;  /* how many turns it may take, or BIKLEINU_ANY: a node takes one each time that it runs, and one more for each filter,
                      * comparison, value of a when and pair of a partial in it; a body without nodes takes one */
} bikleinu_limits;

/* The same within limits of the caller's. A text that is longer than the bytes left isn't written, and no part of it, and a value that
 * takes more ends the page. */
uint32_t bikleinu_render_within(bikleinu_handle *template_, bikleinu_handle *data, bikleinu_handle *partials, uint32_t depth,
                                const bikleinu_limits *limits, bikleinu_handle *page);

/* Makes the names that a template mentions, with those that the partials mention; a handle that holds nothing stands for none. They are
 * read as BIKLEINU_TEXT: a list of texts in JSON, ascending and each once. A page depends on no other names of the data. */
uint32_t bikleinu_names(bikleinu_handle *template_, bikleinu_handle *partials, bikleinu_handle *made);

/* Makes the names under which a template itself can look up partials; a render gives its name and that with .liquid. They are read as
 * BIKLEINU_TEXT: a list of texts in JSON, ascending and each once, or null where a place looks up a name that only its run knows. A page
 * depends on no partials but those of these names, those of the names that these give, and so on. */
uint32_t bikleinu_partial_names(bikleinu_handle *template_, bikleinu_handle *made);

/* Finds what a template and its partials ask of their data, of which a page sees no more; a handle that holds nothing stands for no
 * partials. It is read as BIKLEINU_TEXT: a list of paths in JSON, ascending and each once, as ["customer?","products[].title"]. A path
 * leads by members (.) and by the items that a loop goes over ([]) to a value that is asked for whole. One that ends in ? asks only
 * whether there is a value and of which kind, and for a scalar whole; []? only how many items there are. */
uint32_t bikleinu_paths(bikleinu_handle *template_, bikleinu_handle *partials, bikleinu_handle *made);

/* Reads data as bikleinu_data does, but builds no more of them than such paths ask for. Of a long text of which a template sees little that
 * takes less time and memory. The text is refused as by bikleinu_data, also for what no path asks for. The page of a template and its
 * partials whose paths these are is the same as over all of the data, whatever filters answer and however deep partials may nest: its
 * text, and the kind of the fault that it ends by. The message of that fault is about what was read, so it may not know of a similar
 * name. A rendering over such data first finds what its template and partials ask for, on BIKLEINU_CALL_STACK bytes of stack: where that is
 * more than was read, there is no page, and the answer is BIKLEINU_OTHER_PATHS. */
uint32_t bikleinu_data_for(const uint8_t *json, size_t length, bikleinu_handle *paths, bikleinu_handle *made);

/* Makes the key of what such paths ask of the data in a text of JSON, which is refused as by bikleinu_data. It is read as BIKLEINU_TEXT: a text of
 * JSON. Over data of one key the pages of a template and its partials whose paths these are, and their filters, are the same, so a key,
 * or a digest of it, stands for a page that isn't rendered yet: as an ETag, or in a queue that drops equal jobs. Data that differ only in what
 * no path asks for mostly have one key, but may have two. */
uint32_t bikleinu_seen_key(const uint8_t *json, size_t length, bikleinu_handle *paths, bikleinu_handle *made);

/* Filters of the caller's.
 *
 * No code of the caller's runs while a page is rendered. The answers of its filters stand in a table: each is the answer to one call,
 * which is the filter's name, the input and the arguments. Where a run needs an answer that the table lacks, there is no page; the
 * caller reads the calls, puts the answers into the table and renders again. A table is kept for further pages, which mostly need no
 * second run. So a filter is to be a function of its input and arguments: it isn't asked again what the table has. */

/* Makes a table without filters, answers and sets. */
uint32_t bikleinu_answers(bikleinu_handle *made);

/* Adds a filter to a table by its name, unless it is there. After anything but 0 nothing changed. A page that calls a registered filter
 * which the table hasn't ends by BIKLEINU_UNSUPPORTED, but for those of its sets (below). */
uint32_t bikleinu_answers_filter(bikleinu_handle *answers, const uint8_t *name, size_t length);

/* Puts a site into a table, in place of the one before: its address, as "https://example.org", and its base path, as "/blog", or no bytes.
 * The library then answers calls of Jekyll's own filters itself, each with as many arguments as Jekyll's takes, but for those that the
 * table has by their names. After anything but 0 nothing changed. */
uint32_t bikleinu_answers_jekyll(bikleinu_handle *answers, const uint8_t *address, size_t address_length, const uint8_t *base,
                                 size_t base_length);

/* Lets the library answer the calls of a set's filters itself, each with as many arguments as it takes, but for those that the table has by
 * their names. What they know of a site or a shop is what data has, in place of what was known before: of Jekyll's site.url and
 * site.baseurl, of Shopify's shop.money_format, shop.money_with_currency_format, collection.handle and current_tags. The data aren't
 * looked at of decimals, but the handle holds some, as {}. After anything but 0 nothing changed. */
uint32_t bikleinu_answers_set(bikleinu_handle *answers, uint32_t set, bikleinu_handle *data);

/* Renders as bikleinu_render_within, with the filters of a table. Where the answer is BIKLEINU_LACKING, page holds calls that the table
 * lacks: at least one, at most BIKLEINU_CALLS, and each once. Each is to be answered (below), and then the same call made again.
 *
 * The run that finds them goes on after the first with nil in its place. So a call may be there that only this nil led to: it is
 * answered as any other. A filter over the answer of another comes a round later. As BIKLEINU_TEXT all the calls but the last have at
 * most BIKLEINU_CALLS_BYTES bytes. A caller bounds the rounds, as a template that takes its time may need many. */
uint32_t bikleinu_render_with(bikleinu_handle *template_, bikleinu_handle *data, bikleinu_handle *partials, uint32_t depth,
                              const bikleinu_limits *limits, bikleinu_handle *answers, bikleinu_handle *page);

enum { BIKLEINU_CALLS = 1000, BIKLEINU_CALLS_BYTES = 1048576 };

/* How many calls a handle holds; 0 where it holds something else. As BIKLEINU_TEXT they are a list in JSON, in which each call is a list
 * of the filter's name, the input and the arguments: [["money",1999,"EUR"],["shout","a"]] */
size_t bikleinu_calls(bikleinu_handle *calls);

/* Puts the answer to a call into a table, in place of the one that is there. The call is the one of this number, from 0, among those
 * that calls holds. The answer is what data has as its member "answer", and nil where it has none. Both are copied. After anything but
 * 0 nothing changed. */
uint32_t bikleinu_answer(bikleinu_handle *answers, bikleinu_handle *calls, size_t number, bikleinu_handle *data);

/* The same with a fault as the answer: a page that makes the call ends by it, and shows its message (of a message that is longer than
 * 1,000 bytes or more than a line, a beginning). Its kind is one of 1 to 16, and BIKLEINU_INVALID_INPUT for any other number. */
uint32_t bikleinu_refuse(bikleinu_handle *answers, bikleinu_handle *calls, size_t number, uint32_t kind, const uint8_t *message, size_t length);

/* Parts of what a handle holds, each as UTF-8. */
enum {
    BIKLEINU_TEXT = 0,    /* the text of a page; calls, names, paths or a key, in JSON */
    BIKLEINU_MESSAGE = 1, /* the message of a fault, or of a page's fault */
    BIKLEINU_NAME = 2,    /* the name of its kind, as UnknownVariable */
    BIKLEINU_PARTIAL = 3  /* the name of the partial that it stands in */
};

/* How many bytes such a part has; 0 where there is none. */
size_t bikleinu_length(bikleinu_handle *handle, uint32_t part);

/* Copies a part into bytes of the caller's, as far as it goes and they have room. The answer is how many bytes were copied. */
size_t bikleinu_copy(bikleinu_handle *handle, uint32_t part, uint8_t *into, size_t room);

/* Texts that a fault may stand in. */
enum { BIKLEINU_NOWHERE = 0, BIKLEINU_IN_TEMPLATE = 1, BIKLEINU_IN_PARTIAL = 2, BIKLEINU_IN_DATA = 3 };

/* In which text the fault behind the handle stands, and its line and column there, in characters and each from 1. Where that isn't
 * known, the answer is BIKLEINU_NOWHERE, and line and column stay as they were. */
uint32_t bikleinu_location(bikleinu_handle *handle, size_t *line, size_t *column);

/* Frees what the handle holds, if it holds anything. */
void bikleinu_free(bikleinu_handle *handle);

#ifdef __cplusplus
}
#endif

#endif
