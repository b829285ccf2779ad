/* The calls of libceltisdarts: texts of crates are judged, and queries are answered, in process.
 *
 * What each call does, and what it promises, stands where it is defined: crates/celtisdarts_c/src/. A test of bindings/rust compares the
 * declarations here with those there. Link with -lceltisdarts; the library calls malloc, realloc and free, and nothing else of the C library
 * but memcpy and its like.
 *
 * Each call but celtisdarts_close returns a word (CELTISDARTS_..). After another word than CELTISDARTS_DONE all is as before, and
 * the call can be made again.
 *
 * A text, a line, a name, terms or a buffer may be null if its length is 0, and no other pointer may be. (The library takes no null pointer: the
 * functions at the end of this file pass another one. Where it is loaded at run time, by dlsym, nothing does.) A buffer may overlap nothing else
 * that a call is given. Two calls may run at once where they have no handle in common: the library writes to no global data. A call takes up to
 * 3 KiB of stack for each level of the depth, and 64 KiB more.
 */
#ifndef CELTISDARTS_H
#define CELTISDARTS_H

#include <stddef.h>
#include <stdint.h>

#ifdef __cplusplus
extern "C" {
#endif

/* The version of all bindings. */
#define CELTISDARTS_VERSION "0.1.0"

/* The version of the calls below. It rises where a program that was compiled before does not fit any more; so it is in the name of the shared
 * object too. What the library was built with is celtisdarts_abi_version, which says so where it is loaded at run time. */
#define CELTISDARTS_ABI_VERSION 2
extern const uint32_t celtisdarts_abi_version;

/* The library itself takes no null pointer, which compilers and their checks of memory are told. */
#ifdef __GNUC__
#define CELTISDARTS_NONNULL __attribute__((nonnull))
#else
#define CELTISDARTS_NONNULL
#endif

enum {
    CELTISDARTS_DONE = 0,
    CELTISDARTS_FAULT = 1,         /* the text, or the line, has a fault */
    CELTISDARTS_NO_DEPTH = 2,      /* the depth is not from 1 to 255 */
    CELTISDARTS_MEMORY = 3,        /* a request for memory was refused */
    CELTISDARTS_FULL = 4,          /* a table of terms, of goals or of answers was full */
    CELTISDARTS_TOO_SHORT = 5,     /* the buffer is too short: *needed is how long it has to be */
    CELTISDARTS_NOT_A_QUERY = 6,   /* the line asks nothing; it has no fault, but of a trait or an impl with types that is not said */
    CELTISDARTS_SEVERAL_LINES = 7, /* the line holds a line feed */
    CELTISDARTS_TOO_LONG = 8,      /* the text and the line together are longer than 67,108,864 bytes */
    CELTISDARTS_NO_CRATE = 9,      /* the text has no crate of that number */
    CELTISDARTS_NO_TEXT = 10,      /* no text was read */
    CELTISDARTS_NO_CONTEXT = 11,   /* no inference context was begun */
    CELTISDARTS_NO_TERM = 12,      /* no term, or no obligation, of the context has that number */
    CELTISDARTS_NO_SOLUTION = 13,  /* no solution of all that was asked makes the terms equal */
    CELTISDARTS_NO_NAME = 14,      /* the crate sees no struct, or no trait, of that name */
    CELTISDARTS_WRONG_TERMS = 15,  /* other terms are taken: more, fewer, or of other kinds */
    CELTISDARTS_NO_OPERATION = 16  /* there is no operation of that number */
};

/* A place for a text that is asked, for an inference context, and for what calls found, within bounds (docs/LIBRARY.md). It may move to another
 * thread. */
typedef struct {
    void *at;
} celtisdarts_handle;

/* A whole text in one call: writes the output of the program `celtisdarts`. At CELTISDARTS_FAULT that is the line of the text's first fault. */
CELTISDARTS_NONNULL
uint32_t celtisdarts_run(const uint8_t *text, size_t text_length, uint32_t depth, uint8_t *buffer, size_t room, size_t *needed);

/* Makes a handle: writes handle.at. celtisdarts_close lets it go, and has to be called once. */
CELTISDARTS_NONNULL
uint32_t celtisdarts_new(void **at);
void celtisdarts_close(celtisdarts_handle handle);

/* Reads a text, to be asked at this depth, in the place of the one that was read before. At CELTISDARTS_FAULT *line and *number are those of
 * its first fault. */
CELTISDARTS_NONNULL
uint32_t celtisdarts_read(celtisdarts_handle *handle, const uint8_t *text, size_t text_length, uint32_t depth, uint32_t *line, uint32_t *number);

/* Writes the name of a crate. That of `core` is number 0; the others count from 1, in the order of the text. */
CELTISDARTS_NONNULL
uint32_t celtisdarts_name(celtisdarts_handle *handle, uint32_t number, uint8_t *buffer, size_t room, size_t *needed);

/* Writes the line of a crate, with its end: accepted, or why it is not. */
CELTISDARTS_NONNULL
uint32_t celtisdarts_check(celtisdarts_handle *handle, uint32_t number, uint8_t *buffer, size_t room, size_t *needed);

/* Writes the answer to a line `prove in ..` or `refute in ..`, with its end. At CELTISDARTS_FAULT *number is the line's fault. */
CELTISDARTS_NONNULL
uint32_t celtisdarts_ask(celtisdarts_handle *handle, const uint8_t *line, size_t line_length, uint8_t *buffer, size_t room, size_t *needed, uint32_t *number);

/* ---- inference: at most one context a handle, beside its text
 *
 * A context has type variables, constant variables, terms and obligations, each by a number that calls give, and says what solves all that was
 * asked of them. After another word than CELTISDARTS_DONE it is as before. What its searches find is kept with the text. */

/* Begins a context of a crate, in the place of the handle's last one. Crates have the numbers of celtisdarts_name. */
CELTISDARTS_NONNULL
uint32_t celtisdarts_infer_begin(celtisdarts_handle *handle, uint32_t number);

/* Ends the context: nothing has its numbers any more. */
CELTISDARTS_NONNULL
uint32_t celtisdarts_infer_end(celtisdarts_handle *handle);

/* The operations of a context: what each takes, and what *given is then. Where nothing is taken, the length is 0, and a number is not looked at. */
enum {
    CELTISDARTS_INFER_FRESH_TYPE = 1,     /* gives a term: a new type variable */
    CELTISDARTS_INFER_FRESH_CONST = 2,    /* gives a term: a new constant variable */
    CELTISDARTS_INFER_TYPE = 3,           /* the name of a struct with its arguments, or of a type without parts, as u8: gives a term */
    CELTISDARTS_INFER_CONSTANT = 4,       /* a number: gives a term */
    CELTISDARTS_INFER_LIFETIME = 5,       /* gives a term: 'static, since answers hold up to lifetimes */
    CELTISDARTS_INFER_TUPLE = 6,          /* types A, B, ..: gives a term (A, B, ..) */
    CELTISDARTS_INFER_SLICE = 7,          /* a type T: gives a term [T] */
    CELTISDARTS_INFER_ARRAY = 8,          /* a type T and a constant N: gives a term [T; N] */
    CELTISDARTS_INFER_REFERENCE = 9,      /* a type T: gives a term &T */
    CELTISDARTS_INFER_REFERENCE_MUT = 10, /* a type T: gives a term &mut T */
    CELTISDARTS_INFER_POINTER = 11,       /* a type T: gives a term *const T */
    CELTISDARTS_INFER_POINTER_MUT = 12,   /* a type T: gives a term *mut T */
    CELTISDARTS_INFER_FUNCTION = 13,      /* the inputs A, B, .. and then the output C: gives a term fn(A, B, ..) -> C */
    CELTISDARTS_INFER_PARAM = 14,         /* a number below 2^32: gives a term, the type parameter of that number; WRONG_TERMS for another */
    CELTISDARTS_INFER_CONST_PARAM = 15,   /* the same: gives a term, the constant parameter of that number */
    CELTISDARTS_INFER_EQ = 20,            /* two terms: makes them equal, or ends with CELTISDARTS_NO_SOLUTION */
    CELTISDARTS_INFER_CAN_EQ = 21,        /* two terms: 1 if known values let them be equal, 0 if no solution does; changes nothing */
    CELTISDARTS_INFER_REGISTER = 22,      /* the name of a trait, and its arguments, the self type first: gives an obligation, not evaluated */
    CELTISDARTS_INFER_SELECT = 23,        /* 0 if all are done, 1 if some are pending, 2 if it stopped, 3 + n if obligation n has no solution */
    CELTISDARTS_INFER_STANDING = 24,      /* an obligation as the number: 0 done, 1 pending, 2 pending at a limit, 3 refused */
    CELTISDARTS_INFER_RESOLVE = 25,       /* a term: gives a term in which each variable that has a value is replaced by it */
    CELTISDARTS_INFER_SNAPSHOT = 26,      /* opens a snapshot */
    CELTISDARTS_INFER_COMMIT = 27,        /* 1 if a snapshot was open: the last one ends, and what was done since stays; else 0 */
    CELTISDARTS_INFER_ROLL_BACK = 28,     /* 1 if a snapshot was open: all is as it was there, and later numbers are taken back; else 0 */
    CELTISDARTS_INFER_ASSUME = 29         /* as for REGISTER: what is registered from now on has to hold under that and its supertraits */
};

/* `T: It<A, Item = U>` is the trait "It::Item" with the arguments of It, behind which stands the type of the name "::W" with the argument U.
 * Whoever assumes it assumes `T: It<A>` too.
 */
/* Nothing is known of a parameter but what is assumed of it: it is that of a generic function in whose body types are inferred. What was
 * registered under assumptions, or with parameters in it, has a proof under them if it is done; if it is refused, nothing is promised.
 *
 * The number of CELTISDARTS_INFER_SELECT is how many nested goals it may start, or 0 for no bound. It stops before an evaluation where it has
 * started so many, and another call goes on: it looks at the pending obligations again, of which those whose results are kept start none. */

/* Does one operation of the context, with a name, with `count` terms by their numbers, and with a number. */
CELTISDARTS_NONNULL
uint32_t celtisdarts_infer(celtisdarts_handle *handle, uint32_t operation, const uint8_t *name, size_t name_length, const uint32_t *terms, size_t count, uint64_t number, uint32_t *given);

/* Writes a term, as a type or a constant of a text; ?0t is a type variable without a value, ?0c a constant variable, and !0t and !0c are
 * parameters. Lifetimes are not written. */
CELTISDARTS_NONNULL
uint32_t celtisdarts_infer_text(celtisdarts_handle *handle, uint32_t term, uint8_t *buffer, size_t room, size_t *needed);

/* ---- null with length 0: calls by these names go through here */

static inline const uint8_t *celtisdarts_bytes_(const uint8_t *bytes, size_t length) {
    static const uint8_t none = 0;
    return bytes == NULL && length == 0 ? &none : bytes;
}

static inline uint8_t *celtisdarts_room_(uint8_t *buffer, size_t room) {
    static uint8_t none;
    return buffer == NULL && room == 0 ? &none : buffer;
}

static inline const uint32_t *celtisdarts_terms_(const uint32_t *terms, size_t count) {
    static const uint32_t none = 0;
    return terms == NULL && count == 0 ? &none : terms;
}

static inline uint32_t celtisdarts_run_(const uint8_t *text, size_t text_length, uint32_t depth, uint8_t *buffer, size_t room, size_t *needed) {
    return celtisdarts_run(celtisdarts_bytes_(text, text_length), text_length, depth, celtisdarts_room_(buffer, room), room, needed);
}

static inline uint32_t celtisdarts_read_(celtisdarts_handle *handle, const uint8_t *text, size_t text_length, uint32_t depth, uint32_t *line,
                                         uint32_t *number) {
    return celtisdarts_read(handle, celtisdarts_bytes_(text, text_length), text_length, depth, line, number);
}

static inline uint32_t celtisdarts_name_(celtisdarts_handle *handle, uint32_t number, uint8_t *buffer, size_t room, size_t *needed) {
    return celtisdarts_name(handle, number, celtisdarts_room_(buffer, room), room, needed);
}

static inline uint32_t celtisdarts_check_(celtisdarts_handle *handle, uint32_t number, uint8_t *buffer, size_t room, size_t *needed) {
    return celtisdarts_check(handle, number, celtisdarts_room_(buffer, room), room, needed);
}

static inline uint32_t celtisdarts_ask_(celtisdarts_handle *handle, const uint8_t *line, size_t line_length, uint8_t *buffer, size_t room,
                                        size_t *needed, uint32_t *number) {
    return celtisdarts_ask(handle, celtisdarts_bytes_(line, line_length), line_length, celtisdarts_room_(buffer, room), room, needed, number);
}

static inline uint32_t celtisdarts_infer_(celtisdarts_handle *handle, uint32_t operation, const uint8_t *name, size_t name_length,
                                          const uint32_t *terms, size_t count, uint64_t number, uint32_t *given) {
    return celtisdarts_infer(handle, operation, celtisdarts_bytes_(name, name_length), name_length, celtisdarts_terms_(terms, count), count,
                             number, given);
}

static inline uint32_t celtisdarts_infer_text_(celtisdarts_handle *handle, uint32_t term, uint8_t *buffer, size_t room, size_t *needed) {
    return celtisdarts_infer_text(handle, term, celtisdarts_room_(buffer, room), room, needed);
}

#define celtisdarts_run celtisdarts_run_
#define celtisdarts_read celtisdarts_read_
#define celtisdarts_name celtisdarts_name_
#define celtisdarts_check celtisdarts_check_
#define celtisdarts_ask celtisdarts_ask_
#define celtisdarts_infer celtisdarts_infer_
#define celtisdarts_infer_text celtisdarts_infer_text_

#ifdef __cplusplus
}
#endif

#endif
