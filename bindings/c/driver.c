/* Calls of libceltisdarts.a, to be run under a checker of memory: every word but 3 and 4, buffers of every length, and many handles.
 *
 * It writes what is wrong, and ends with 1 where something is. */
#include "celtisdarts.h"
#include <stdio.h>
#include <stdlib.h>
#include <string.h>

static const char TEXT[] = "crate base\ntrait Show\nimpl Show for u8\ncrate a uses base\nstruct V<T>(T)\nimpl<T> Show for V<T> where T: Show\n"
                           "impl<T> Show for V<T>\n";
static int wrong = 0;

/* A block of exactly so many bytes, so that a checker sees the first one past it. */
static uint8_t *block(const char *bytes, size_t length) {
    uint8_t *made = malloc(length ? length : 1);
    if (made == NULL) abort();
    if (bytes != NULL) memcpy(made, bytes, length);
    return made;
}

static void expect(const char *what, uint32_t word, uint32_t wanted) {
    if (word != wanted) {
        printf("%s: word %u, and not %u\n", what, (unsigned)word, (unsigned)wanted);
        wrong = 1;
    }
}

static void expect_text(const char *what, const uint8_t *found, size_t length, const char *wanted) {
    if (length != strlen(wanted) || memcmp(found, wanted, length) != 0) {
        printf("%s: `%.*s`, and not `%s`\n", what, (int)length, (const char *)found, wanted);
        wrong = 1;
    }
}

typedef enum { NAME, CHECK, ASK, RUN, TERM } kind;

typedef struct {
    kind kind;
    celtisdarts_handle *handle;
    uint32_t number; /* of a crate or a term, or the depth */
    const char *text;
} call;

static uint32_t make(call it, uint8_t *buffer, size_t room, size_t *needed, uint32_t *fault) {
    size_t length = it.text == NULL ? 0 : strlen(it.text);
    uint8_t *text = block(it.text, length);
    uint32_t word = CELTISDARTS_DONE;
    switch (it.kind) {
    case NAME: word = celtisdarts_name(it.handle, it.number, buffer, room, needed); break;
    case CHECK: word = celtisdarts_check(it.handle, it.number, buffer, room, needed); break;
    case ASK: word = celtisdarts_ask(it.handle, text, length, buffer, room, needed, fault); break;
    case RUN: word = celtisdarts_run(text, length, it.number, buffer, room, needed); break;
    case TERM: word = celtisdarts_infer_text(it.handle, it.number, buffer, room, needed); break;
    }
    free(text);
    return word;
}

/* The call writes this text, and says how long it is at each shorter buffer. */
static void writes(const char *what, call it, uint32_t wanted, const char *text) {
    for (size_t room = 0; room <= strlen(text) + 2; room++) {
        uint8_t *buffer = block(NULL, room);
        size_t needed = 0;
        uint32_t fault = 0;
        uint32_t word = make(it, buffer, room, &needed, &fault);
        expect(what, word, room < strlen(text) ? CELTISDARTS_TOO_SHORT : wanted);
        if (needed != strlen(text)) expect("how long it is", (uint32_t)needed, (uint32_t)strlen(text));
        if (word == wanted) expect_text(what, buffer, needed, text);
        free(buffer);
    }
}

static void refuses(const char *what, call it, uint32_t wanted, uint32_t wanted_fault) {
    uint8_t *buffer = block(NULL, 1);
    size_t needed = 0;
    uint32_t fault = 0;
    expect(what, make(it, buffer, 1, &needed, &fault), wanted);
    expect("its fault", fault, wanted_fault);
    free(buffer);
}

static void reads(celtisdarts_handle *handle, const char *text, uint32_t depth, uint32_t wanted, uint32_t wanted_line, uint32_t wanted_number) {
    uint8_t *bytes = block(text, strlen(text));
    uint32_t line = 0, number = 0;
    expect("a text is read", celtisdarts_read(handle, bytes, strlen(text), depth, &line, &number), wanted);
    expect("the line of its fault", line, wanted_line);
    expect("the number of its fault", number, wanted_number);
    free(bytes);
}

static void asks(celtisdarts_handle *handle) {
    writes("the name of core", (call){NAME, handle, 0, NULL}, CELTISDARTS_DONE, "core");
    writes("the name of a", (call){NAME, handle, 2, NULL}, CELTISDARTS_DONE, "a");
    writes("base is checked", (call){CHECK, handle, 1, NULL}, CELTISDARTS_DONE, "crate base: accepted\n");
    writes("a is checked", (call){CHECK, handle, 2, NULL}, CELTISDARTS_DONE, "crate a: overlap impl 2 with a 1\n");
    writes("a proof", (call){ASK, handle, 0, "prove in a fn(V<u8>): Fn<?x>"}, CELTISDARTS_DONE, "prove 1: yes ?x = (V<u8>,)\n");
    writes("no proof", (call){ASK, handle, 0, "prove in base bool: Show"}, CELTISDARTS_DONE, "prove 1: unproved\n");
    writes("a refutation", (call){ASK, handle, 0, "refute in a bool: Fn<()>"}, CELTISDARTS_DONE, "refute 1: no\n");
    refuses("a crate that is not there", (call){NAME, handle, 3, NULL}, CELTISDARTS_NO_CRATE, 0);
    refuses("no crate is checked", (call){CHECK, handle, UINT32_MAX, NULL}, CELTISDARTS_NO_CRATE, 0);
    refuses("an unknown name", (call){ASK, handle, 0, "prove in a W: Show"}, CELTISDARTS_FAULT, 5);
    refuses("no grammar", (call){ASK, handle, 0, "prove"}, CELTISDARTS_FAULT, 2);
    refuses("no query", (call){ASK, handle, 0, "struct W"}, CELTISDARTS_NOT_A_QUERY, 0);
    refuses("an empty line", (call){ASK, handle, 0, ""}, CELTISDARTS_NOT_A_QUERY, 0);
    refuses("two lines", (call){ASK, handle, 0, "prove in a u8: Show\n"}, CELTISDARTS_SEVERAL_LINES, 0);
}

/* Texts, lines and buffers of length 0, which are null. */
static void takes_null(celtisdarts_handle *handle) {
    size_t needed = 0;
    uint32_t line = 0, number = 0;
    expect("no text, and no buffer", celtisdarts_run(NULL, 0, 8, NULL, 0, &needed), CELTISDARTS_DONE);
    expect("a text, and no buffer", celtisdarts_run((const uint8_t *)"crate a", 7, 8, NULL, 0, &needed), CELTISDARTS_TOO_SHORT);
    expect("how long its output is", (uint32_t)needed, 18);
    expect("no text is read", celtisdarts_read(handle, NULL, 0, 8, &line, &number), CELTISDARTS_DONE);
    expect("the name of core, and no buffer", celtisdarts_name(handle, 0, NULL, 0, &needed), CELTISDARTS_TOO_SHORT);
    expect("core is checked, and no buffer", celtisdarts_check(handle, 0, NULL, 0, &needed), CELTISDARTS_TOO_SHORT);
    expect("no line, and no buffer", celtisdarts_ask(handle, NULL, 0, NULL, 0, &needed, &number), CELTISDARTS_NOT_A_QUERY);
}

/* An operation, with a null where there is no name or no term. */
static uint32_t infers(celtisdarts_handle *handle, uint32_t operation, const char *name, const uint32_t *terms, size_t count, uint64_t number,
                       uint32_t *given) {
    size_t length = name == NULL ? 0 : strlen(name);
    uint8_t *bytes = name == NULL ? NULL : block(name, length);
    uint32_t *taken = count == 0 ? NULL : (uint32_t *)block((const char *)terms, count * sizeof *terms);
    uint32_t word = celtisdarts_infer(handle, operation, bytes, length, taken, count, number, given);
    free(bytes);
    free(taken);
    return word;
}

/* The operation gives this. */
static void gives(const char *what, celtisdarts_handle *handle, uint32_t operation, const char *name, const uint32_t *terms, size_t count,
                  uint32_t wanted) {
    uint32_t given = UINT32_MAX;
    expect(what, infers(handle, operation, name, terms, count, 0, &given), CELTISDARTS_DONE);
    expect("what it gives", given, wanted);
}

/* The operation, of a number alone, gives this. */
static void gives_of(const char *what, celtisdarts_handle *handle, uint32_t operation, uint64_t number, uint32_t wanted) {
    uint32_t given = UINT32_MAX;
    expect(what, infers(handle, operation, NULL, NULL, 0, number, &given), CELTISDARTS_DONE);
    expect("what it gives", given, wanted);
}

static void gives_no(const char *what, celtisdarts_handle *handle, uint32_t operation, const char *name, const uint32_t *terms, size_t count,
                     uint32_t wanted) {
    uint32_t given = UINT32_MAX;
    expect(what, infers(handle, operation, name, terms, count, 0, &given), wanted);
}

static void has_no_context(celtisdarts_handle *handle, uint32_t wanted) {
    size_t needed = 0;
    gives_no("no context infers", handle, CELTISDARTS_INFER_FRESH_TYPE, NULL, NULL, 0, wanted);
    expect("no context is ended", celtisdarts_infer_end(handle), wanted);
    expect("no context has a term", celtisdarts_infer_text(handle, 0, NULL, 0, &needed), wanted);
}

/* `fn(u8) -> u8: Fn<?0t>`, which decides the variable. */
static void infers_a_type(celtisdarts_handle *handle) {
    static const uint32_t zero = 0, one = 1, three = 3, four = 4;
    static const uint32_t bytes[] = {1, 1}, asked[] = {2, 0}, unknown[] = {3, 99}, unequal[] = {0, 1};
    gives("a variable", handle, CELTISDARTS_INFER_FRESH_TYPE, NULL, NULL, 0, 0);
    gives("a type", handle, CELTISDARTS_INFER_TYPE, "u8", NULL, 0, 1);
    gives("a function", handle, CELTISDARTS_INFER_FUNCTION, NULL, bytes, 2, 2);
    gives("a snapshot", handle, CELTISDARTS_INFER_SNAPSHOT, NULL, NULL, 0, 0);
    gives("a bound", handle, CELTISDARTS_INFER_REGISTER, "Fn", asked, 2, 0);
    gives("it is pending", handle, CELTISDARTS_INFER_STANDING, NULL, NULL, 0, 1);
    gives("all are done", handle, CELTISDARTS_INFER_SELECT, NULL, NULL, 0, 0);
    gives("it is done", handle, CELTISDARTS_INFER_STANDING, NULL, NULL, 0, 0);
    gives("a value", handle, CELTISDARTS_INFER_RESOLVE, NULL, &zero, 1, 3);
    gives("a constant", handle, CELTISDARTS_INFER_CONSTANT, NULL, NULL, 0, 4);
    writes("the value", (call){TERM, handle, 3, NULL}, CELTISDARTS_DONE, "(u8,)");
    gives_no("an unknown term", handle, CELTISDARTS_INFER_EQ, NULL, unknown, 2, CELTISDARTS_NO_TERM);
    gives_no("no solution", handle, CELTISDARTS_INFER_EQ, NULL, unequal, 2, CELTISDARTS_NO_SOLUTION);
    gives_no("an unseen name", handle, CELTISDARTS_INFER_TYPE, "V", &one, 1, CELTISDARTS_NO_NAME);
    gives_no("no name", handle, CELTISDARTS_INFER_TYPE, NULL, NULL, 0, CELTISDARTS_NO_NAME);
    gives_no("no terms", handle, CELTISDARTS_INFER_SLICE, NULL, NULL, 0, CELTISDARTS_WRONG_TERMS);
    gives_no("a constant is no type", handle, CELTISDARTS_INFER_SLICE, NULL, &four, 1, CELTISDARTS_WRONG_TERMS);
    gives_no("no operation", handle, 0, NULL, NULL, 0, CELTISDARTS_NO_OPERATION);
    gives_no("no operation", handle, UINT32_MAX, "V", &three, 1, CELTISDARTS_NO_OPERATION);
    refuses("an unknown term", (call){TERM, handle, 99, NULL}, CELTISDARTS_NO_TERM, 0);
    gives("it is rolled back", handle, CELTISDARTS_INFER_ROLL_BACK, NULL, NULL, 0, 1);
    gives("no value", handle, CELTISDARTS_INFER_RESOLVE, NULL, &zero, 1, 3);
    writes("no value", (call){TERM, handle, 3, NULL}, CELTISDARTS_DONE, "?0t");
    refuses("a term that was taken back", (call){TERM, handle, 4, NULL}, CELTISDARTS_NO_TERM, 0);
}

/* `fn f<T: Copy>(..)`, in whose body `(T, T)` is copied. */
static void assumes_a_bound(celtisdarts_handle *handle) {
    static const uint32_t zero = 0, one = 1, two = 2, pair[] = {0, 0};
    uint32_t given = UINT32_MAX;
    gives_of("a parameter", handle, CELTISDARTS_INFER_PARAM, UINT32_MAX, 0);
    gives_of("a constant parameter", handle, CELTISDARTS_INFER_CONST_PARAM, 5, 1);
    gives("a tuple", handle, CELTISDARTS_INFER_TUPLE, NULL, pair, 2, 2);
    writes("a parameter", (call){TERM, handle, 0, NULL}, CELTISDARTS_DONE, "!4294967295t");
    writes("a constant parameter", (call){TERM, handle, 1, NULL}, CELTISDARTS_DONE, "!5c");
    expect("a parameter of more bits", infers(handle, CELTISDARTS_INFER_PARAM, NULL, NULL, 0, UINT64_C(1) << 32, &given), CELTISDARTS_WRONG_TERMS);
    expect("a constant parameter of more bits", infers(handle, CELTISDARTS_INFER_CONST_PARAM, NULL, NULL, 0, UINT64_MAX, &given), CELTISDARTS_WRONG_TERMS);
    gives_no("a parameter of a term", handle, CELTISDARTS_INFER_PARAM, NULL, &zero, 1, CELTISDARTS_WRONG_TERMS);
    gives("a snapshot", handle, CELTISDARTS_INFER_SNAPSHOT, NULL, NULL, 0, 0);
    gives("an assumption", handle, CELTISDARTS_INFER_ASSUME, "Copy", &zero, 1, 0);
    gives_no("an assumption of no trait", handle, CELTISDARTS_INFER_ASSUME, "V", &zero, 1, CELTISDARTS_NO_NAME);
    gives_no("an assumption of a constant", handle, CELTISDARTS_INFER_ASSUME, "Copy", &one, 1, CELTISDARTS_WRONG_TERMS);
    gives_no("an assumption of nothing", handle, CELTISDARTS_INFER_ASSUME, "Copy", NULL, 0, CELTISDARTS_WRONG_TERMS);
    gives("a bound", handle, CELTISDARTS_INFER_REGISTER, "Copy", &two, 1, 0);
    gives("another bound", handle, CELTISDARTS_INFER_REGISTER, "Clone", &zero, 1, 1);
    expect("a selection of one goal", infers(handle, CELTISDARTS_INFER_SELECT, NULL, NULL, 0, 1, &given), CELTISDARTS_DONE);
    expect("it stops, or had found all", given == 2 || given == 0, 1);
    gives_of("all are done", handle, CELTISDARTS_INFER_SELECT, UINT64_MAX, 0);
    gives_of("a supertrait is done", handle, CELTISDARTS_INFER_STANDING, 1, 0);
    gives("it is rolled back", handle, CELTISDARTS_INFER_ROLL_BACK, NULL, NULL, 0, 1);
    gives("a bound that nothing says", handle, CELTISDARTS_INFER_REGISTER, "Copy", &two, 1, 0);
    expect("it is selected", infers(handle, CELTISDARTS_INFER_SELECT, NULL, NULL, 0, 0, &given), CELTISDARTS_DONE);
    expect("it is not done", given != 0, 1);
}

/* The number of an obligation that has no solution. */
static void refuses_a_bound(celtisdarts_handle *handle) {
    static const uint32_t one = 1;
    gives("a variable", handle, CELTISDARTS_INFER_FRESH_TYPE, NULL, NULL, 0, 0);
    gives("a type", handle, CELTISDARTS_INFER_TYPE, "str", NULL, 0, 1);
    gives("a bound", handle, CELTISDARTS_INFER_REGISTER, "Copy", &one, 1, 0);
    gives_of("it is refused", handle, CELTISDARTS_INFER_SELECT, 1, 3);
    gives("it is refused again", handle, CELTISDARTS_INFER_SELECT, NULL, NULL, 0, 3);
    gives("how it stands", handle, CELTISDARTS_INFER_STANDING, NULL, NULL, 0, 3);
}

static void has_contexts(celtisdarts_handle *handle) {
    has_no_context(handle, CELTISDARTS_NO_CONTEXT);
    expect("a context of no crate", celtisdarts_infer_begin(handle, 3), CELTISDARTS_NO_CRATE);
    for (int times = 0; times < 3; times++) {
        expect("a context is begun", celtisdarts_infer_begin(handle, 1), CELTISDARTS_DONE);
        infers_a_type(handle);
        asks(handle);
        expect("a context is begun", celtisdarts_infer_begin(handle, 1), CELTISDARTS_DONE);
        assumes_a_bound(handle);
        expect("a context is begun", celtisdarts_infer_begin(handle, 1), CELTISDARTS_DONE);
        refuses_a_bound(handle);
    }
    expect("a context is ended", celtisdarts_infer_end(handle), CELTISDARTS_DONE);
    has_no_context(handle, CELTISDARTS_NO_CONTEXT);
    expect("a context is left open", celtisdarts_infer_begin(handle, 2), CELTISDARTS_DONE);
}

static celtisdarts_handle opened(void) {
    celtisdarts_handle handle = {NULL};
    expect("a handle is made", celtisdarts_new(&handle.at), CELTISDARTS_DONE);
    if (handle.at == NULL) abort();
    return handle;
}

static void asks_a_long_line(celtisdarts_handle *handle) {
    size_t length = 67108864;
    char *line = malloc(length + 1);
    if (line == NULL) abort();
    memset(line, ' ', length);
    line[length] = 0;
    refuses("a line with no room", (call){ASK, handle, 0, line}, CELTISDARTS_TOO_LONG, 0);
    free(line);
}

int main(void) {
    celtisdarts_handle handle = opened();
    refuses("nothing was read, and a name is asked", (call){NAME, &handle, 0, NULL}, CELTISDARTS_NO_TEXT, 0);
    refuses("nothing was read, and a crate is checked", (call){CHECK, &handle, 0, NULL}, CELTISDARTS_NO_TEXT, 0);
    refuses("nothing was read, and a line is asked", (call){ASK, &handle, 0, "prove in a u8: Show"}, CELTISDARTS_NO_TEXT, 0);
    expect("nothing was read, and a context is begun", celtisdarts_infer_begin(&handle, 0), CELTISDARTS_NO_TEXT);
    has_no_context(&handle, CELTISDARTS_NO_TEXT);
    for (int times = 0; times < 3; times++) {
        reads(&handle, TEXT, 8, CELTISDARTS_DONE, 0, 0);
        asks(&handle);
        reads(&handle, "crate a\nstruct A;\n", 8, CELTISDARTS_FAULT, 2, 2);
        reads(&handle, TEXT, 0, CELTISDARTS_NO_DEPTH, 0, 0);
        reads(&handle, TEXT, 256, CELTISDARTS_NO_DEPTH, 0, 0);
        asks(&handle);
        asks_a_long_line(&handle);
        has_contexts(&handle);
    }
    takes_null(&handle);
    expect("the version of the calls", celtisdarts_abi_version, CELTISDARTS_ABI_VERSION);
    celtisdarts_close(handle);
    for (int times = 0; times < 200; times++) {
        celtisdarts_handle one = opened(), other = opened();
        reads(&one, TEXT, 8, CELTISDARTS_DONE, 0, 0);
        writes("one of two", (call){CHECK, &one, 1, NULL}, CELTISDARTS_DONE, "crate base: accepted\n");
        celtisdarts_close(other);
        celtisdarts_close(one);
    }
    writes("an output", (call){RUN, NULL, 8, TEXT}, CELTISDARTS_DONE, "crate base: accepted\ncrate a: overlap impl 2 with a 1\n");
    writes("the line of a fault", (call){RUN, NULL, 8, "crate a\nstruct A;\n"}, CELTISDARTS_FAULT, "line 2: fault 2\n");
    writes("no text", (call){RUN, NULL, 8, ""}, CELTISDARTS_DONE, "");
    refuses("no depth", (call){RUN, NULL, 0, TEXT}, CELTISDARTS_NO_DEPTH, 0);
    refuses("no depth", (call){RUN, NULL, 256, TEXT}, CELTISDARTS_NO_DEPTH, 0);
    return wrong;
}
