/* Each request for memory of each call refused in turn: the call says so, and made again it is answered as ever.
 *
 * It is linked with -Wl,--wrap=malloc,--wrap=realloc, so that the library's requests come through here. It writes what is wrong, and ends with
 * 1 where something is, or where no request was refused. */
#include "celtisdarts.h"
#include <stdio.h>
#include <stdlib.h>
#include <string.h>

void *__real_malloc(size_t size);
void *__real_realloc(void *block, size_t size);

/* The request of this number is refused; at 0, none. */
static unsigned long refused_one = 0;
static unsigned long requests = 0;

static int is_refused(void) {
    requests++;
    return requests == refused_one;
}

void *__wrap_malloc(size_t size) {
    return is_refused() ? NULL : __real_malloc(size);
}

void *__wrap_realloc(void *block, size_t size) {
    return is_refused() ? NULL : __real_realloc(block, size);
}

static const char TEXT[] = "crate base\ntrait Show\nimpl Show for u8\ncrate a uses base\nstruct V<T>(T)\nimpl<T> Show for V<T> where T: Show\n"
                           "impl<T> Show for V<T>\n";
static const char LINE[] = "prove in a fn(V<u8>): Fn<?x>";
static celtisdarts_handle handle;
static uint8_t buffer[256];
static size_t needed;

static uint32_t reads(void) {
    uint32_t line, number;
    return celtisdarts_read(&handle, (const uint8_t *)TEXT, strlen(TEXT), 8, &line, &number);
}

static uint32_t names(void) {
    return celtisdarts_name(&handle, 2, buffer, sizeof buffer, &needed);
}

static uint32_t checks(void) {
    return celtisdarts_check(&handle, 2, buffer, sizeof buffer, &needed);
}

static uint32_t asks(void) {
    uint32_t number;
    return celtisdarts_ask(&handle, (const uint8_t *)LINE, strlen(LINE), buffer, sizeof buffer, &needed, &number);
}

/* The name of a type or a trait, with terms, in the context of the handle. */
static uint32_t infers(uint32_t operation, const char *name, const uint32_t *terms, size_t count) {
    uint32_t given;
    return celtisdarts_infer(&handle, operation, (const uint8_t *)name, strlen(name), terms, count, 0, &given);
}

static uint32_t begins(void) {
    uint32_t word = reads();
    return word != CELTISDARTS_DONE ? word : celtisdarts_infer_begin(&handle, 2);
}

/* Bounds of term 0, a variable, and of term 1, a struct over it. */
static uint32_t registers(void) {
    static const uint32_t terms[] = {0, 1};
    uint32_t word = begins();
    if (word == CELTISDARTS_DONE) word = infers(CELTISDARTS_INFER_FRESH_TYPE, "", NULL, 0);
    if (word == CELTISDARTS_DONE) word = infers(CELTISDARTS_INFER_TYPE, "V", terms, 1);
    if (word == CELTISDARTS_DONE) word = infers(CELTISDARTS_INFER_SNAPSHOT, "", NULL, 0);
    if (word == CELTISDARTS_DONE) word = infers(CELTISDARTS_INFER_REGISTER, "Show", terms + 1, 1);
    return word == CELTISDARTS_DONE ? infers(CELTISDARTS_INFER_REGISTER, "Show", terms, 1) : word;
}

static uint32_t assumes(void) {
    static const uint32_t terms[] = {2};
    uint32_t word = registers();
    if (word == CELTISDARTS_DONE) word = infers(CELTISDARTS_INFER_PARAM, "", NULL, 0);
    if (word == CELTISDARTS_DONE) word = infers(CELTISDARTS_INFER_ASSUME, "Show", terms, 1);
    return word == CELTISDARTS_DONE ? infers(CELTISDARTS_INFER_REGISTER, "Show", terms, 1) : word;
}

static uint32_t selects(void) {
    return infers(CELTISDARTS_INFER_SELECT, "", NULL, 0);
}

static uint32_t selects_first(void) {
    uint32_t word = registers();
    return word == CELTISDARTS_DONE ? selects() : word;
}

static uint32_t resolves(void) {
    static const uint32_t terms[] = {1};
    return infers(CELTISDARTS_INFER_RESOLVE, "", terms, 1);
}

static uint32_t writes(void) {
    return celtisdarts_infer_text(&handle, 1, buffer, sizeof buffer, &needed);
}

static uint32_t equates(void) {
    static const uint32_t terms[] = {0, 2};
    uint32_t word = infers(CELTISDARTS_INFER_TYPE, "u8", NULL, 0);
    return word == CELTISDARTS_DONE ? infers(CELTISDARTS_INFER_EQ, "", terms, 2) : word;
}

static uint32_t rolls_back(void) {
    return infers(CELTISDARTS_INFER_ROLL_BACK, "", NULL, 0);
}

static uint32_t runs(void) {
    return celtisdarts_run((const uint8_t *)TEXT, strlen(TEXT), 8, buffer, sizeof buffer, &needed);
}

static int is_answered(const char *what, uint32_t word, const char *answer) {
    if (word == CELTISDARTS_DONE && needed == strlen(answer) && memcmp(buffer, answer, needed) == 0) return 1;
    printf("%s: word %u, `%.*s`\n", what, (unsigned)word, (int)needed, (const char *)buffer);
    return 0;
}

/* Makes the call with each of its requests refused, until it has none of that number: it says so, or does without. Behind each such call it is
 * made as ever. Before it another call is made, if one is given: what is kept is what that leaves. */
static int tries(const char *what, uint32_t (*before)(void), uint32_t (*call)(void), const char *answer) {
    unsigned long number = 0, told = 0;
    do {
        number++;
        if (before != NULL && before() != CELTISDARTS_DONE) return 1;
        needed = 0;
        requests = 0;
        refused_one = number;
        uint32_t word = call();
        refused_one = 0;
        unsigned long asked = requests;
        if (word == CELTISDARTS_MEMORY) told++;
        else if (!is_answered(what, word, answer)) return 1;
        needed = 0;
        if (!is_answered(what, call(), answer)) return 1;
        requests = asked;
    } while (requests >= number);
    printf("%s: %lu requests, %lu calls that say that one was refused\n", what, number - 1, told);
    return told == 0;
}

static int opens_refused(void) {
    void *at = NULL;
    requests = 0;
    refused_one = 1;
    uint32_t word = celtisdarts_new(&at);
    refused_one = 0;
    if (word != CELTISDARTS_MEMORY || at != NULL) printf("a handle: word %u\n", (unsigned)word);
    return word != CELTISDARTS_MEMORY || at != NULL;
}

int main(void) {
    int wrong = opens_refused();
    if (celtisdarts_new(&handle.at) != CELTISDARTS_DONE) return 1;
    wrong |= tries("a text is read", NULL, reads, "");
    wrong |= tries("a crate is named", NULL, names, "a");
    wrong |= tries("a crate is checked", reads, checks, "crate a: overlap impl 2 with a 1\n");
    wrong |= tries("a crate is checked again", checks, checks, "crate a: overlap impl 2 with a 1\n");
    wrong |= tries("a line is asked", reads, asks, "prove 1: yes ?x = (V<u8>,)\n");
    wrong |= tries("a line is asked again", asks, asks, "prove 1: yes ?x = (V<u8>,)\n");
    wrong |= tries("a context is begun", NULL, begins, "");
    wrong |= tries("bounds are registered", NULL, registers, "");
    wrong |= tries("bounds are selected", registers, selects, "");
    wrong |= tries("a bound is assumed", NULL, assumes, "");
    wrong |= tries("bounds are selected under it", assumes, selects, "");
    wrong |= tries("a term is resolved", selects_first, resolves, "");
    wrong |= tries("a term is written", registers, writes, "V<?0t>");
    wrong |= tries("terms are equated", registers, equates, "");
    wrong |= tries("a context is rolled back", selects_first, rolls_back, "");
    celtisdarts_close(handle);
    wrong |= tries("a text is answered", NULL, runs, "crate base: accepted\ncrate a: overlap impl 2 with a 1\n");
    return wrong;
}
