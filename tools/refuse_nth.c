/* Refuses the Nth request for memory of the program that it is preloaded into.
 *
 *     REFUSE_NTH=3 REFUSE_REPORT=file LD_PRELOAD=./refuse_nth.so program
 *
 * Requests count from 1: malloc, calloc, realloc and the aligned forms, in the
 * order in which they are made. Only the one with that number is refused. It
 * then writes the byte '!' to the report, so that the caller can tell a run
 * that met the refusal from one that asked fewer times. */
#define _GNU_SOURCE
#include <errno.h>
#include <fcntl.h>
#include <stdlib.h>
#include <unistd.h>

extern void *__libc_malloc(size_t);
extern void *__libc_calloc(size_t, size_t);
extern void *__libc_realloc(void *, size_t);
extern void *__libc_memalign(size_t, size_t);

static long wanted = -1;
static long asked = 0;

/* The environment is read before main, so that the first request is the program's own. */
__attribute__((constructor)) static void begin(void)
{
    const char *number = getenv("REFUSE_NTH");
    wanted = number ? atol(number) : 0;
    asked = 0;
}

static int is_refused(void)
{
    if (wanted <= 0 || ++asked != wanted)
        return 0;
    const char *report = getenv("REFUSE_REPORT");
    int file = report ? open(report, O_WRONLY | O_CREAT | O_APPEND, 0600) : -1;
    if (file >= 0) {
        ssize_t written = write(file, "!", 1);
        (void)written;
        close(file);
    }
    errno = ENOMEM;
    return 1;
}

void *malloc(size_t size) { return is_refused() ? NULL : __libc_malloc(size); }
void *calloc(size_t count, size_t size) { return is_refused() ? NULL : __libc_calloc(count, size); }
void *realloc(void *old, size_t size) { return is_refused() ? NULL : __libc_realloc(old, size); }
void *aligned_alloc(size_t align, size_t size) { return is_refused() ? NULL : __libc_memalign(align, size); }
void *memalign(size_t align, size_t size) { return is_refused() ? NULL : __libc_memalign(align, size); }

int posix_memalign(void **out, size_t align, size_t size)
{
    if (is_refused())
        return ENOMEM;
    void *made = __libc_memalign(align, size);
    if (!made)
        return ENOMEM;
    *out = made;
    return 0;
}
