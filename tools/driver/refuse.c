/* Refuses one request for memory of the program that this is linked into, the Nth from now on.
 *
 *     refuse(3);           the third request from here on is refused
 *     was_refused();       whether it came so far
 *     refuse(0);           none is
 *
 * In a run with REFUSE_EACH=FILE in its environment each of the first 4,000 requests is refused, and then each 97th: at each the process
 * forks, and the child is refused it and goes on to its end, while the other waits and goes on with what it asked for. What the children
 * write is in the file, each followed by the number of its request and its status.
 *
 * The program asks by `rattle_alloc` and `rattle_realloc` of the toolchain's own library. Before `main`, their first
 * instructions are overwritten by a jump to the functions here, which count and then ask the C library as those do. */
#include <fcntl.h>
#include <inttypes.h>
#include <stdint.h>
#include <stdio.h>
#include <stdlib.h>
#include <string.h>
#include <sys/mman.h>
#include <sys/wait.h>
#include <unistd.h>

/* Whether memory was given, and where it lies. */
struct given {
    uint64_t is_given;
    void *place;
};

extern struct given rattle_alloc(size_t size, size_t align);
extern struct given rattle_realloc(void *old, size_t kept, size_t size, size_t align);

static uint64_t wanted = 0;
static uint64_t asked = 0;
static uint8_t refused = 0;
static int report = -1;
static char nowhere;

void refuse(uint64_t number)
{
    wanted = number;
    asked = 0;
    refused = 0;
}

uint8_t was_refused(void)
{
    return refused;
}

/* Whether this is the child. */
static int is_refused_apart(void)
{
    int status = -1;
    pid_t child = fork();
    if (child == 0) {
        dup2(report, STDOUT_FILENO);
        dup2(report, STDERR_FILENO);
        report = -1;
        return 1;
    }
    if (child > 0)
        waitpid(child, &status, 0);
    dprintf(report, "\nrequest %" PRIu64 ": status %d\n", asked, WIFEXITED(status) ? WEXITSTATUS(status) : -1);
    return 0;
}

static int is_refused(void)
{
    asked++;
    if (report >= 0)
        return (asked <= 4000 || asked % 97 == 0) && is_refused_apart();
    if (asked != wanted)
        return 0;
    refused = 1;
    return 1;
}

static struct given as_given(void *place)
{
    struct given given = {place != NULL, place ? place : &nowhere};
    return given;
}

static struct given alloc(size_t size, size_t align)
{
    return as_given(is_refused() ? NULL : malloc(size ? size : align));
}

static struct given resize(void *old, size_t kept, size_t size, size_t align)
{
    (void)kept;
    return as_given(is_refused() ? NULL : realloc(old, size ? size : align));
}

static void jump_from(void *from, void *to)
{
    /* movabs $to, %rax; jmp *%rax */
    unsigned char code[12] = {0x48, 0xb8, 0, 0, 0, 0, 0, 0, 0, 0, 0xff, 0xe0};
    uintptr_t page = (uintptr_t)sysconf(_SC_PAGESIZE);
    uintptr_t begin = (uintptr_t)from & ~(page - 1);
    uintptr_t end = ((uintptr_t)from + sizeof code + page - 1) & ~(page - 1);
    memcpy(code + 2, &to, sizeof to);
    if (mprotect((void *)begin, end - begin, PROT_READ | PROT_WRITE | PROT_EXEC) != 0)
        abort();
    memcpy(from, code, sizeof code);
    if (mprotect((void *)begin, end - begin, PROT_READ | PROT_EXEC) != 0)
        abort();
}

__attribute__((constructor)) static void begin(void)
{
    jump_from((void *)rattle_alloc, (void *)alloc);
    jump_from((void *)rattle_realloc, (void *)resize);
    const char *file = getenv("REFUSE_EACH");
    if (file)
        report = open(file, O_WRONLY | O_CREAT | O_APPEND | O_CLOEXEC, 0600);
}
