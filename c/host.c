/* What a proved program asks of C: memory, its arguments, and errno. The toolchain has these functions for x86-64; release/aarch64.py links
   a program with this file instead. Nothing proves it: its functions are trusted to do what the toolchain's contracts state, and
   c/tests/host.c tests them. The library has its own functions for memory, in thp.c. */
#include <errno.h>
#include <stdbool.h>
#include <stddef.h>
#include <stdlib.h>
#include <string.h>
#include <sys/types.h>

/* the result of a request: the memory, or a failure and an address that is never read */
typedef struct request {
    bool ok;
    void *memory;
} request;

request rattle_alloc(size_t size, size_t alignment);
request rattle_realloc(void *memory, size_t kept, size_t size, size_t alignment);
void rattle_dealloc(void *memory);
ssize_t rattle_arg(size_t at, char *buffer, size_t capacity);
int rattle_errno(void);
void rattle_set_errno(int error);

static request answer(void *memory) {
    static char nowhere;
    request got = {memory != NULL, memory != NULL ? memory : &nowhere};
    return got;
}

/* alignments are at most 16, which malloc guarantees for every block of at least that size */
request rattle_alloc(size_t size, size_t alignment) { return answer(malloc(size != 0 ? size : alignment)); }

/* the bytes below `kept` stay as they are, which realloc guarantees for all that fit; a refused request leaves the block as it was */
request rattle_realloc(void *memory, size_t kept, size_t size, size_t alignment) {
    (void)kept;
    return answer(realloc(memory, size != 0 ? size : alignment));
}

void rattle_dealloc(void *memory) { free(memory); }

/* the program's arguments, its name first: glibc passes them to each constructor, before main */
static size_t argument_count;
static char *const *arguments;

__attribute__((constructor)) static void keep_arguments(int count, char **words) {
    argument_count = count > 0 ? (size_t)count : 0;
    arguments = words;
}

enum { NO_ARGUMENT = -1, TOO_LONG = -2 };

/* Puts an argument at the start of the buffer, without its null byte, and returns its length. If it is too long, the buffer gets its first
   bytes. */
ssize_t rattle_arg(size_t at, char *buffer, size_t capacity) {
    if (at >= argument_count || arguments[at] == NULL) return NO_ARGUMENT;
    const size_t length = strlen(arguments[at]);
    if (length != 0 && capacity != 0) memcpy(buffer, arguments[at], length <= capacity ? length : capacity);
    return length <= capacity ? (ssize_t)length : TOO_LONG;
}

int rattle_errno(void) { return errno; }

void rattle_set_errno(int error) { errno = error; }
