/* What host.c does for a proved program: memory, arguments, errno. Its arguments are compared with those of main:
 * `host '' a 'two words'` and more. */
#include <errno.h>
#include <stdbool.h>
#include <stdint.h>
#include <stdio.h>
#include <string.h>
#include <sys/types.h>

/* as a proved program calls them */
typedef struct request {
    bool ok;
    void *memory;
} request;

request rattle_alloc(size_t size, size_t alignment);
request rattle_realloc(void *memory, size_t kept, size_t size, size_t alignment);
void rattle_dealloc(void *memory);
ssize_t rattle_arg(size_t at, char *buffer, size_t capacity);
int rattle_errno(void);
void rattle_set_errno(int error);

static int failures;

#define WANT(fact) \
    do { \
        if (!(fact)) { \
            fprintf(stderr, "%s:%d: not %s\n", __FILE__, __LINE__, #fact); \
            failures++; \
        } \
    } while (0)

static void memory(void) {
    request got = rattle_alloc(0, 8);
    WANT(got.ok && got.memory != NULL);
    rattle_dealloc(got.memory);
    got = rattle_alloc(100, 16);
    WANT(got.ok && (uintptr_t)got.memory % 16 == 0);
    memset(got.memory, 'x', 100);
    got = rattle_realloc(got.memory, 100, 100000, 16);
    WANT(got.ok && (uintptr_t)got.memory % 16 == 0);
    for (int i = 0; i < 100; i++) WANT(((char *)got.memory)[i] == 'x');
    const request refused = rattle_realloc(got.memory, 100, SIZE_MAX / 4, 16);
    WANT(!refused.ok && refused.memory != NULL && refused.memory != got.memory);
    for (int i = 0; i < 100; i++) WANT(((char *)got.memory)[i] == 'x');
    got = rattle_realloc(got.memory, 0, 0, 1);
    WANT(got.ok && got.memory != NULL);
    rattle_dealloc(got.memory);
    const request none = rattle_alloc(SIZE_MAX / 4, 1);
    WANT(!none.ok && none.memory != NULL);
}

/* each argument with every capacity up to one byte more than it needs */
static void arguments_are_whole(size_t count, char **words) {
    static char buffer[5000];
    for (size_t at = 0; at < count; at++) {
        const size_t length = strlen(words[at]);
        for (size_t capacity = 0; capacity <= length + 1 && capacity < sizeof buffer; capacity++) {
            memset(buffer, '#', sizeof buffer);
            const ssize_t got = rattle_arg(at, buffer, capacity);
            const size_t put = length < capacity ? length : capacity;
            WANT(got == (length <= capacity ? (ssize_t)length : -2));
            WANT(memcmp(buffer, words[at], put) == 0);
            for (size_t i = put; i < sizeof buffer; i++) WANT(buffer[i] == '#');
        }
    }
    WANT(rattle_arg(count, buffer, sizeof buffer) == -1);
    WANT(rattle_arg(SIZE_MAX, buffer, 0) == -1);
}

static void errors(void) {
    rattle_set_errno(ENAMETOOLONG);
    WANT(errno == ENAMETOOLONG && rattle_errno() == ENAMETOOLONG);
    errno = 0;
    WANT(rattle_errno() == 0);
}

int main(int count, char **words) {
    WANT(count > 3 && words[1][0] == '\0');
    memory();
    arguments_are_whole((size_t)count, words);
    errors();
    return failures != 0;
}
