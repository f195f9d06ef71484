// Preloaded, it refuses a program one growth of memory, or one start of a thread: the one whose number, from 1 on over
// all threads, is in the variable REFUSE_MEMORY or REFUSE_THREAD. The file that REFUSE_COUNTS names, of 24 bytes,
// then has how many growths and how many starts there were, and how many bytes the growths requested. tests/test_memory.py builds
// and uses it.
#define _GNU_SOURCE
#include <dlfcn.h>
#include <errno.h>
#include <fcntl.h>
#include <pthread.h>
#include <stdatomic.h>
#include <stdlib.h>
#include <sys/mman.h>
#include <unistd.h>

extern void *__libc_malloc(size_t size);
extern void *__libc_calloc(size_t count, size_t size);
extern void *__libc_realloc(void *memory, size_t size);

static _Atomic unsigned long *counts;
static unsigned long memory_number, thread_number;

static unsigned long number_in(const char *name) {
    const char *text = getenv(name);
    return text ? strtoul(text, NULL, 10) : 0;
}

// What runs before it, as the loader's own memory, isn't counted.
__attribute__((constructor)) static void begin(void) {
    const char *path = getenv("REFUSE_COUNTS");
    int file = path ? open(path, O_RDWR) : -1;
    if (file < 0) {
        return;
    }
    void *page = mmap(NULL, 24, PROT_READ | PROT_WRITE, MAP_SHARED, file, 0);
    close(file);
    memory_number = number_in("REFUSE_MEMORY");
    thread_number = number_in("REFUSE_THREAD");
    if (page != MAP_FAILED) {
        counts = page;
    }
}

static int is_refused(int which, unsigned long number) {
    return counts && atomic_fetch_add(&counts[which], 1) + 1 == number;
}

static int may_grow(size_t size) {
    if (counts) {
        atomic_fetch_add(&counts[2], size);
    }
    if (is_refused(0, memory_number)) {
        errno = ENOMEM;
        return 0;
    }
    return 1;
}

void *malloc(size_t size) { return may_grow(size) ? __libc_malloc(size) : NULL; }

void *calloc(size_t count, size_t size) { return may_grow(count * size) ? __libc_calloc(count, size) : NULL; }

void *realloc(void *memory, size_t size) { return may_grow(size) ? __libc_realloc(memory, size) : NULL; }

int pthread_create(pthread_t *thread, const pthread_attr_t *how, void *(*run)(void *), void *with) {
    static int (*create)(pthread_t *, const pthread_attr_t *, void *(*)(void *), void *);
    if (is_refused(1, thread_number)) {
        return EAGAIN;
    }
    if (!create) {
        *(void **)&create = dlsym(RTLD_NEXT, "pthread_create");
    }
    return create(thread, how, run, with);
}
