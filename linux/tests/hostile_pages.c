/* Processes that make a look at their huge pages hard; for linux/tests/hostile.py. Each prints `ready` and stays until its time is
 * over, or its parent ends. The last word is that time in seconds.
 *
 *   plain MIB SECONDS          huge pages, half of whose subpages are zero-filled
 *   locked MIB AREAS SECONDS   every second subpage dropped, beside so many locked areas of another mapping
 *   forks MIB FORKS SECONDS    every second subpage dropped, and so many children that map the same
 *   freed MIB SECONDS          pages given to MADV_FREE, every second one by a half
 *   named NAME FILE SECONDS    one huge page in a process of this name, which locks a page of a new file of this name
 *   gone MIB SECONDS           as plain, in a thread, while the first thread has ended
 *   shared MIB COUNT SECONDS   base pages, and so many processes that share the address space (CLONE_VM)
 *   part MIB SECONDS           half of each page is zero-filled and given up, while a child maps all of it
 *   moving MIB SECONDS         drops subpages of huge pages all the time
 *   noise MIB SECONDS          splits huge pages of its own, a thousand times a second (MADV_COLD on a part)
 *
 * NAME and FILE have any bytes; FILE lies in the working folder, and is unlinked at the end.
 */
#define _GNU_SOURCE
#include <fcntl.h>
#include <pthread.h>
#include <sched.h>
#include <signal.h>
#include <stdint.h>
#include <stdio.h>
#include <stdlib.h>
#include <string.h>
#include <sys/mman.h>
#include <sys/prctl.h>
#include <time.h>
#include <unistd.h>

enum { BASE = 4096, HUGE_PAGE = 2 << 20 };
static size_t size;  /* bytes */
static long seconds; /* for which it stays */

static void demand(int is_right, const char *what) {
    if (is_right) return;
    perror(what);
    exit(1);
}

static unsigned char *map(size_t bytes) {
    void *at = mmap(NULL, bytes, PROT_READ | PROT_WRITE, MAP_PRIVATE | MAP_ANONYMOUS | MAP_NORESERVE, -1, 0);
    demand(at != MAP_FAILED, "mmap");
    return at;
}

static unsigned char *map_aligned(size_t bytes) {
    unsigned char *at = (unsigned char *)(((uintptr_t)map(bytes + HUGE_PAGE) + HUGE_PAGE - 1) & -(uintptr_t)HUGE_PAGE);
    demand(!madvise(at, bytes, MADV_HUGEPAGE), "madvise");
    return at;
}

/* Huge pages, of which every second subpage holds data. */
static unsigned char *map_huge(size_t bytes) {
    unsigned char *at = map_aligned(bytes);
    for (size_t i = 0; i < bytes; i += 2 * BASE) memset(at + i, 1 + i / BASE % 200, BASE);
    return at;
}

static void drop_every_second(void) {
    unsigned char *at = map_huge(size);
    for (size_t i = 0; i < size; i += 2 * BASE) madvise(at + i, BASE, MADV_DONTNEED);
}

static void free_lazily(void) {
    unsigned char *at = map_huge(size);
    for (size_t i = 0; i < size; i += HUGE_PAGE) madvise(at + i, i / HUGE_PAGE % 2 ? HUGE_PAGE / 2 : HUGE_PAGE, MADV_FREE);
}

static void ready(void) {
    printf("ready\n");
    fflush(stdout);
}

static void stay(void) {
    ready();
    sleep((unsigned)seconds);
}

static void leave_children(long forks) {
    for (long i = 0; i < forks; i++)
        if (!fork()) {
            prctl(PR_SET_PDEATHSIG, SIGKILL);
            sleep((unsigned)seconds);
            _exit(0);
        }
}

static void lock_areas(long areas) {
    unsigned char *at = map((size_t)areas * 2 * BASE);
    for (long i = 0; i < areas; i++) demand(!mlock(at + (size_t)i * 2 * BASE, BASE), "mlock");
}

static void be_named(const char *name, const char *file) {
    int descriptor = open(file, O_CREAT | O_RDWR | O_EXCL, 0600);
    demand(descriptor >= 0 && !ftruncate(descriptor, BASE), "file");
    void *at = mmap(NULL, BASE, PROT_READ | PROT_WRITE, MAP_SHARED, descriptor, 0);
    demand(at != MAP_FAILED && !mlock(at, BASE), "mlock");
    map_huge(HUGE_PAGE);
    prctl(PR_SET_NAME, name);
    stay();
    unlink(file);
    exit(0);
}

static void *map_and_stay(void *unused) {
    (void)unused;
    map_huge(size);
    stay();
    exit(0);
}

static int idle(void *unused) {
    (void)unused;
    prctl(PR_SET_PDEATHSIG, SIGKILL);
    while (pause()) continue;
    return 0;
}

static void share(long count) {
    unsigned char *at = map(size), *stacks = map((size_t)count * BASE);
    madvise(at, size, MADV_NOHUGEPAGE);
    memset(at, 1, size);
    for (long i = 1; i <= count; i++) demand(clone(idle, stacks + i * BASE, CLONE_VM | SIGCHLD, NULL) >= 0, "clone");
}

static void give_parts_up(void) {
    unsigned char *at = map_huge(size);
    for (size_t i = HUGE_PAGE / 2; i < size; i += HUGE_PAGE) memset(at + i, 0, HUGE_PAGE / 2);
    leave_children(1);
    for (size_t i = HUGE_PAGE / 2; i < size; i += HUGE_PAGE) madvise(at + i, HUGE_PAGE / 2, MADV_DONTNEED);
}

static void move(void) {
    unsigned char *at = map_huge(size);
    time_t until = time(NULL) + seconds;
    ready();
    for (size_t i = 0; time(NULL) < until; i += 5 * BASE, usleep(2000))
        for (size_t page = 0; page < size; page += HUGE_PAGE) madvise(at + page + i % HUGE_PAGE, BASE, MADV_DONTNEED);
    exit(0);
}

static void make_noise(void) {
    unsigned char *at = map_aligned(size);
    time_t until = time(NULL) + seconds;
    ready();
    for (size_t i = 0; time(NULL) < until; i = (i + HUGE_PAGE) % size, usleep(1000)) {
        madvise(at + i, HUGE_PAGE, MADV_DONTNEED);
        at[i] = 1;
        madvise(at + i, BASE, MADV_COLD);
    }
    exit(0);
}

int main(int count, char **words) {
    pthread_t other;
    if (count < 4) return 2;
    const char *kind = words[1];
    long number = atol(words[3]);
    size = (size_t)atol(words[2]) << 20;
    seconds = atol(words[count - 1]);
    prctl(PR_SET_PDEATHSIG, SIGKILL);
    if (!strcmp(kind, "plain")) map_huge(size);
    if (!strcmp(kind, "locked")) drop_every_second(), lock_areas(number);
    if (!strcmp(kind, "forks")) drop_every_second(), leave_children(number);
    if (!strcmp(kind, "freed")) free_lazily();
    if (!strcmp(kind, "named")) be_named(words[2], words[3]);
    if (!strcmp(kind, "shared")) share(number);
    if (!strcmp(kind, "part")) give_parts_up();
    if (!strcmp(kind, "moving")) move();
    if (!strcmp(kind, "noise")) make_noise();
    if (!strcmp(kind, "gone")) {
        demand(!pthread_create(&other, NULL, map_and_stay, NULL), "thread");
        pthread_exit(NULL);
    }
    stay();
    return 0;
}
