/* Threads that make, divide and drop huge pages: something for the recorder to see.
 *
 * workload THREADS STEPS SEED ORDER [zeros] [collapse] [areas]
 *
 * Each thread has a few places. In each step it makes a page in an empty place, or drops a part of a page, splits its PMD entry, unmaps it,
 * pins or unpins it, has a child drop a part (with one thread), or sleeps. `zeros`: most subpages of a page stay zero-filled; `collapse`:
 * it also asks for collapses; `areas`: it also replaces a part of a page by a new area, and moves a page. */
#define _GNU_SOURCE
#include <fcntl.h>
#include <pthread.h>
#include <stdlib.h>
#include <string.h>
#include <sys/mman.h>
#include <sys/uio.h>
#include <sys/wait.h>
#include <unistd.h>

enum { BASE = 4096, PLACES = 6, MOST_THREADS = 64, STEPS = 12, COLLAPSES = 2, AREAS = 2 };

#ifndef MADV_COLLAPSE
#define MADV_COLLAPSE 25
#endif

static int threads, steps, seed, order, zeros, collapse, areas;
static size_t size; /* bytes of a page */

struct place {
    unsigned char *page;
    int pin; /* a pipe that holds a reference, or 0 */
    int is_whole; /* no part was dropped or replaced, so that a pin holds the page, not a base page that it was split into */
};

struct range {
    size_t first, length; /* bytes */
};

/* an aligned place that nothing uses, with a hole on each side, so that no other area joins one there */
static unsigned char *find_place(size_t length)
{
    unsigned char *room = mmap(NULL, length + size + 2 * BASE, PROT_NONE, MAP_PRIVATE | MAP_ANONYMOUS, -1, 0);
    if (room == MAP_FAILED)
        exit(1);
    return (unsigned char *)(((size_t)room + BASE + size - 1) & -size);
}

static void new_area(unsigned char *at, size_t length)
{
    if (mmap(at, length, PROT_READ | PROT_WRITE, MAP_PRIVATE | MAP_ANONYMOUS | MAP_FIXED, -1, 0) == MAP_FAILED)
        exit(1);
}

/* the start of one of a page's subpages */
static size_t any_place(unsigned *chance)
{
    return (size_t)BASE * (rand_r(chance) % (1 << order));
}

static void make(struct place *place, unsigned *chance)
{
    place->page = find_place(size);
    place->is_whole = 1;
    new_area(place->page, size);
    madvise(place->page, size, MADV_HUGEPAGE);
    memset(place->page, 90, zeros ? any_place(chance) + 1 : size);
}

static void unpin(struct place *place)
{
    if (place->pin)
        close(place->pin);
    place->pin = 0;
}

static void drop(struct place *place)
{
    munmap(place->page, size);
    unpin(place);
    place->page = NULL;
}

static void pin(struct place *place, struct range range)
{
    int ends[2];
    struct iovec one = { place->page + range.first, 1 };
    if (place->pin || !place->is_whole || pipe(ends))
        return;
    if (vmsplice(ends[1], &one, 1, 0) == 1)
        place->pin = dup(ends[0]);
    close(ends[0]);
    close(ends[1]);
}

static void in_a_child(struct place *place, struct range range)
{
    pid_t child = fork();
    if (child == 0) {
        madvise(place->page + range.first, range.length, MADV_DONTNEED);
        usleep(3000);
        _exit(0);
    }
    usleep(1000);
    waitpid(child, NULL, 0);
}

/* to a place that is aligned as the page was, or to any */
static void move(struct place *place, unsigned *chance)
{
    size_t beside = rand_r(chance) % 2 ? any_place(chance) : 0;
    unsigned char *page = mremap(place->page, size, size, MREMAP_MAYMOVE | MREMAP_FIXED, find_place(2 * size) + beside);
    if (page != MAP_FAILED)
        place->page = page;
}

static struct range a_range(unsigned *chance)
{
    size_t first = any_place(chance), length = BASE + any_place(chance);
    return (struct range){ first, length < size - first ? length : size - first };
}

static void step(struct place *place, unsigned *chance)
{
    struct range range = a_range(chance);
    int deed = rand_r(chance) % (STEPS + COLLAPSES * collapse + AREAS * areas);
    if (deed >= STEPS && !collapse)
        deed += COLLAPSES;
    if (!place->page) {
        make(place, chance);
    } else if (deed < 4) {
        place->is_whole = 0;
        madvise(place->page + range.first, range.length, MADV_DONTNEED);
    } else if (deed == 4) {
        madvise(place->page, size / 2, MADV_DONTDUMP);
        madvise(place->page, size / 2, MADV_DODUMP);
    } else if (deed < 7) {
        drop(place);
    } else if (deed == 7) {
        pin(place, range);
    } else if (deed == 8) {
        unpin(place);
    } else if (deed == 9 && threads == 1 && rand_r(chance) % 4 == 0) {
        in_a_child(place, range);
    } else if (deed < STEPS) {
        usleep(rand_r(chance) % 2000);
    } else if (deed < STEPS + COLLAPSES) {
        madvise(place->page, size, MADV_COLLAPSE);
    } else if (deed == STEPS + COLLAPSES) {
        place->is_whole = 0;
        new_area(place->page + range.first, range.length);
    } else {
        move(place, chance);
    }
}

static void *work(void *number)
{
    unsigned chance = seed * 1000 + (unsigned)(size_t)number;
    struct place places[PLACES] = { 0 };
    for (int i = 0; i < steps; i++)
        step(&places[rand_r(&chance) % PLACES], &chance);
    return NULL;
}

int main(int count, char **words)
{
    pthread_t all[MOST_THREADS];
    if (count < 5 || atoi(words[1]) < 1 || atoi(words[1]) > MOST_THREADS)
        return 2;
    threads = atoi(words[1]);
    steps = atoi(words[2]);
    seed = atoi(words[3]);
    order = atoi(words[4]);
    size = (size_t)BASE << order;
    for (int i = 5; i < count; i++) {
        zeros |= !strcmp(words[i], "zeros");
        collapse |= !strcmp(words[i], "collapse");
        areas |= !strcmp(words[i], "areas");
    }
    for (size_t i = 1; i < (size_t)threads; i++)
        if (pthread_create(&all[i], NULL, work, (void *)i))
            return 1;
    work(NULL);
    for (int i = 1; i < threads; i++)
        pthread_join(all[i], NULL);
    return 0;
}
