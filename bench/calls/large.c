/* What a call takes on a node with many live pages: instructions by callgrind, and nanoseconds of processor time. All pages are in
 * the queue and have a pin, and each round is of another page. Then a whole life of as many pages, with the memory that one takes.
 * src/bin/large.rs makes the same rounds on a node in plain Rust. */
#define _POSIX_C_SOURCE 200809L
#include <stdio.h>
#include <stdlib.h>
#include <string.h>
#include <time.h>

#include "thp.h"

enum { ROUNDS = 4000, BATCH = 8, STRIDE = 7919 }; /* the stride is a prime, so that the rounds are of different pages */

static thp_node node;
static uint32_t pages;     /* live at once */
static uint64_t page;      /* of the round */
static uint64_t reported;  /* of the answers, so that none is left out */

static void want(thp_code code) {
    if (code != THP_OK) {
        fprintf(stderr, "large: %s\n", thp_strerror(code));
        exit(1);
    }
}

static double now(void) {
    struct timespec time;
    clock_gettime(CLOCK_THREAD_CPUTIME_ID, &time);
    return (double)time.tv_sec * 1e9 + (double)time.tv_nsec;
}

/* the resident memory of this process, in bytes */
static double resident(void) {
    unsigned long size = 0, held = 0;
    FILE *file = fopen("/proc/self/statm", "r");
    if (file == NULL || fscanf(file, "%lu %lu", &size, &held) != 2) exit(1);
    fclose(file);
    return 4096.0 * (double)held;
}

static void queued_page(void) {
    uint64_t born;
    thp_done done;
    want(thp_node_alloc(&node, 0, &born));
    want(thp_node_split_pmd(&node, 0, born));
    want(thp_node_unmap_sub(&node, 0, born, 0, 1, &done));
    want(thp_node_pin(&node, 0, born));
}

static void count(void) {
    uint32_t length;
    want(thp_node_queue_length(&node, &length));
    reported += length;
}

static void refused(void) { reported += thp_node_pin(&node, 0, UINT64_MAX - page) == THP_NO_PAGE; }

static void pin_unpin(void) {
    thp_done done;
    want(thp_node_pin(&node, 0, page));
    want(thp_node_unpin(&node, 0, page, &done));
    reported += done.released[0];
}

static void one_subpage(void) {
    thp_done done;
    want(thp_node_map_sub(&node, 0, page, 17, 1));
    want(thp_node_unmap_sub(&node, 0, page, 17, 1, &done));
    reported += done.released[0];
}

static void live(void) {
    uint64_t born;
    thp_done done;
    want(thp_node_alloc(&node, 0, &born));
    want(thp_node_split_pmd(&node, 0, born));
    want(thp_node_unmap_sub(&node, 0, born, 0, 256, &done));
    want(thp_node_unmap_sub(&node, 0, born, 256, 256, &done));
    reported += done.released[7];
}

static void try_batch(void) {
    uint32_t taken;
    thp_tried tried;
    thp_back back;
    want(thp_node_take(&node, 0, BATCH, &taken));
    for (int k = 0; k < BATCH; k++) want(thp_node_split_next(&node, 0, &tried));
    want(thp_node_put_back(&node, 0, &back));
    reported += taken + tried.page + back.back;
}

/* a kind of round: what it is, and the calls of one */
static const struct rounds {
    const char *what;
    int calls;
    void (*round)(void);
} KINDS[] = {
    {"queue_length", 1, count},
    {"pin, refused: no such page", 1, refused},
    {"pin and unpin", 2, pin_unpin},
    {"map_sub and unmap_sub, 1 subpage", 2, one_subpage},
    {"alloc, split_pmd, unmap_sub 256, unmap_sub 256", 4, live},
    {"take, 8 split_next, put_back", BATCH + 2, try_batch},
};

static void rounds(void) {
    want(thp_node_create_counting(&node, pages + 1, 9, THP_UNDERUSED_OFF));
    for (uint32_t k = 0; k < pages; k++) queued_page();
    for (size_t kind = 0; kind < sizeof KINDS / sizeof KINDS[0]; kind++) {
        const double start = now();
        for (uint64_t k = 0; k < ROUNDS; k++) {
            page = k * STRIDE % pages;
            KINDS[kind].round();
        }
        printf("%s|%.1f\n", KINDS[kind].what, (now() - start) / (ROUNDS * KINDS[kind].calls));
    }
    want(thp_node_destroy(&node));
}

/* each page is allocated, its upper half unmapped, split by a scan, and its lower half unmapped */
static void whole_life(void) {
    thp_done done;
    thp_scan scan;
    uint64_t first = 0, born;
    const double start = now(), before = resident();
    want(thp_node_create_counting(&node, pages, 9, THP_UNDERUSED_OFF));
    printf("create|%.1f\n", now() - start);
    for (uint32_t k = 0; k < pages; k++) want(thp_node_alloc(&node, 0, k == 0 ? &first : &born));
    for (uint64_t p = first; p < first + pages; p++) want(thp_node_split_pmd(&node, 0, p));
    for (uint64_t p = first; p < first + pages; p++) want(thp_node_unmap_sub(&node, 0, p, 256, 256, &done));
    const double held = resident() - before;
    do {
        want(thp_node_scan(&node, 0, THP_MAX_BATCH, &scan));
        reported += scan.split;
    } while (scan.taken > 0);
    for (uint64_t p = first; p < first + pages; p++) want(thp_node_unmap_sub(&node, 0, p, 0, 256, &done));
    printf("a page's life|%.1f\nresident bytes a page|%.1f\n", (now() - start) / pages, held / pages);
    want(thp_node_destroy(&node));
}

/* its arguments: how many pages are live, and `rounds` or `life` */
int main(int count_of_words, char **words) {
    if (count_of_words != 3) return 2;
    pages = (uint32_t)strtoul(words[1], NULL, 10);
    if (strcmp(words[2], "rounds") == 0) rounds();
    else whole_life();
    fprintf(stderr, "answers: %llu\n", (unsigned long long)reported);
    return 0;
}
