/* What a call costs from C: for each round of calls the processor time of one, in nanoseconds, the best of some tries.
 * src/main.rs makes the same rounds of a node in plain Rust, and crates/bench_nodes all of them inside the library. Each try
 * is on nodes that live for a few rounds, so that no try waits for fresh memory; the last line alone is of one node whose
 * journal grows. */
#define _POSIX_C_SOURCE 200809L
#include <stdio.h>
#include <stdlib.h>
#include <time.h>

#include "thp.h"

enum { ROUNDS = 250, SHARED_ROUNDS = 2500, LONG = 300000 }; /* of one node; of one cell, whose journal grows */
enum { BATCH = 8, EVENTS = 3 * BATCH }; /* of a round */

/* its arguments: how many tries, and how many nodes each of them makes; with one node nothing is timed that grows */
static int tries = 15, nodes = 400;

static thp_node node;
static thp_pass pass;
static uint64_t page;
static uint64_t reported; /* of the answers, so that none is left out */

static void want(thp_code code) {
    if (code != THP_OK) {
        fprintf(stderr, "calls: %s\n", thp_strerror(code));
        exit(1);
    }
}

static double now(void) {
    struct timespec time;
    clock_gettime(CLOCK_THREAD_CPUTIME_ID, &time);
    return (double)time.tv_sec * 1e9 + (double)time.tv_nsec;
}

static void make(uint32_t events) {
    want(thp_node_create(&node, 16, 9, THP_UNDERUSED_OFF));
    if (events > 0) want(thp_node_reserve(&node, events));
    want(thp_node_alloc(&node, 0, &page));
}

static void make_node(void) { make(ROUNDS * EVENTS + 1); }

/* a node whose queue is a batch of pages that are pinned */
static void make_queue(void) {
    uint64_t born;
    thp_done done;
    want(thp_node_create(&node, 16, 9, THP_UNDERUSED_OFF));
    want(thp_node_reserve(&node, ROUNDS * EVENTS + 4 * BATCH));
    for (int k = 0; k < BATCH; k++) {
        want(thp_node_alloc(&node, 0, &born));
        want(thp_node_split_pmd(&node, 0, born));
        want(thp_node_unmap_sub(&node, 0, born, 0, 1, &done));
        want(thp_node_pin(&node, 0, born));
    }
}

static void drop_node(void) { want(thp_node_destroy(&node)); }

static void make_pass(void) {
    want(thp_cell_create(&pass, 16, 9, THP_UNDERUSED_OFF, 1));
    want(thp_pass_alloc(&pass, 0, &page));
}

static void make_shared_queue(void) {
    uint64_t born;
    thp_done done;
    want(thp_cell_create(&pass, 16, 9, THP_UNDERUSED_OFF, 1));
    for (int k = 0; k < BATCH; k++) {
        want(thp_pass_alloc(&pass, 0, &born));
        want(thp_pass_split_pmd(&pass, 0, born));
        want(thp_pass_unmap_sub(&pass, 0, born, 0, 1, &done));
        want(thp_pass_pin(&pass, 0, born));
    }
}

static void drop_pass(void) { want(thp_pass_destroy(&pass)); }

static void count(void) {
    uint32_t pages;
    want(thp_node_queue_length(&node, &pages));
    reported += pages;
}

static void refused(void) { reported += thp_node_pin(&node, 0, 7) == THP_NO_PAGE; }

static void pin_unpin(void) {
    thp_done done;
    want(thp_node_pin(&node, 0, page));
    want(thp_node_unpin(&node, 0, page, &done));
    reported += done.released[0];
}

static void map_unmap(uint32_t first, uint32_t subpages) {
    thp_done done;
    want(thp_node_map_sub(&node, 0, page, first, subpages));
    want(thp_node_unmap_sub(&node, 0, page, first, subpages, &done));
    reported += done.released[0];
}

static void one_subpage(void) { map_unmap(17, 1); }
static void some_subpages(void) { map_unmap(17, 64); }
static void all_subpages(void) { map_unmap(0, 512); }

static void live(void) {
    uint64_t born;
    thp_done done;
    thp_scan scan;
    want(thp_node_alloc(&node, 0, &born));
    want(thp_node_split_pmd(&node, 0, born));
    want(thp_node_unmap_sub(&node, 0, born, 0, 256, &done));
    want(thp_node_scan(&node, 0, 1, &scan));
    want(thp_node_unmap_sub(&node, 0, born, 256, 256, &done));
    reported += scan.split + done.released[7];
}

static void try_batch(void) {
    uint32_t count;
    thp_tried tried;
    thp_back back;
    want(thp_node_take(&node, 0, BATCH, &count));
    for (int k = 0; k < BATCH; k++) want(thp_node_split_next(&node, 0, &tried));
    want(thp_node_put_back(&node, 0, &back));
    reported += count + tried.page + back.back;
}

/* the same on a shared node */

static void shared_count(void) {
    uint32_t pages;
    want(thp_pass_count(&pass, &pages));
    reported += pages;
}

static void shared_refused(void) { reported += thp_pass_pin(&pass, 0, 7) == THP_NO_PAGE; }

static void shared_pin_unpin(void) {
    thp_done done;
    want(thp_pass_pin(&pass, 0, page));
    want(thp_pass_unpin(&pass, 0, page, &done));
    reported += done.released[0];
}

static void shared_subpage(void) {
    thp_done done;
    want(thp_pass_map_sub(&pass, 0, page, 17, 1));
    want(thp_pass_unmap_sub(&pass, 0, page, 17, 1, &done));
    reported += done.released[0];
}

static void shared_batch(void) {
    uint32_t count;
    thp_tried tried;
    thp_back back;
    want(thp_pass_take(&pass, 0, BATCH, &count));
    for (int k = 0; k < BATCH; k++) want(thp_pass_split_next(&pass, 0, &tried));
    want(thp_pass_put_back(&pass, 0, &back));
    reported += count + tried.page + back.back;
}

/* a kind of round: what it is, the calls of one, how many are made of a node or a cell, and what makes all of it */
static const struct rounds {
    const char *what;
    int calls, count;
    void (*begin)(void), (*round)(void), (*end)(void);
} KINDS[] = {
    {"queue_length", 1, ROUNDS, make_node, count, drop_node},
    {"pin, refused: no such page", 1, ROUNDS, make_node, refused, drop_node},
    {"pin and unpin", 2, ROUNDS, make_node, pin_unpin, drop_node},
    {"map_sub and unmap_sub, 1 subpage", 2, ROUNDS, make_node, one_subpage, drop_node},
    {"map_sub and unmap_sub, 64", 2, ROUNDS, make_node, some_subpages, drop_node},
    {"map_sub and unmap_sub, 512", 2, ROUNDS, make_node, all_subpages, drop_node},
    {"alloc, split_pmd, unmap_sub 256, scan, unmap_sub 256", 5, ROUNDS, make_node, live, drop_node},
    {"take, 8 split_next, put_back", BATCH + 2, ROUNDS, make_queue, try_batch, drop_node},
    {"a pass: count", 1, SHARED_ROUNDS, make_pass, shared_count, drop_pass},
    {"a pass: pin, refused", 1, SHARED_ROUNDS, make_pass, shared_refused, drop_pass},
    {"a pass: pin and unpin", 2, SHARED_ROUNDS, make_pass, shared_pin_unpin, drop_pass},
    {"a pass: map_sub and unmap_sub, 1 subpage", 2, SHARED_ROUNDS, make_pass, shared_subpage, drop_pass},
    {"a pass: take, 8 split_next, put_back", BATCH + 2, SHARED_ROUNDS, make_shared_queue, shared_batch, drop_pass},
};

static void time_rounds(const struct rounds *of) {
    double best = 1e18;
    for (int try = 0; try < tries; try++) {
        double spent = 0;
        for (int k = 0; k < nodes; k++) {
            of->begin();
            const double start = now();
            for (int k2 = 0; k2 < of->count; k2++) of->round();
            spent += now() - start;
            of->end();
        }
        if (spent < best) best = spent;
    }
    printf("%s|%.1f\n", of->what, best / ((double)nodes * of->count * of->calls));
}

static void time_growing(const char *what) {
    double best = 1e18;
    for (int try = 0; try < tries; try++) {
        make(0);
        const double start = now();
        for (int k = 0; k < LONG; k++) pin_unpin();
        const double spent = now() - start;
        want(thp_node_destroy(&node));
        if (spent < best) best = spent;
    }
    printf("%s|%.1f\n", what, best / (2.0 * LONG));
}

int main(int count_of_words, char **words) {
    if (count_of_words > 1) tries = atoi(words[1]);
    if (count_of_words > 2) nodes = atoi(words[2]);
    for (size_t k = 0; k < sizeof KINDS / sizeof KINDS[0]; k++) time_rounds(&KINDS[k]);
    if (nodes > 1) time_growing("pin and unpin, 600,000 calls on one growing journal");
    fprintf(stderr, "answers: %llu\n", (unsigned long long)reported);
    return 0;
}
