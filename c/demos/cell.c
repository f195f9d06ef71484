/* Four threads on one node, with no lock of the program's: each has a pass of its own, and makes a call again that found the node in
 * another's call. Then the passes are joined, and the node comes out with the one history of all that the threads did. */
#include <pthread.h>
#include <sched.h>
#include <stdio.h>
#include <stdlib.h>

#include "thp.h"

enum { THREADS = 4, ROUNDS = 500 };

/* what a thread is given: its pass, its caller, and how often it found the node taken */
typedef struct worker {
    thp_pass pass;
    uint32_t caller;
    unsigned long busy;
} worker;

static void want(thp_code code) {
    if (code != THP_OK) {
        fprintf(stderr, "cell: %s\n", thp_strerror(code));
        exit(1);
    }
}

/* whether a call is to be made again; anything but done and busy ends the demo */
static int again(worker *own, thp_code code) {
    if (code != THP_BUSY) {
        want(code);
        return 0;
    }
    own->busy++;
    sched_yield();
    return 1;
}

static void *live(void *given) {
    worker *own = (worker *)given;
    uint64_t page;
    thp_done done;
    thp_scan scan;
    for (int round = 0; round < ROUNDS; round++) {
        while (again(own, thp_pass_alloc(&own->pass, own->caller, &page))) {}
        while (again(own, thp_pass_split_pmd(&own->pass, own->caller, page))) {}
        while (again(own, thp_pass_unmap_sub(&own->pass, own->caller, page, 0, 256, &done))) {}
        while (again(own, thp_pass_scan(&own->pass, own->caller, 8, &scan))) {}
        while (again(own, thp_pass_unmap_sub(&own->pass, own->caller, page, 256, 256, &done))) {}
    }
    return NULL;
}

int main(void) {
    pthread_t threads[THREADS];
    worker workers[THREADS];
    thp_node node = THP_NODE_INIT;
    thp_stats stats;
    size_t size;
    uint32_t line;
    for (uint32_t k = 0; k < THREADS; k++) {
        const worker fresh = {THP_PASS_INIT, k, 0};
        workers[k] = fresh;
    }
    want(thp_cell_create(&workers[0].pass, 16, 9, THP_UNDERUSED_OFF, THREADS));
    for (uint32_t k = THREADS - 1; k > 0; k--) want(thp_pass_split(&workers[0].pass, k, &workers[k].pass));
    for (uint32_t k = 0; k < THREADS; k++) {
        if (pthread_create(&threads[k], NULL, live, &workers[k]) != 0) exit(1);
    }
    for (uint32_t k = 0; k < THREADS; k++) {
        if (pthread_join(threads[k], NULL) != 0) exit(1);
    }
    for (uint32_t k = 1; k < THREADS; k++) want(thp_pass_join(&workers[0].pass, &workers[k].pass));
    want(thp_cell_finish(&workers[0].pass, &node));
    want(thp_node_stats(&node, &stats));
    if (thp_node_journal(&node, NULL, 0, &size) != THP_TOO_SMALL) exit(1);
    uint8_t *text = (uint8_t *)malloc(size);
    if (text == NULL) exit(1);
    want(thp_node_journal(&node, text, size, &size));
    want(thp_check_text(text, size, &line));
    free(text);
    want(thp_node_destroy(&node));
    printf("%lu pages by %d threads, %lu frames given back: legal\n", (unsigned long)stats.allocations, THREADS, (unsigned long)stats.frames_given);
    return 0;
}
