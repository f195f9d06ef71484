/* Four threads: each with a node of its own, whose handle goes to the thread and back; and then on one node, behind a lock. */
#include <pthread.h>
#include <stdio.h>
#include <stdlib.h>

#include "thp.h"

enum { THREADS = 4, ROUNDS = 500 };

static thp_node shared = THP_NODE_INIT;
static pthread_mutex_t lock = PTHREAD_MUTEX_INITIALIZER;

static void want(thp_code code) {
    if (code != THP_OK) {
        fprintf(stderr, "threads: %s\n", thp_strerror(code));
        exit(1);
    }
}

/* a page's life: half unmapped, split by whoever scans, and then gone */
static void live(thp_node *node, uint32_t caller) {
    uint64_t page;
    thp_done done;
    thp_scan scan;
    want(thp_node_alloc(node, caller, &page));
    want(thp_node_split_pmd(node, caller, page));
    want(thp_node_unmap_sub(node, caller, page, 0, 256, &done));
    want(thp_node_scan(node, caller, 8, &scan));
    want(thp_node_unmap_sub(node, caller, page, 256, 256, &done));
}

static void *on_its_own(void *node) {
    for (int round = 0; round < ROUNDS; round++) live((thp_node *)node, 0);
    return NULL;
}

static void *after_the_lock(void *caller) {
    for (int round = 0; round < ROUNDS; round++) {
        if (pthread_mutex_lock(&lock) != 0) exit(1);
        live(&shared, *(const uint32_t *)caller);
        if (pthread_mutex_unlock(&lock) != 0) exit(1);
    }
    return NULL;
}

static void start(pthread_t *thread, void *(*work)(void *), void *with) {
    if (pthread_create(thread, NULL, work, with) != 0) exit(1);
}

static void end(pthread_t thread) {
    if (pthread_join(thread, NULL) != 0) exit(1);
}

/* what happened is legal, and the node is given back */
static void check(thp_node *node) {
    thp_stats stats;
    size_t size;
    uint32_t line;
    want(thp_node_stats(node, &stats));
    if (thp_node_journal(node, NULL, 0, &size) != THP_TOO_SMALL) exit(1);
    uint8_t *text = (uint8_t *)malloc(size);
    if (text == NULL) exit(1);
    want(thp_node_journal(node, text, size, &size));
    want(thp_check_text(text, size, &line));
    free(text);
    want(thp_node_destroy(node));
    printf("%llu events, %llu frames given back, legal\n", (unsigned long long)stats.events, (unsigned long long)stats.frames_given);
}

int main(void) {
    pthread_t threads[THREADS];
    thp_node nodes[THREADS] = {THP_NODE_INIT};
    uint32_t callers[THREADS];
    for (uint32_t k = 0; k < THREADS; k++) {
        want(thp_node_create(&nodes[k], 4, 9, THP_UNDERUSED_OFF));
        start(&threads[k], on_its_own, &nodes[k]);
    }
    for (int k = 0; k < THREADS; k++) end(threads[k]);
    for (int k = 0; k < THREADS; k++) check(&nodes[k]);
    want(thp_node_create(&shared, 64, 9, THP_UNDERUSED_OFF));
    for (uint32_t k = 0; k < THREADS; k++) {
        callers[k] = k;
        start(&threads[k], after_the_lock, &callers[k]);
    }
    for (int k = 0; k < THREADS; k++) end(threads[k]);
    check(&shared);
    return 0;
}
