/* The first run: one page, half of it unmapped, split by the shrinker; what the README's first script does. */
#include <stdio.h>
#include <stdlib.h>

#include "thp.h"

static void want(thp_code code) {
    if (code != THP_OK) {
        fprintf(stderr, "first: %s\n", thp_strerror(code));
        exit(1);
    }
}

int main(void) {
    thp_node node = THP_NODE_INIT;
    uint64_t page;
    thp_done done;
    thp_scan scan;
    thp_stats stats;

    want(thp_node_create(&node, 16, 9, THP_UNDERUSED_OFF));
    want(thp_node_alloc(&node, 0, &page));
    want(thp_node_split_pmd(&node, 0, page));
    want(thp_node_unmap_sub(&node, 0, page, 0, 256, &done));
    printf("page %llu is %s\n", (unsigned long long)page, done.outcome == THP_QUEUED ? "queued" : "not queued");
    want(thp_node_scan(&node, 0, 8, &scan));
    printf("taken %u, split %u\n", (unsigned)scan.taken, (unsigned)scan.split);
    want(thp_node_stats(&node, &stats));
    printf("frames: %llu given back, %llu held\n", (unsigned long long)stats.frames_given, (unsigned long long)stats.frames_held);
    want(thp_node_destroy(&node));
    return 0;
}
