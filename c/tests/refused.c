/* Memory refused at each request in turn: the call reports it, nothing is lost, nothing is kept. And what nodes and events take. */
#include "wanted.h"

static size_t requests, resizes, refused_request, requested;
static long blocks;
static int refusals;

static int is_refused(void) { return ++requests == refused_request; }

static void *allocate(size_t size) {
    void *memory = is_refused() ? NULL : malloc(size);
    requested += size;
    if (memory != NULL) blocks++;
    return memory;
}

static void *resize(void *memory, size_t size) {
    resizes++;
    return is_refused() ? NULL : realloc(memory, size);
}

static void give_back(void *memory) {
    free(memory);
    blocks--;
}

static thp_stats numbers_of(thp_node *node) {
    thp_stats stats;
    memset(&stats, 0, sizeof stats);
    if (node->at != NULL) ANSWERS(thp_node_stats(node, &stats), THP_OK);
    return stats;
}

/* a call that is refused for want of memory leaves the node as it was, and is done when it is made again */
#define DONE(node, call) \
    do { \
        thp_stats before_ = numbers_of(node); \
        thp_code code_ = (call); \
        if (code_ == THP_OUT_OF_MEMORY) { \
            thp_stats behind_ = numbers_of(node); \
            WANT(memcmp(&before_, &behind_, sizeof before_) == 0); \
            refusals++; \
            code_ = (call); \
        } \
        if (code_ != THP_OK) { \
            fprintf(stderr, "%s:%d: %s: %s\n", __FILE__, __LINE__, #call, thp_strerror(code_)); \
            failures++; \
        } \
    } while (0)

enum { PAGES = 24, LONGEST = 8192 };

/* every call that records something, and the check of what was recorded; the journal, and its length */
static size_t whole_life(uint8_t *text) {
    thp_node node = THP_NODE_INIT;
    uint64_t pages[PAGES];
    uint32_t count, line;
    thp_done done;
    thp_scan scan;
    thp_tried tried;
    thp_back back;
    size_t size = 0;
    DONE(&node, thp_node_create(&node, PAGES, 2, 2));
    for (int k = 0; k < PAGES; k++) {
        DONE(&node, thp_node_alloc(&node, 0, &pages[k]));
        DONE(&node, thp_node_map_whole(&node, 0, pages[k]));
        DONE(&node, thp_node_split_pmd(&node, 1, pages[k]));
        DONE(&node, thp_node_map_sub(&node, 1, pages[k], 0, 2));
        DONE(&node, thp_node_write(&node, 2, pages[k], 0, 4));
        DONE(&node, thp_node_zero(&node, 2, pages[k], 1, 1));
        DONE(&node, thp_node_pin(&node, 3, pages[k]));
        DONE(&node, thp_node_unmap_whole(&node, 0, pages[k], &done));
        if (k % 2 == 0) DONE(&node, thp_node_unpin(&node, 3, pages[k], &done));
        DONE(&node, thp_node_unmap_sub(&node, 1, pages[k], 0, 2, &done));
    }
    DONE(&node, thp_node_take(&node, 4, 12, &count));
    WANT(count == 12);
    do {
        DONE(&node, thp_node_split_next(&node, 4, &tried));
    } while (tried.kind != THP_TRY_DONE);
    DONE(&node, thp_node_put_back(&node, 4, &back));
    DONE(&node, thp_node_scan(&node, 5, 128, &scan));
    DONE(&node, thp_node_reserve(&node, 1000));
    DONE(&node, thp_node_close(&node, 0));
    DONE(&node, thp_node_journal(&node, text, LONGEST, &size));
    DONE(&node, thp_check_text(text, size, &line));
    ANSWERS(thp_node_destroy(&node), THP_OK);
    WANT(blocks == 0);
    return size;
}

/* with room reserved, calls that record no more than that are never refused */
static void reserved(void) {
    thp_node node = THP_NODE_INIT;
    uint64_t page;
    refused_request = 0;
    ANSWERS(thp_node_create(&node, 1, 9, THP_UNDERUSED_OFF), THP_OK);
    ANSWERS(thp_node_reserve(&node, 100), THP_OK);
    refused_request = requests + 1;
    ANSWERS(thp_node_alloc(&node, 0, &page), THP_OK);
    for (int k = 1; k < 100; k++) ANSWERS(thp_node_pin(&node, 0, page), THP_OK);
    WANT(requests + 1 == refused_request);
    ANSWERS(thp_node_destroy(&node), THP_OK);
    WANT(blocks == 0);
}

/* a node that only counts its events takes no memory after its create, whatever is called, and a cell none after its division */
static void counting(void) {
    thp_node node = THP_NODE_INIT;
    thp_pass one = THP_PASS_INIT, two = THP_PASS_INIT;
    thp_stats stats;
    thp_done done;
    uint64_t page;
    size_t before;
    refused_request = 0;
    ANSWERS(thp_node_create_counting(&node, 1, 9, THP_UNDERUSED_OFF), THP_OK);
    before = requests;
    ANSWERS(thp_node_alloc(&node, 0, &page), THP_OK);
    for (int k = 0; k < 1000000; k++) {
        if (thp_node_pin(&node, 0, page) != THP_OK || thp_node_unpin(&node, 0, page, &done) != THP_OK) failures++;
    }
    ANSWERS(thp_node_stats(&node, &stats), THP_OK);
    WANT(stats.events == 2000001 && requests == before);
    ANSWERS(thp_node_reserve(&node, UINT32_MAX), THP_OK);
    ANSWERS(thp_node_destroy(&node), THP_OK);
    ANSWERS(thp_cell_create_counting(&one, 1, 9, THP_UNDERUSED_OFF, 2), THP_OK);
    ANSWERS(thp_pass_split(&one, 1, &two), THP_OK);
    before = requests;
    ANSWERS(thp_pass_alloc(&two, 1, &page), THP_OK);
    for (int k = 0; k < 1000000; k++) {
        if (thp_pass_pin(&one, 0, page) != THP_OK || thp_pass_unpin(&two, 1, page, &done) != THP_OK) failures++;
    }
    WANT(requests == before);
    ANSWERS(thp_pass_join(&one, &two), THP_OK);
    ANSWERS(thp_cell_finish(&one, &node), THP_OK);
    ANSWERS(thp_node_stats(&node, &stats), THP_OK);
    WANT(stats.events == 2000001);
    ANSWERS(thp_node_destroy(&node), THP_OK);
    WANT(blocks == 0);
}

/* the memory that creates a node of so many blocks, and then that of so many events */
static size_t memory_of(uint32_t count_of_blocks, uint32_t events, size_t *of_events) {
    thp_node node = THP_NODE_INIT;
    refused_request = 0;
    requested = 0;
    ANSWERS(thp_node_create(&node, count_of_blocks, 9, THP_UNDERUSED_OFF), THP_OK);
    const size_t of_node = requested;
    ANSWERS(thp_node_reserve(&node, events), THP_OK);
    *of_events = requested - of_node;
    ANSWERS(thp_node_destroy(&node), THP_OK);
    return of_node;
}

/* the header's figures: about 100 KB for a node, 1.2 KB for a block, 96 bytes for an event */
static void figures(void) {
    size_t of_events, of_none;
    const size_t least = memory_of(1, 100000, &of_events);
    const size_t most = memory_of(4096, 0, &of_none);
    const size_t block = (most - least) / 4095;
    WANT(least > 95000 && least < 110000);
    WANT(block > 1150 && block < 1250);
    WANT(of_events == 96 * 100000 && of_none == 0);
}

/* the memory that creates a cell of so many callers, and then that of a pass of the upper half of them */
static size_t memory_of_cell(uint32_t callers, size_t *of_half) {
    thp_pass pass = THP_PASS_INIT, half = THP_PASS_INIT;
    requested = 0;
    ANSWERS(thp_cell_create(&pass, 1, 9, THP_UNDERUSED_OFF, callers), THP_OK);
    const size_t of_cell = requested;
    ANSWERS(thp_pass_split(&pass, callers / 2, &half), THP_OK);
    *of_half = requested - of_cell;
    ANSWERS(thp_pass_destroy(&half), THP_OK);
    ANSWERS(thp_pass_destroy(&pass), THP_OK);
    return of_cell;
}

/* about 1 KB for a caller of a cell, and for a caller of the upper pass as much again while its batch moves */
static void figures_of_cells(void) {
    size_t of_one, of_half;
    const size_t of_two = memory_of_cell(2, &of_one);
    const size_t caller = (memory_of_cell(64, &of_half) - of_two) / 62;
    WANT(caller > 1000 && caller < 1100);
    WANT(of_half - of_one > 31 * 2000 && of_half - of_one < 31 * 2200);
}

int main(void) {
    static const thp_allocator counted = {allocate, resize, give_back};
    static const thp_allocator cut = {allocate, NULL, give_back};
    static uint8_t wanted[LONGEST], text[LONGEST];
    ANSWERS(thp_use_allocator(&cut), THP_NULL);
    ANSWERS(thp_use_allocator(&counted), THP_OK);
    const size_t length = whole_life(wanted);
    const size_t all = requests;
    WANT(refusals == 0 && all > 10 && resizes > 0);
    for (size_t k = 1; k <= all; k++) {
        requests = 0;
        refused_request = k;
        refusals = 0;
        const size_t size = whole_life(text);
        WANT(refusals == 1);
        WANT(size == length && memcmp(text, wanted, length) == 0);
    }
    reserved();
    figures();
    figures_of_cells();
    counting();
    if (failures == 0) printf("refused: done, each of %lu requests\n", (unsigned long)all);
    return failures != 0;
}
