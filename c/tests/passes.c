/* Each call of a shared node, and each code that it answers; memory refused at each request in turn. */
#include "wanted.h"

static const thp_pass NO_PASS = THP_PASS_INIT;
static const thp_node NO_NODE = THP_NODE_INIT;

static size_t requests, refused_request;
static long blocks;

static int is_refused(void) { return ++requests == refused_request; }

static void *allocate(size_t size) {
    void *memory = is_refused() ? NULL : malloc(size);
    if (memory != NULL) blocks++;
    return memory;
}

static void *resize(void *memory, size_t size) { return is_refused() ? NULL : realloc(memory, size); }

static void give_back(void *memory) {
    free(memory);
    blocks--;
}

/* a cell whose pages have four subpages */
static thp_pass small_cell(uint32_t pages, uint32_t callers) {
    thp_pass pass = NO_PASS;
    ANSWERS(thp_cell_create(&pass, pages, 2, THP_UNDERUSED_OFF, callers), THP_OK);
    return pass;
}

static void nulls(void) {
    thp_pass pass = small_cell(1, 2);
    uint64_t page;
    uint32_t number;
    ANSWERS(thp_cell_create(NULL, 1, 2, 2, 1), THP_NULL);
    ANSWERS(thp_cell_finish(NULL, NULL), THP_NULL);
    ANSWERS(thp_cell_finish(&pass, NULL), THP_NULL);
    ANSWERS(thp_pass_destroy(NULL), THP_NULL);
    ANSWERS(thp_pass_split(NULL, 1, &pass), THP_NULL);
    ANSWERS(thp_pass_split(&pass, 1, NULL), THP_NULL);
    ANSWERS(thp_pass_join(NULL, &pass), THP_NULL);
    ANSWERS(thp_pass_join(&pass, NULL), THP_NULL);
    ANSWERS(thp_pass_alloc(NULL, 0, &page), THP_NULL);
    ANSWERS(thp_pass_alloc(&pass, 0, NULL), THP_NULL);
    ANSWERS(thp_pass_split_pmd(NULL, 0, 0), THP_NULL);
    ANSWERS(thp_pass_unmap_sub(&pass, 0, 0, 0, 1, NULL), THP_NULL);
    ANSWERS(thp_pass_map_whole(NULL, 0, 0), THP_NULL);
    ANSWERS(thp_pass_unmap_whole(&pass, 0, 0, NULL), THP_NULL);
    ANSWERS(thp_pass_map_sub(NULL, 0, 0, 0, 1), THP_NULL);
    ANSWERS(thp_pass_pin(NULL, 0, 0), THP_NULL);
    ANSWERS(thp_pass_unpin(&pass, 0, 0, NULL), THP_NULL);
    ANSWERS(thp_pass_write(NULL, 0, 0, 0, 1), THP_NULL);
    ANSWERS(thp_pass_zero(NULL, 0, 0, 0, 1), THP_NULL);
    ANSWERS(thp_pass_close(NULL, 0), THP_NULL);
    ANSWERS(thp_pass_scan(&pass, 0, 1, NULL), THP_NULL);
    ANSWERS(thp_pass_take(&pass, 0, 1, NULL), THP_NULL);
    ANSWERS(thp_pass_split_next(&pass, 0, NULL), THP_NULL);
    ANSWERS(thp_pass_put_back(&pass, 0, NULL), THP_NULL);
    ANSWERS(thp_pass_abandon(NULL, 0), THP_NULL);
    ANSWERS(thp_pass_count(&pass, NULL), THP_NULL);
    ANSWERS(thp_pass_callers(NULL, &number, &number), THP_NULL);
    ANSWERS(thp_pass_callers(&pass, NULL, &number), THP_NULL);
    ANSWERS(thp_pass_callers(&pass, &number, NULL), THP_NULL);
    ANSWERS(thp_pass_destroy(&pass), THP_OK);
}

static void empty_handles(void) {
    thp_pass pass = NO_PASS, other = NO_PASS;
    thp_node node = NO_NODE;
    uint64_t page = 7;
    uint32_t pages = 7;
    thp_done done = {7, {7, 7, 7, 7, 7, 7, 7, 7}};
    thp_scan scan = {7, 7, 7, 7, 7, 7};
    thp_tried tried = {7, 7};
    thp_back back = {7, 7};
    ANSWERS(thp_cell_finish(&pass, &node), THP_EMPTY);
    ANSWERS(thp_pass_destroy(&pass), THP_EMPTY);
    ANSWERS(thp_pass_split(&pass, 1, &other), THP_EMPTY);
    ANSWERS(thp_pass_join(&pass, &other), THP_EMPTY);
    ANSWERS(thp_pass_alloc(&pass, 0, &page), THP_EMPTY);
    ANSWERS(thp_pass_split_pmd(&pass, 0, 0), THP_EMPTY);
    ANSWERS(thp_pass_unmap_sub(&pass, 0, 0, 0, 1, &done), THP_EMPTY);
    ANSWERS(thp_pass_map_whole(&pass, 0, 0), THP_EMPTY);
    ANSWERS(thp_pass_unmap_whole(&pass, 0, 0, &done), THP_EMPTY);
    ANSWERS(thp_pass_map_sub(&pass, 0, 0, 0, 1), THP_EMPTY);
    ANSWERS(thp_pass_pin(&pass, 0, 0), THP_EMPTY);
    ANSWERS(thp_pass_unpin(&pass, 0, 0, &done), THP_EMPTY);
    ANSWERS(thp_pass_write(&pass, 0, 0, 0, 1), THP_EMPTY);
    ANSWERS(thp_pass_zero(&pass, 0, 0, 0, 1), THP_EMPTY);
    ANSWERS(thp_pass_close(&pass, 0), THP_EMPTY);
    ANSWERS(thp_pass_scan(&pass, 0, 1, &scan), THP_EMPTY);
    ANSWERS(thp_pass_take(&pass, 0, 1, &pages), THP_EMPTY);
    ANSWERS(thp_pass_split_next(&pass, 0, &tried), THP_EMPTY);
    ANSWERS(thp_pass_put_back(&pass, 0, &back), THP_EMPTY);
    ANSWERS(thp_pass_abandon(&pass, 0), THP_EMPTY);
    ANSWERS(thp_pass_count(&pass, &pages), THP_EMPTY);
    ANSWERS(thp_pass_callers(&pass, &pages, &pages), THP_EMPTY);
    WANT(tried.page == 7 && back.dropped == 7);
    WANT(page == 7 && pages == 7 && done.outcome == 7 && done.released[7] == 7 && scan.taken == 7);
}

/* what no cell, no division and no joint can be made of, and handles that are full already */
static void refused(void) {
    thp_pass pass = NO_PASS, other = NO_PASS;
    thp_node node = NO_NODE;
    ANSWERS(thp_cell_create(&pass, 0, 2, THP_UNDERUSED_OFF, 2), THP_BAD_SIZE);
    ANSWERS(thp_cell_create(&pass, 1, 2, THP_UNDERUSED_OFF, 0), THP_BAD_SIZE);
    ANSWERS(thp_cell_create(&pass, 1, 2, THP_UNDERUSED_OFF, THP_MAX_CELL_CALLERS + 1), THP_BAD_SIZE);
    ANSWERS(thp_cell_create(&pass, 1, 2, THP_UNDERUSED_OFF, 64), THP_OK);
    ANSWERS(thp_cell_create(&pass, 1, 2, THP_UNDERUSED_OFF, 64), THP_IN_USE);
    ANSWERS(thp_pass_split(&pass, 0, &other), THP_BAD_CALLER);
    ANSWERS(thp_pass_split(&pass, 64, &other), THP_BAD_CALLER);
    ANSWERS(thp_pass_split(&pass, 1, &pass), THP_IN_USE);
    ANSWERS(thp_pass_split(&pass, 10, &other), THP_OK);
    ANSWERS(thp_pass_split(&pass, 5, &other), THP_IN_USE);
    ANSWERS(thp_pass_join(&other, &pass), THP_BAD_PASS);
    ANSWERS(thp_pass_join(&pass, &pass), THP_BAD_PASS);
    ANSWERS(thp_cell_finish(&pass, &node), THP_BAD_PASS);
    ANSWERS(thp_cell_finish(&other, &node), THP_BAD_PASS);
    thp_pass stranger = small_cell(1, 64), strangers = NO_PASS;
    ANSWERS(thp_pass_split(&stranger, 10, &strangers), THP_OK);
    ANSWERS(thp_pass_join(&pass, &strangers), THP_BAD_PASS);
    ANSWERS(thp_pass_join(&pass, &other), THP_OK);
    ANSWERS(thp_pass_join(&pass, &other), THP_EMPTY);
    ANSWERS(thp_node_create(&node, 1, 2, THP_UNDERUSED_OFF), THP_OK);
    ANSWERS(thp_cell_finish(&pass, &node), THP_IN_USE);
    ANSWERS(thp_node_destroy(&node), THP_OK);
    ANSWERS(thp_cell_finish(&pass, &node), THP_OK);
    ANSWERS(thp_cell_finish(&pass, &node), THP_IN_USE);
    ANSWERS(thp_node_destroy(&node), THP_OK);
    ANSWERS(thp_pass_destroy(&pass), THP_EMPTY);
    ANSWERS(thp_pass_destroy(&stranger), THP_OK);
    ANSWERS(thp_pass_destroy(&strangers), THP_OK);
}

/* the callers of a pass, before and after it is divided and joined, and when that is refused */
/* a cell whose node only counts its events, beside one whose node stores them: passes of both aren't joined */
static void counting(void) {
    thp_pass counted = NO_PASS, other = NO_PASS, kept = small_cell(2, 2), kept_other = NO_PASS;
    thp_node node = NO_NODE;
    thp_stats stats;
    uint64_t page;
    size_t size = 7;
    ANSWERS(thp_cell_create_counting(NULL, 2, 2, 1, 2), THP_NULL);
    ANSWERS(thp_cell_create_counting(&counted, 2, 2, 1, THP_MAX_CELL_CALLERS + 1), THP_BAD_SIZE);
    ANSWERS(thp_cell_create_counting(&counted, 2, 2, 1, 2), THP_OK);
    ANSWERS(thp_pass_split(&counted, 1, &other), THP_OK);
    ANSWERS(thp_pass_split(&kept, 1, &kept_other), THP_OK);
    ANSWERS(thp_pass_join(&counted, &kept_other), THP_BAD_PASS);
    ANSWERS(thp_pass_join(&kept, &other), THP_BAD_PASS);
    ANSWERS(thp_pass_alloc(&other, 1, &page), THP_OK);
    ANSWERS(thp_pass_alloc(&kept, 0, &page), THP_OK);
    ANSWERS(thp_pass_join(&counted, &other), THP_OK);
    ANSWERS(thp_pass_join(&kept, &kept_other), THP_OK);
    ANSWERS(thp_cell_finish(&counted, &node), THP_OK);
    ANSWERS(thp_node_stats(&node, &stats), THP_OK);
    WANT(stats.events == 1 && stats.queued == 1);
    ANSWERS(thp_node_journal(&node, NULL, 0, &size), THP_NO_JOURNAL);
    ANSWERS(thp_node_destroy(&node), THP_OK);
    ANSWERS(thp_cell_finish(&kept, &node), THP_OK);
    ANSWERS(thp_node_journal(&node, NULL, 0, &size), THP_TOO_SMALL);
    ANSWERS(thp_node_destroy(&node), THP_OK);
}

static void callers_are(const thp_pass *pass, uint32_t from, uint32_t to) {
    uint32_t first = 99, end = 99;
    ANSWERS(thp_pass_callers(pass, &first, &end), THP_OK);
    WANT(first == from && end == to);
}

static void callers(void) {
    thp_pass pass = small_cell(1, 64), middle = NO_PASS, last = NO_PASS;
    callers_are(&pass, 0, 64);
    ANSWERS(thp_pass_split(&pass, 10, &middle), THP_OK);
    ANSWERS(thp_pass_split(&middle, 63, &last), THP_OK);
    callers_are(&pass, 0, 10);
    callers_are(&middle, 10, 63);
    callers_are(&last, 63, 64);
    ANSWERS(thp_pass_join(&pass, &last), THP_BAD_PASS);
    callers_are(&pass, 0, 10);
    ANSWERS(thp_pass_join(&pass, &middle), THP_OK);
    callers_are(&pass, 0, 63);
    ANSWERS(thp_pass_destroy(&pass), THP_OK);
    callers_are(&last, 63, 64);
    ANSWERS(thp_pass_destroy(&last), THP_OK);
    /* a const handle is not written */
    thp_pass *const own = (thp_pass *)page_for_handle();
    *own = small_cell(1, 3);
    protect(own, PROT_READ);
    callers_are(own, 0, 3);
    protect(own, PROT_READ | PROT_WRITE);
    ANSWERS(thp_pass_destroy(own), THP_OK);
}

static void faults(void) {
    thp_pass pass = small_cell(1, 2), other = NO_PASS;
    uint64_t page;
    thp_done done;
    thp_scan scan;
    ANSWERS(thp_pass_alloc(&pass, 2, &page), THP_BAD_CALLER);
    ANSWERS(thp_pass_split(&pass, 1, &other), THP_OK);
    ANSWERS(thp_pass_alloc(&pass, 1, &page), THP_BAD_CALLER);
    ANSWERS(thp_pass_alloc(&other, 0, &page), THP_BAD_CALLER);
    ANSWERS(thp_pass_split_pmd(&other, 0, 0), THP_BAD_CALLER);
    ANSWERS(thp_pass_unmap_sub(&other, 0, 0, 0, 1, &done), THP_BAD_CALLER);
    ANSWERS(thp_pass_scan(&other, 0, 1, &scan), THP_BAD_CALLER);
    ANSWERS(thp_pass_scan(&other, 1, 129, &scan), THP_BAD_COUNT);
    ANSWERS(thp_pass_split_pmd(&pass, 0, 0), THP_NO_PAGE);
    ANSWERS(thp_pass_alloc(&pass, 0, &page), THP_OK);
    ANSWERS(thp_pass_alloc(&other, 1, &page), THP_NO_BLOCK);
    ANSWERS(thp_pass_unmap_sub(&other, 1, 0, 4, 1, &done), THP_BAD_RANGE);
    ANSWERS(thp_pass_unpin(&other, 1, 0, &done), THP_NOT_PINNED);
    ANSWERS(thp_pass_close(&other, 1), THP_OK);
    ANSWERS(thp_pass_close(&pass, 0), THP_CLOSED);
    ANSWERS(thp_pass_destroy(&other), THP_OK);
    thp_node node = NO_NODE;
    ANSWERS(thp_cell_finish(&pass, &node), THP_BAD_PASS);
    ANSWERS(thp_pass_destroy(&pass), THP_OK);
}

/* a page with a queued half, by a caller of the pass */
static uint64_t queued(thp_pass *pass, uint32_t caller) {
    uint64_t page = 0;
    thp_done done;
    ANSWERS(thp_pass_alloc(pass, caller, &page), THP_OK);
    ANSWERS(thp_pass_split_pmd(pass, caller, page), THP_OK);
    ANSWERS(thp_pass_unmap_sub(pass, caller, page, 0, 2, &done), THP_OK);
    return page;
}

/* each caller has a batch of its own, which goes with it from pass to pass */
static void batches(void) {
    thp_pass pass = small_cell(4, 3), other = NO_PASS;
    thp_node node = NO_NODE;
    uint32_t count = 7;
    thp_tried tried = {7, 7};
    thp_back back = {7, 7};
    thp_scan scan;
    thp_done done;
    ANSWERS(thp_pass_take(&pass, 3, 1, &count), THP_BAD_CALLER);
    ANSWERS(thp_pass_split_next(&pass, 3, &tried), THP_BAD_CALLER);
    ANSWERS(thp_pass_put_back(&pass, 3, &back), THP_BAD_CALLER);
    ANSWERS(thp_pass_abandon(&pass, 3), THP_BAD_CALLER);
    ANSWERS(thp_pass_take(&pass, 0, 129, &count), THP_BAD_COUNT);
    ANSWERS(thp_pass_split_next(&pass, 0, &tried), THP_NO_BATCH);
    ANSWERS(thp_pass_put_back(&pass, 0, &back), THP_NO_BATCH);
    ANSWERS(thp_pass_abandon(&pass, 0), THP_NO_BATCH);
    WANT(count == 7 && tried.page == 7 && back.back == 7);
    for (uint32_t k = 0; k < 4; k++) WANT(queued(&pass, k % 3) == k);
    ANSWERS(thp_pass_take(&pass, 0, 1, &count), THP_OK);
    ANSWERS(thp_pass_take(&pass, 0, 1, &count), THP_BATCH_OPEN);
    ANSWERS(thp_pass_scan(&pass, 0, 1, &scan), THP_HAS_BATCH);
    ANSWERS(thp_pass_take(&pass, 2, 2, &count), THP_OK);
    WANT(count == 2);
    ANSWERS(thp_pass_split(&pass, 1, &other), THP_OK);
    ANSWERS(thp_pass_split_next(&other, 1, &tried), THP_NO_BATCH);
    ANSWERS(thp_pass_pin(&pass, 0, 2), THP_OK);
    ANSWERS(thp_pass_split_next(&other, 2, &tried), THP_OK);
    WANT(tried.kind == THP_TRY_SPLIT && tried.page == 1);
    ANSWERS(thp_pass_split_next(&other, 2, &tried), THP_OK);
    WANT(tried.kind == THP_TRY_PINNED && tried.page == 2);
    ANSWERS(thp_pass_split_next(&other, 2, &tried), THP_OK);
    WANT(tried.kind == THP_TRY_DONE && tried.page == 0);
    ANSWERS(thp_pass_split_next(&pass, 2, &tried), THP_BAD_CALLER);
    /* a page that another pass frees is passed over */
    ANSWERS(thp_pass_unmap_sub(&other, 1, 0, 2, 2, &done), THP_OK);
    WANT(done.outcome == THP_FREED);
    ANSWERS(thp_pass_split_next(&pass, 0, &tried), THP_OK);
    WANT(tried.kind == THP_TRY_DONE);
    ANSWERS(thp_pass_join(&pass, &other), THP_OK);
    ANSWERS(thp_cell_finish(&pass, &node), THP_BATCH_OPEN);
    ANSWERS(thp_pass_put_back(&pass, 2, &back), THP_OK);
    WANT(back.back == 1 && back.dropped == 0);
    ANSWERS(thp_pass_put_back(&pass, 2, &back), THP_NO_BATCH);
    ANSWERS(thp_cell_finish(&pass, &node), THP_BATCH_OPEN);
    ANSWERS(thp_pass_abandon(&pass, 0), THP_OK);
    /* what is let go stays in flight */
    ANSWERS(thp_pass_take(&pass, 1, 1, &count), THP_OK);
    ANSWERS(thp_pass_abandon(&pass, 1), THP_OK);
    ANSWERS(thp_pass_take(&pass, 1, 1, &count), THP_HAS_BATCH);
    ANSWERS(thp_cell_finish(&pass, &node), THP_OK);
    ANSWERS(thp_node_destroy(&node), THP_OK);
}

/* a call that is refused for want of memory is done when it is made again */
#define DONE(call) \
    do { \
        thp_code code_ = (call); \
        if (code_ == THP_OUT_OF_MEMORY) code_ = (call); \
        if (code_ != THP_OK) { \
            fprintf(stderr, "%s:%d: %s: %s\n", __FILE__, __LINE__, #call, thp_strerror(code_)); \
            failures++; \
        } \
    } while (0)

enum { LONGEST = 4096 };

/* two passes on one cell; the journal of both, and its length */
static size_t whole_life(uint8_t *text) {
    thp_pass one = NO_PASS, two = NO_PASS, three = NO_PASS;
    thp_node node = NO_NODE;
    uint64_t page;
    uint32_t pages = 9, line;
    thp_done done;
    thp_scan scan;
    thp_tried tried;
    thp_back back;
    size_t size = 0;
    DONE(thp_cell_create(&one, 8, 2, THP_UNDERUSED_OFF, 3));
    DONE(thp_pass_split(&one, 2, &two));
    for (uint32_t k = 0; k < 4; k++) {
        DONE(thp_pass_alloc(&one, k % 2, &page));
        WANT(page == k);
        DONE(thp_pass_map_whole(&two, 2, page));
        DONE(thp_pass_split_pmd(&two, 2, page));
        DONE(thp_pass_unmap_whole(&two, 2, page, &done));
        WANT(done.outcome == THP_STAYS);
        DONE(thp_pass_pin(&one, 0, page));
        DONE(thp_pass_write(&two, 2, page, 0, 4));
        DONE(thp_pass_zero(&two, 2, page, 1, 1));
        DONE(thp_pass_unpin(&two, 2, page, &done));
        DONE(thp_pass_map_sub(&one, 1, page, 0, 1));
        DONE(thp_pass_unmap_sub(&one, 1, page, 0, 1, &done));
        DONE(thp_pass_unmap_sub(&one, k % 2, page, 0, 2, &done));
        WANT(done.outcome == THP_QUEUED && done.released[0] == 0);
        DONE(thp_pass_count(&two, &pages));
        WANT(pages == k + 1);
    }
    DONE(thp_pass_take(&one, 1, 2, &pages));
    WANT(pages == 2);
    DONE(thp_pass_pin(&two, 2, 1));
    DONE(thp_pass_split_next(&one, 1, &tried));
    WANT(tried.kind == THP_TRY_SPLIT && tried.page == 0);
    DONE(thp_pass_split_next(&one, 1, &tried));
    WANT(tried.kind == THP_TRY_PINNED && tried.page == 1);
    DONE(thp_pass_split(&one, 1, &three));
    DONE(thp_pass_put_back(&three, 1, &back));
    WANT(back.back == 1 && back.dropped == 0);
    DONE(thp_pass_join(&one, &three));
    DONE(thp_pass_unpin(&two, 2, 1, &done));
    DONE(thp_pass_scan(&two, 2, 1, &scan));
    WANT(scan.taken == 1 && scan.split == 1 && scan.pinned == 0);
    DONE(thp_pass_unmap_sub(&one, 0, 3, 2, 2, &done));
    WANT(done.outcome == THP_FREED && done.released[0] == 15);
    DONE(thp_pass_join(&one, &two));
    DONE(thp_cell_finish(&one, &node));
    WANT(one.at == NULL && two.at == NULL);
    DONE(thp_node_journal(&node, text, LONGEST, &size));
    DONE(thp_check_text(text, size, &line));
    ANSWERS(thp_node_destroy(&node), THP_OK);
    WANT(blocks == 0);
    return size;
}

int main(void) {
    static const thp_allocator counted = {allocate, resize, give_back};
    static uint8_t wanted[LONGEST], text[LONGEST];
    ANSWERS(thp_use_allocator(&counted), THP_OK);
    nulls();
    empty_handles();
    refused();
    counting();
    callers();
    faults();
    batches();
    WANT(blocks == 0);
    requests = 0;
    const size_t length = whole_life(wanted);
    const size_t all = requests;
    WANT(all > 10);
    for (size_t k = 1; k <= all; k++) {
        requests = 0;
        refused_request = k;
        const size_t size = whole_life(text);
        WANT(size == length && memcmp(text, wanted, length) == 0);
    }
    if (failures == 0) printf("passes: done, each of %lu requests\n", (unsigned long)all);
    return failures != 0;
}
