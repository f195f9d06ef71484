/* Each call of the library, and each code that it answers but want of memory (refused.c). */
#include "wanted.h"

#include <sys/wait.h>
#include <unistd.h>

static const thp_node EMPTY = THP_NODE_INIT;

/* a node whose pages have four subpages */
static thp_node small_node(uint32_t blocks) {
    thp_node node = EMPTY;
    ANSWERS(thp_node_create(&node, blocks, 2, THP_UNDERUSED_OFF), THP_OK);
    return node;
}

/* a page of which one subpage went out of use */
static uint64_t queued_page(thp_node *node, uint32_t caller) {
    uint64_t page = 99;
    thp_done done;
    ANSWERS(thp_node_alloc(node, caller, &page), THP_OK);
    ANSWERS(thp_node_split_pmd(node, caller, page), THP_OK);
    ANSWERS(thp_node_unmap_sub(node, caller, page, 0, 1, &done), THP_OK);
    WANT(done.outcome == THP_QUEUED && done.released[0] == 0);
    return page;
}

static void words(void) {
    WANT(strcmp(thp_version(), THP_VERSION) == 0);
    for (int code = THP_OK; code <= THP_NO_JOURNAL; code++) {
        WANT(strcmp(thp_strerror((thp_code)code), thp_strerror((thp_code)99)) != 0);
        for (int other = THP_OK; other < code; other++) {
            WANT(strcmp(thp_strerror((thp_code)code), thp_strerror((thp_code)other)) != 0);
        }
    }
}

/* the number of each code, which is never changed */
static void numbers(void) {
    static const thp_code codes[] = {
        THP_OK, THP_NO_PAGE, THP_BAD_RANGE, THP_IS_SPLIT, THP_NOT_MAPPED, THP_GONE, THP_NOT_PINNED, THP_TOO_MANY, THP_CLOSED,
        THP_NO_BLOCK, THP_HAS_BATCH, THP_OUT_OF_MEMORY, THP_EMPTY, THP_IN_USE, THP_BAD_CALLER, THP_BAD_SIZE, THP_BAD_COUNT,
        THP_NO_BATCH, THP_BATCH_OPEN, THP_TOO_SMALL, THP_NULL, THP_ILLEGAL, THP_TEXT_TOO_LONG, THP_TEXT_BAD_BYTE, THP_TEXT_CUT,
        THP_TEXT_BAD_WORD, THP_TEXT_BAD_COUNT, THP_TEXT_BAD_NUMBER, THP_TEXT_BAD_SET, THP_TEXT_BAD_ORDER, THP_BUSY, THP_BAD_PASS,
        THP_FINISHED, THP_NO_REASON, THP_NO_JOURNAL};
    for (int at = 0; at < (int)(sizeof codes / sizeof *codes); at++) WANT((int)codes[at] == at);
}

static void made_and_given_back(void) {
    thp_node node = EMPTY;
    ANSWERS(thp_node_create(NULL, 16, 9, THP_UNDERUSED_OFF), THP_NULL);
    ANSWERS(thp_node_create(&node, 0, 9, THP_UNDERUSED_OFF), THP_BAD_SIZE);
    ANSWERS(thp_node_create(&node, THP_MAX_BLOCKS + 1, 9, THP_UNDERUSED_OFF), THP_BAD_SIZE);
    ANSWERS(thp_node_create(&node, 1, 1, THP_UNDERUSED_OFF), THP_BAD_SIZE);
    ANSWERS(thp_node_create(&node, 1, 10, THP_UNDERUSED_OFF), THP_BAD_SIZE);
    ANSWERS(thp_node_create(&node, 1, 2, 4), THP_BAD_SIZE);
    ANSWERS(thp_node_create(&node, 1, 9, 512), THP_BAD_SIZE);
    ANSWERS(thp_node_create(&node, 1, 9, THP_UNDERUSED_OFF - 1), THP_BAD_SIZE);
    WANT(node.at == NULL && node.live == 0);
    ANSWERS(thp_node_create(&node, 4096, 9, 511), THP_OK);
    ANSWERS(thp_node_create(&node, 1, 2, 3), THP_IN_USE);
    ANSWERS(thp_node_destroy(NULL), THP_NULL);
    ANSWERS(thp_node_destroy(&node), THP_OK);
    ANSWERS(thp_node_destroy(&node), THP_EMPTY);
    ANSWERS(thp_node_create(&node, 1, 2, 3), THP_OK);
    ANSWERS(thp_node_destroy(&node), THP_OK);
}

/* each call on an empty handle returns THP_EMPTY, and does nothing else */
static void empty_handle(void) {
    thp_node node = EMPTY;
    uint64_t page = 7;
    uint32_t count = 7;
    size_t size = 7;
    uint8_t byte = 7;
    thp_done done = {7, {7, 7, 7, 7, 7, 7, 7, 7}};
    thp_scan scan = {7, 7, 7, 7, 7, 7};
    thp_tried tried = {7, 7};
    thp_back back = {7, 7};
    thp_stats stats = {7, 7, 7, 7, 7, 7, 7, 7, 7, 7};
    thp_page_state state = {7, 7, 7, 7, 7, 7};
    ANSWERS(thp_node_alloc(&node, 0, &page), THP_EMPTY);
    ANSWERS(thp_node_map_whole(&node, 0, 0), THP_EMPTY);
    ANSWERS(thp_node_unmap_whole(&node, 0, 0, &done), THP_EMPTY);
    ANSWERS(thp_node_map_sub(&node, 0, 0, 0, 1), THP_EMPTY);
    ANSWERS(thp_node_unmap_sub(&node, 0, 0, 0, 1, &done), THP_EMPTY);
    ANSWERS(thp_node_split_pmd(&node, 0, 0), THP_EMPTY);
    ANSWERS(thp_node_pin(&node, 0, 0), THP_EMPTY);
    ANSWERS(thp_node_unpin(&node, 0, 0, &done), THP_EMPTY);
    ANSWERS(thp_node_write(&node, 0, 0, 0, 1), THP_EMPTY);
    ANSWERS(thp_node_zero(&node, 0, 0, 0, 1), THP_EMPTY);
    ANSWERS(thp_node_close(&node, 0), THP_EMPTY);
    ANSWERS(thp_node_scan(&node, 0, 1, &scan), THP_EMPTY);
    ANSWERS(thp_node_take(&node, 0, 1, &count), THP_EMPTY);
    ANSWERS(thp_node_split_next(&node, 0, &tried), THP_EMPTY);
    ANSWERS(thp_node_put_back(&node, 0, &back), THP_EMPTY);
    ANSWERS(thp_node_abandon(&node, 0), THP_EMPTY);
    ANSWERS(thp_node_reserve(&node, 1), THP_EMPTY);
    ANSWERS(thp_node_queue_length(&node, &count), THP_EMPTY);
    ANSWERS(thp_node_queue(&node, &page, 1, &count), THP_EMPTY);
    ANSWERS(thp_node_page(&node, 0, &state), THP_EMPTY);
    ANSWERS(thp_node_mapcount(&node, 0, 0, &count), THP_EMPTY);
    ANSWERS(thp_node_stats(&node, &stats), THP_EMPTY);
    ANSWERS(thp_node_journal(&node, &byte, 1, &size), THP_EMPTY);
    WANT(page == 7 && count == 7 && size == 7 && byte == 7 && done.outcome == 7 && done.released[7] == 7);
    WANT(scan.taken == 7 && scan.used == 7 && tried.kind == 7 && back.dropped == 7 && stats.events == 7 && stats.split_pmd == 7);
    WANT(state.whole_mapcount == 7 && state.caller == 7);
    WANT(node.at == NULL && node.live == 0);
}

static void null_pointers(void) {
    thp_node node = small_node(1);
    uint32_t line, count;
    uint64_t page;
    size_t size;
    thp_page_state state;
    ANSWERS(thp_check_text(NULL, 1, &line), THP_NULL);
    ANSWERS(thp_check_text("", 0, NULL), THP_NULL);
    ANSWERS(thp_use_allocator(NULL), THP_NULL);
    ANSWERS(thp_node_alloc(NULL, 0, NULL), THP_NULL);
    ANSWERS(thp_node_alloc(&node, 0, NULL), THP_NULL);
    ANSWERS(thp_node_map_whole(NULL, 0, 0), THP_NULL);
    ANSWERS(thp_node_unmap_whole(&node, 0, 0, NULL), THP_NULL);
    ANSWERS(thp_node_map_sub(NULL, 0, 0, 0, 1), THP_NULL);
    ANSWERS(thp_node_unmap_sub(&node, 0, 0, 0, 1, NULL), THP_NULL);
    ANSWERS(thp_node_split_pmd(NULL, 0, 0), THP_NULL);
    ANSWERS(thp_node_pin(NULL, 0, 0), THP_NULL);
    ANSWERS(thp_node_unpin(&node, 0, 0, NULL), THP_NULL);
    ANSWERS(thp_node_write(NULL, 0, 0, 0, 1), THP_NULL);
    ANSWERS(thp_node_zero(NULL, 0, 0, 0, 1), THP_NULL);
    ANSWERS(thp_node_close(NULL, 0), THP_NULL);
    ANSWERS(thp_node_scan(&node, 0, 1, NULL), THP_NULL);
    ANSWERS(thp_node_take(&node, 0, 1, NULL), THP_NULL);
    ANSWERS(thp_node_split_next(&node, 0, NULL), THP_NULL);
    ANSWERS(thp_node_put_back(&node, 0, NULL), THP_NULL);
    ANSWERS(thp_node_abandon(NULL, 0), THP_NULL);
    ANSWERS(thp_node_reserve(NULL, 1), THP_NULL);
    ANSWERS(thp_node_queue_length(&node, NULL), THP_NULL);
    ANSWERS(thp_node_queue_length(NULL, &count), THP_NULL);
    ANSWERS(thp_node_queue(NULL, &page, 1, &count), THP_NULL);
    ANSWERS(thp_node_queue(&node, NULL, 1, &count), THP_NULL);
    ANSWERS(thp_node_queue(&node, &page, 1, NULL), THP_NULL);
    ANSWERS(thp_node_page(NULL, 0, &state), THP_NULL);
    ANSWERS(thp_node_page(&node, 0, NULL), THP_NULL);
    ANSWERS(thp_node_mapcount(NULL, 0, 0, &count), THP_NULL);
    ANSWERS(thp_node_mapcount(&node, 0, 0, NULL), THP_NULL);
    ANSWERS(thp_node_stats(&node, NULL), THP_NULL);
    ANSWERS(thp_node_journal(&node, NULL, 1, &size), THP_NULL);
    ANSWERS(thp_node_journal(&node, NULL, 0, NULL), THP_NULL);
    ANSWERS(thp_node_destroy(&node), THP_OK);
}

/* what the node refuses, each word by a call */
static void refusals(void) {
    thp_node node = small_node(1);
    uint64_t page = 9;
    thp_done done = {7, {0}};
    thp_scan scan;
    ANSWERS(thp_node_alloc(&node, 64, &page), THP_BAD_CALLER);
    WANT(page == 9);
    ANSWERS(thp_node_alloc(&node, 63, &page), THP_OK);
    WANT(page == 0);
    ANSWERS(thp_node_alloc(&node, 0, &page), THP_NO_BLOCK);
    ANSWERS(thp_node_map_whole(&node, 0, 1), THP_NO_PAGE);
    ANSWERS(thp_node_unmap_whole(&node, 0, 1, &done), THP_NO_PAGE);
    ANSWERS(thp_node_map_sub(&node, 0, 0, 0, 0), THP_BAD_RANGE);
    ANSWERS(thp_node_map_sub(&node, 0, 0, UINT32_MAX, UINT32_MAX), THP_BAD_RANGE);
    ANSWERS(thp_node_write(&node, 0, 0, 3, 2), THP_BAD_RANGE);
    ANSWERS(thp_node_unmap_sub(&node, 0, 0, 0, 4, &done), THP_NOT_MAPPED);
    ANSWERS(thp_node_unpin(&node, 0, 0, &done), THP_NOT_PINNED);
    WANT(done.outcome == 7);
    ANSWERS(thp_node_split_pmd(&node, 0, 0), THP_OK);
    ANSWERS(thp_node_split_pmd(&node, 0, 0), THP_NOT_MAPPED);
    ANSWERS(thp_node_unmap_sub(&node, 0, 0, 3, 1, &done), THP_OK);
    ANSWERS(thp_node_zero(&node, 0, 0, 2, 2), THP_NOT_MAPPED);
    ANSWERS(thp_node_scan(&node, 0, 129, &scan), THP_BAD_COUNT);
    ANSWERS(thp_node_scan(&node, 64, 128, &scan), THP_BAD_CALLER);
    ANSWERS(thp_node_scan(&node, 0, 128, &scan), THP_OK);
    WANT(scan.taken == 1 && scan.split == 1 && scan.pinned == 0 && scan.back == 0 && scan.dropped == 0 && scan.used == 0);
    ANSWERS(thp_node_map_whole(&node, 0, 0), THP_IS_SPLIT);
    ANSWERS(thp_node_pin(&node, 0, 0), THP_IS_SPLIT);
    ANSWERS(thp_node_map_sub(&node, 0, 0, 2, 2), THP_GONE);
    ANSWERS(thp_node_close(&node, 0), THP_OK);
    ANSWERS(thp_node_close(&node, 0), THP_CLOSED);
    ANSWERS(thp_node_alloc(&node, 0, &page), THP_CLOSED);
    ANSWERS(thp_node_unmap_sub(&node, 0, 0, 0, 3, &done), THP_OK);
    WANT(done.outcome == THP_FREED && done.released[0] == 7 && done.released[1] == 0);
    ANSWERS(thp_node_destroy(&node), THP_OK);
}

/* counts at their limit */
static void limits(void) {
    thp_node node = small_node(1);
    uint64_t page;
    thp_done done;
    ANSWERS(thp_node_alloc(&node, 0, &page), THP_OK);
    for (int k = 0; k < 65535; k++) ANSWERS(thp_node_pin(&node, 0, page), THP_OK);
    ANSWERS(thp_node_pin(&node, 0, page), THP_TOO_MANY);
    ANSWERS(thp_node_unpin(&node, 0, page, &done), THP_OK);
    WANT(done.outcome == THP_STAYS && done.released[0] == 0);
    ANSWERS(thp_node_destroy(&node), THP_OK);
}

/* pages gain and lose, and give their frames back */
static void pages(void) {
    thp_node node = EMPTY;
    uint64_t page;
    thp_done done;
    thp_stats stats;
    ANSWERS(thp_node_create(&node, 2, 9, 0), THP_OK);
    ANSWERS(thp_node_alloc(&node, 0, &page), THP_OK);
    ANSWERS(thp_node_map_whole(&node, 1, page), THP_OK);
    ANSWERS(thp_node_map_sub(&node, 1, page, 64, 128), THP_OK);
    ANSWERS(thp_node_write(&node, 1, page, 0, 512), THP_OK);
    ANSWERS(thp_node_zero(&node, 1, page, 511, 1), THP_OK);
    ANSWERS(thp_node_pin(&node, 1, page), THP_OK);
    ANSWERS(thp_node_unpin(&node, 1, page, &done), THP_OK);
    WANT(done.outcome == THP_STAYS);
    ANSWERS(thp_node_unmap_whole(&node, 1, page, &done), THP_OK);
    ANSWERS(thp_node_unmap_whole(&node, 1, page, &done), THP_OK);
    WANT(done.outcome == THP_STAYS);
    ANSWERS(thp_node_unmap_sub(&node, 1, page, 64, 128, &done), THP_OK);
    WANT(done.outcome == THP_FREED);
    for (int word = 0; word < 8; word++) WANT(done.released[word] == UINT64_MAX);
    ANSWERS(thp_node_stats(&node, &stats), THP_OK);
    WANT(stats.events == 10 && stats.allocations == 1 && stats.queued == 0);
    WANT(stats.frames_given == 512 && stats.frames_held == 0 && stats.split_page == 0 && stats.split_page_failed == 0);
    WANT(stats.underused_split_page == 0 && stats.split_pmd == 0);
    ANSWERS(thp_node_destroy(&node), THP_OK);
}

/* a batch by hand: one page is split, one pinned, one freed while it is in the batch */
static void batches(void) {
    thp_node node = small_node(8);
    uint32_t count = 7, length = 7;
    thp_tried tried = {7, 7};
    thp_back back = {7, 7};
    thp_done done;
    thp_scan scan;
    uint64_t split = queued_page(&node, 0);
    uint64_t pinned = queued_page(&node, 1);
    uint64_t freed = queued_page(&node, 2);
    ANSWERS(thp_node_pin(&node, 1, pinned), THP_OK);
    ANSWERS(thp_node_queue_length(&node, &length), THP_OK);
    WANT(length == 3);
    ANSWERS(thp_node_split_next(&node, 5, &tried), THP_NO_BATCH);
    ANSWERS(thp_node_put_back(&node, 5, &back), THP_NO_BATCH);
    ANSWERS(thp_node_abandon(&node, 5), THP_NO_BATCH);
    ANSWERS(thp_node_take(&node, 5, 129, &count), THP_BAD_COUNT);
    ANSWERS(thp_node_take(&node, 64, 128, &count), THP_BAD_CALLER);
    WANT(count == 7 && tried.kind == 7 && back.back == 7);
    ANSWERS(thp_node_take(&node, 5, 128, &count), THP_OK);
    WANT(count == 3);
    ANSWERS(thp_node_take(&node, 5, 128, &count), THP_BATCH_OPEN);
    ANSWERS(thp_node_scan(&node, 5, 128, &scan), THP_HAS_BATCH);
    ANSWERS(thp_node_split_next(&node, 6, &tried), THP_NO_BATCH);
    ANSWERS(thp_node_unmap_sub(&node, 2, freed, 1, 3, &done), THP_OK);
    WANT(done.outcome == THP_FREED && done.released[0] == 15);
    ANSWERS(thp_node_split_next(&node, 5, &tried), THP_OK);
    WANT(tried.kind == THP_TRY_SPLIT && tried.page == split);
    ANSWERS(thp_node_split_next(&node, 5, &tried), THP_OK);
    WANT(tried.kind == THP_TRY_PINNED && tried.page == pinned);
    ANSWERS(thp_node_split_next(&node, 5, &tried), THP_OK);
    WANT(tried.kind == THP_TRY_DONE);
    ANSWERS(thp_node_put_back(&node, 5, &back), THP_OK);
    WANT(back.back == 1 && back.dropped == 0);
    ANSWERS(thp_node_take(&node, 5, 128, &count), THP_OK);
    WANT(count == 1);
    ANSWERS(thp_node_abandon(&node, 5), THP_OK);
    ANSWERS(thp_node_take(&node, 5, 128, &count), THP_HAS_BATCH);
    ANSWERS(thp_node_scan(&node, 6, 0, &scan), THP_OK);
    WANT(scan.taken == 0);
    ANSWERS(thp_node_destroy(&node), THP_OK);
}

/* batches of several callers on one node, each tried, returned and let go by its own; a page of one is freed by another's call */
static void batches_of_callers(void) {
    enum { CALLERS = 64 };
    thp_node node = small_node(CALLERS);
    uint32_t count, length;
    thp_tried tried;
    thp_back back;
    thp_done done;
    thp_scan scan;
    for (uint64_t k = 0; k < CALLERS; k++) WANT(queued_page(&node, 0) == k);
    ANSWERS(thp_node_pin(&node, 0, 3), THP_OK);
    for (uint32_t c = 0; c < CALLERS; c++) {
        ANSWERS(thp_node_take(&node, c, 1, &count), THP_OK);
        WANT(count == 1);
    }
    ANSWERS(thp_node_queue_length(&node, &length), THP_OK);
    WANT(length == 0);
    for (uint32_t c = 0; c < CALLERS; c++) {
        ANSWERS(thp_node_take(&node, c, 0, &count), THP_BATCH_OPEN);
        ANSWERS(thp_node_scan(&node, c, 1, &scan), THP_HAS_BATCH);
    }
    ANSWERS(thp_node_unmap_sub(&node, 9, 5, 1, 3, &done), THP_OK);
    WANT(done.outcome == THP_FREED);
    ANSWERS(thp_node_put_back(&node, 7, &back), THP_OK);
    WANT(back.back == 1 && back.dropped == 0);
    ANSWERS(thp_node_put_back(&node, 7, &back), THP_NO_BATCH);
    ANSWERS(thp_node_abandon(&node, 8), THP_OK);
    ANSWERS(thp_node_abandon(&node, 8), THP_NO_BATCH);
    ANSWERS(thp_node_take(&node, 8, 1, &count), THP_HAS_BATCH);
    for (uint32_t c = CALLERS; c-- > 0;) {
        if (c == 7 || c == 8) continue;
        ANSWERS(thp_node_split_next(&node, c, &tried), THP_OK);
        WANT(tried.kind == (c == 3 ? THP_TRY_PINNED : c == 5 ? THP_TRY_DONE : THP_TRY_SPLIT));
        WANT(tried.page == (c == 5 ? 0 : c));
        ANSWERS(thp_node_put_back(&node, c, &back), THP_OK);
        WANT(back.back == (c == 3) && back.dropped == 0);
    }
    ANSWERS(thp_node_split_next(&node, CALLERS, &tried), THP_NO_BATCH);
    ANSWERS(thp_node_put_back(&node, UINT32_MAX, &back), THP_NO_BATCH);
    ANSWERS(thp_node_abandon(&node, CALLERS), THP_NO_BATCH);
    ANSWERS(thp_node_take(&node, 7, 128, &count), THP_OK);
    WANT(count == 2);
    ANSWERS(thp_node_destroy(&node), THP_OK);
}

/* the state of a page is this */
static int is_page(const thp_node *node, uint64_t page, uint32_t whole, uint32_t pins, uint32_t partly, uint32_t split, uint32_t list, uint32_t caller) {
    thp_page_state state = {9, 9, 9, 9, 9, 9};
    ANSWERS(thp_node_page(node, page, &state), THP_OK);
    return state.whole_mapcount == whole && state.pins == pins && state.partly_mapped == partly && state.split == split && state.list == list &&
           state.caller == caller;
}

/* the states of pages and the queue, through a const handle: a reader leaves the node where it is, which the sanitizers watch */
static void readers(void) {
    thp_node node = small_node(8);
    const thp_node *const seen = &node;
    thp_page_state state = {9, 9, 9, 9, 9, 9};
    thp_tried tried;
    thp_back back;
    thp_done done;
    uint32_t own = 9, count = 9;
    uint64_t pages[6] = {9, 9, 9, 9, 9, 9};
    ANSWERS(thp_node_queue(seen, NULL, 0, &count), THP_OK);
    WANT(count == 0);
    ANSWERS(thp_node_page(seen, 0, &state), THP_NO_PAGE);
    WANT(state.whole_mapcount == 9 && state.caller == 9);
    for (uint64_t k = 0; k < 5; k++) WANT(queued_page(&node, 0) == k);
    ANSWERS(thp_node_alloc(&node, 0, pages), THP_OK);
    ANSWERS(thp_node_map_whole(&node, 0, 5), THP_OK);
    ANSWERS(thp_node_pin(&node, 0, 5), THP_OK);
    ANSWERS(thp_node_map_sub(&node, 0, 1, 2, 2), THP_OK);
    WANT(is_page(seen, 5, 2, 1, 0, 0, THP_LIST_NONE, 0));
    WANT(is_page(seen, 1, 0, 0, 1, 0, THP_LIST_QUEUE, 0));
    for (uint32_t i = 0; i < 4; i++) {
        ANSWERS(thp_node_mapcount(seen, 1, i, &own), THP_OK);
        WANT(own == (i == 0 ? 0 : i == 1 ? 1 : 2));
    }
    ANSWERS(thp_node_mapcount(seen, 1, 4, &own), THP_BAD_RANGE);
    ANSWERS(thp_node_mapcount(seen, 6, 4, &own), THP_NO_PAGE);
    ANSWERS(thp_node_mapcount(seen, UINT64_MAX, UINT32_MAX, &own), THP_NO_PAGE);
    /* no bit of a number is lost: these differ from a page and its subpage by one high bit */
    for (int bit = 8; bit < 64; bit++) {
        const uint64_t high = UINT64_C(1) << bit;
        ANSWERS(thp_node_page(seen, 1 + high, &state), THP_NO_PAGE);
        ANSWERS(thp_node_mapcount(seen, 1 + high, 1, &own), THP_NO_PAGE);
        if (bit < 32) ANSWERS(thp_node_mapcount(seen, 1, 1 + (uint32_t)high, &own), THP_BAD_RANGE);
    }
    WANT(own == 2 && state.whole_mapcount == 9 && state.caller == 9);
    /* page 0 is pinned and goes back behind the others, page 1 is split, page 3 is freed */
    ANSWERS(thp_node_pin(&node, 0, 0), THP_OK);
    ANSWERS(thp_node_take(&node, 63, 2, &count), THP_OK);
    WANT(is_page(seen, 0, 0, 1, 1, 0, THP_LIST_FLIGHT, 63));
    ANSWERS(thp_node_split_next(&node, 63, &tried), THP_OK);
    ANSWERS(thp_node_split_next(&node, 63, &tried), THP_OK);
    WANT(is_page(seen, 1, 0, 0, 1, 1, THP_LIST_NONE, 0));
    ANSWERS(thp_node_put_back(&node, 63, &back), THP_OK);
    ANSWERS(thp_node_unmap_sub(&node, 0, 3, 1, 3, &done), THP_OK);
    ANSWERS(thp_node_page(seen, 3, &state), THP_NO_PAGE);
    for (size_t room = 0; room <= 6; room++) {
        static const uint64_t queue[] = {2, 4, 0};
        for (size_t k = 0; k < 6; k++) pages[k] = 9;
        count = 9;
        ANSWERS(thp_node_queue(seen, room != 0 ? pages : NULL, room, &count), THP_OK);
        WANT(count == 3);
        for (size_t k = 0; k < 6; k++) WANT(pages[k] == (k < room && k < 3 ? queue[k] : 9));
    }
    ANSWERS(thp_node_destroy(&node), THP_OK);
}

/* the whole queue of a large node, with more room than it needs, and with room whose low bits are zero */
static void long_queue(void) {
    enum { PAGES = 5000, ROOM = 131072 };
    static uint64_t pages[ROOM];
    thp_node node = small_node(PAGES);
    uint32_t count = 9;
    for (uint64_t k = 0; k < PAGES; k++) WANT(queued_page(&node, 0) == k);
    for (size_t room = 8192; room <= ROOM; room *= 16) {
        memset(pages, 9, sizeof pages);
        ANSWERS(thp_node_queue(&node, pages, room, &count), THP_OK);
        WANT(count == PAGES && pages[PAGES] == UINT64_C(0x0909090909090909));
        for (uint64_t k = 0; k < PAGES; k++) WANT(pages[k] == k);
    }
    ANSWERS(thp_node_destroy(&node), THP_OK);
}

/* no call with a const handle writes to it */
static void read_only(void) {
    thp_node *const node = (thp_node *)page_for_handle();
    uint32_t count, own;
    uint64_t page;
    size_t size;
    thp_page_state state;
    thp_stats stats;
    *node = small_node(2);
    queued_page(node, 0);
    protect(node, PROT_READ);
    ANSWERS(thp_node_queue_length(node, &count), THP_OK);
    ANSWERS(thp_node_queue(node, &page, 1, &count), THP_OK);
    ANSWERS(thp_node_page(node, 0, &state), THP_OK);
    ANSWERS(thp_node_page(node, 1, &state), THP_NO_PAGE);
    ANSWERS(thp_node_mapcount(node, 0, 3, &own), THP_OK);
    ANSWERS(thp_node_stats(node, &stats), THP_OK);
    ANSWERS(thp_node_journal(node, NULL, 0, &size), THP_TOO_SMALL);
    WANT(page == 0 && count == 1 && own == 1 && state.list == THP_LIST_QUEUE && stats.queued == 1);
    protect(node, PROT_READ | PROT_WRITE);
    ANSWERS(thp_node_destroy(node), THP_OK);
}

/* a page that is queued since it was allocated, and is found in use */
static void underused(void) {
    thp_node node = EMPTY;
    uint64_t page;
    uint32_t count;
    thp_tried tried;
    thp_stats stats;
    ANSWERS(thp_node_create(&node, 2, 2, 1), THP_OK);
    ANSWERS(thp_node_alloc(&node, 0, &page), THP_OK);
    ANSWERS(thp_node_write(&node, 0, page, 0, 4), THP_OK);
    ANSWERS(thp_node_take(&node, 0, 1, &count), THP_OK);
    ANSWERS(thp_node_split_next(&node, 0, &tried), THP_OK);
    WANT(tried.kind == THP_TRY_USED && tried.page == page);
    ANSWERS(thp_node_abandon(&node, 0), THP_OK);
    ANSWERS(thp_node_alloc(&node, 0, &page), THP_OK);
    ANSWERS(thp_node_take(&node, 0, 1, &count), THP_OK);
    ANSWERS(thp_node_split_next(&node, 0, &tried), THP_OK);
    WANT(tried.kind == THP_TRY_SPLIT && tried.page == page);
    ANSWERS(thp_node_stats(&node, &stats), THP_OK);
    WANT(stats.split_page == 1 && stats.underused_split_page == 1);
    ANSWERS(thp_node_destroy(&node), THP_OK);
}

/* the journal goes to a buffer of its length, and to no shorter one; nothing is written behind it */
static void journals(void) {
    static const char text[] = "thp-journal 2\nnode 0 blocks 1 order 2\n3 alloc 0\n3 unmapwhole 0 freed 0-3\nend\n";
    const size_t length = sizeof text - 1;
    thp_node node = small_node(1);
    uint64_t page;
    thp_done done;
    size_t size = 0;
    uint32_t line = 7;
    uint8_t buffer[128];
    ANSWERS(thp_node_alloc(&node, 3, &page), THP_OK);
    ANSWERS(thp_node_unmap_whole(&node, 3, page, &done), THP_OK);
    ANSWERS(thp_node_journal(&node, NULL, 0, &size), THP_TOO_SMALL);
    WANT(size == length);
    memset(buffer, '#', sizeof buffer);
    ANSWERS(thp_node_journal(&node, buffer, length - 1, &size), THP_TOO_SMALL);
    WANT(size == length && buffer[0] == '#');
    ANSWERS(thp_node_journal(&node, buffer, length, &size), THP_OK);
    WANT(size == length && memcmp(buffer, text, length) == 0 && buffer[length] == '#');
    ANSWERS(thp_node_journal(&node, buffer, sizeof buffer, &size), THP_OK);
    WANT(size == length && buffer[length] == '#');
    ANSWERS(thp_check_text(buffer, size, &line), THP_OK);
    WANT(line == 0);
    ANSWERS(thp_node_destroy(&node), THP_OK);
}

/* one random call on a node: its code, and in `reported` all that it stores */
static thp_code some_call(thp_node *node, uint32_t kind, uint32_t page, uint32_t at, void *reported, size_t room) {
    uint64_t *number = (uint64_t *)reported;
    memset(reported, 0, room);
    switch (kind) {
    case 0: return thp_node_alloc(node, at, number);
    case 1: case 2: return thp_node_split_pmd(node, at, page);
    case 3: return thp_node_map_sub(node, at, page, at, 1);
    case 4: case 5: case 6: return thp_node_unmap_sub(node, at, page, at, 1, (thp_done *)reported);
    case 7: return thp_node_pin(node, at, page);
    case 8: return thp_node_unpin(node, at, page, (thp_done *)reported);
    case 9: return thp_node_zero(node, at, page, at, 1);
    case 10: return thp_node_scan(node, at, 2, (thp_scan *)reported);
    case 11: return thp_node_take(node, at, 2, (uint32_t *)reported);
    case 12: return thp_node_split_next(node, at, (thp_tried *)reported);
    default: return thp_node_put_back(node, at, (thp_back *)reported);
    }
}

/* a node that only counts its events answers as one that keeps them does, and has no journal */
static void counting(void) {
    thp_node kept = EMPTY, counted = EMPTY;
    uint64_t reported[16], other[16];
    thp_stats stats, others;
    uint32_t random = 1;
    size_t size = 7;
    uint8_t byte = '#';
    ANSWERS(thp_node_create_counting(NULL, 6, 2, 1), THP_NULL);
    ANSWERS(thp_node_create_counting(&counted, 6, 2, 4), THP_BAD_SIZE);
    ANSWERS(thp_node_create(&kept, 6, 2, 1), THP_OK);
    ANSWERS(thp_node_create_counting(&counted, 6, 2, 1), THP_OK);
    ANSWERS(thp_node_create_counting(&counted, 6, 2, 1), THP_IN_USE);
    for (int k = 0; k < 20000; k++) {
        random = random * 1664525 + 1013904223;
        const uint32_t kind = (random >> 24) % 14, at = (random >> 20) % 4;
        ANSWERS(thp_node_stats(&kept, &stats), THP_OK);
        const uint32_t page = (uint32_t)stats.allocations - 1 - (random >> 12) % 8;
        ANSWERS(some_call(&counted, kind, page, at, reported, sizeof reported), some_call(&kept, kind, page, at, other, sizeof other));
        WANT(memcmp(reported, other, sizeof reported) == 0);
        ANSWERS(thp_node_stats(&kept, &stats), THP_OK);
        ANSWERS(thp_node_stats(&counted, &others), THP_OK);
        WANT(memcmp(&stats, &others, sizeof stats) == 0);
    }
    WANT(stats.events > 4000 && stats.split_page > 100);
    ANSWERS(thp_node_journal(&counted, &byte, 1, &size), THP_NO_JOURNAL);
    WANT(size == 7 && byte == '#');
    uint32_t length, other_length;
    ANSWERS(thp_node_queue(&counted, reported, 16, &length), THP_OK);
    ANSWERS(thp_node_queue(&kept, other, 16, &other_length), THP_OK);
    WANT(length == other_length && memcmp(reported, other, 8 * (size_t)length) == 0);
    ANSWERS(thp_node_journal(&kept, &byte, 1, &size), THP_TOO_SMALL);
    ANSWERS(thp_node_destroy(&counted), THP_OK);
    ANSWERS(thp_node_destroy(&kept), THP_OK);
}

static void answers_text(const char *text, thp_code code, uint32_t at) {
    uint32_t line = 7;
    ANSWERS(thp_check_text((const uint8_t *)text, strlen(text), &line), code);
    WANT(line == at);
}

static void texts(void) {
    uint32_t line = 7;
    answers_text("thp-journal 1\nnode 0 blocks 1\nend\n", THP_OK, 0);
    answers_text("thp-journal 1\nnode 0 blocks 1\n0 alloc 1\nend\n", THP_ILLEGAL, 3);
    answers_text("thp-journal 1\nnode 0\tblocks 1\nend\n", THP_TEXT_BAD_BYTE, 2);
    answers_text("thp-journal 1\nend", THP_TEXT_CUT, 2);
    answers_text("thp-journal 1\nnode 0 blocks 1\n0 free 0\nend\n", THP_TEXT_BAD_WORD, 3);
    answers_text("thp-journal 1\nnode 0 blocks 1\n0 alloc\nend\n", THP_TEXT_BAD_COUNT, 3);
    answers_text("thp-journal 1\nnode 0 blocks 4097\nend\n", THP_TEXT_BAD_NUMBER, 2);
    answers_text("thp-journal 1\nnode 0 blocks 1\n0 split 0 1,2\nend\n", THP_TEXT_BAD_SET, 3);
    answers_text("thp-journal 1\n0 alloc 0\nend\n", THP_TEXT_BAD_ORDER, 2);
    ANSWERS(thp_check_text(NULL, 0, &line), THP_TEXT_CUT);
    WANT(line == 1);
    const size_t most = 16777216;
    uint8_t *long_text = (uint8_t *)calloc(most + 1, 1);
    if (long_text != NULL) {
        ANSWERS(thp_check_text(long_text, most + 1, &line), THP_TEXT_TOO_LONG);
        WANT(line == 0);
        ANSWERS(thp_check_text(long_text, most, &line), THP_TEXT_BAD_BYTE);
        WANT(line == 1);
    }
    free(long_text);
}

/* the child of a program without threads goes on with handles of its own */
static void forked(void) {
    thp_node node = small_node(2);
    thp_stats stats;
    uint64_t page;
    int status = 1;
    ANSWERS(thp_node_alloc(&node, 0, &page), THP_OK);
    pid_t child = fork();
    if (child == 0) {
        failures = 0;
        ANSWERS(thp_node_alloc(&node, 0, &page), THP_OK);
        WANT(page == 1);
        ANSWERS(thp_node_destroy(&node), THP_OK);
        _exit(failures != 0);
    }
    WANT(child > 0 && waitpid(child, &status, 0) == child && status == 0);
    ANSWERS(thp_node_stats(&node, &stats), THP_OK);
    WANT(stats.allocations == 1);
    ANSWERS(thp_node_destroy(&node), THP_OK);
}

/* handles of their own never meet */
static void apart(void) {
    thp_node one = small_node(1), other = small_node(1);
    uint64_t page;
    ANSWERS(thp_node_alloc(&one, 0, &page), THP_OK);
    ANSWERS(thp_node_pin(&other, 0, page), THP_NO_PAGE);
    ANSWERS(thp_node_destroy(&one), THP_OK);
    ANSWERS(thp_node_alloc(&other, 0, &page), THP_OK);
    WANT(page == 0);
    ANSWERS(thp_node_reserve(&other, 100), THP_OK);
    ANSWERS(thp_node_destroy(&other), THP_OK);
}

int main(void) {
    static const thp_allocator usual = {malloc, realloc, free};
    words();
    numbers();
    made_and_given_back();
    ANSWERS(thp_use_allocator(&usual), THP_IN_USE);
    empty_handle();
    null_pointers();
    refusals();
    limits();
    pages();
    batches();
    batches_of_callers();
    readers();
    long_queue();
    read_only();
    underused();
    journals();
    counting();
    texts();
    forked();
    apart();
    if (failures == 0) printf("calls: done\n");
    return failures != 0;
}
