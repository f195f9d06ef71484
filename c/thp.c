/* Implements the header on the proved functions: tests pointers for null, and supplies the heap. */
#include "thp.h"

#include <stdbool.h>
#include <stdlib.h>

/* ---- the heap of the proved functions: that of the C library, or that of thp_use_allocator */

static thp_allocator heap = {malloc, realloc, free};
static bool is_asked = false; /* set by the first allocation; concurrent ones all store the same value */

/* the result of a request: the memory, or a failure and an address that is never read */
typedef struct request {
    bool ok;
    void *memory;
} request;

static char nowhere;

static request answer(void *memory) {
    request got = {memory != NULL, memory != NULL ? memory : &nowhere};
    return got;
}

static void note_asked(void) {
    if (!__atomic_load_n(&is_asked, __ATOMIC_RELAXED)) {
        __atomic_store_n(&is_asked, true, __ATOMIC_RELAXED);
    }
}

request rattle_alloc(size_t size, size_t alignment);
request rattle_realloc(void *memory, size_t kept, size_t size, size_t alignment);
void rattle_dealloc(void *memory);

/* alignments are at most 16, which malloc guarantees for every block of at least that size */
request rattle_alloc(size_t size, size_t alignment) {
    note_asked();
    return answer(heap.allocate(size != 0 ? size : alignment));
}

request rattle_realloc(void *memory, size_t kept, size_t size, size_t alignment) {
    (void)kept;
    return answer(heap.resize(memory, size != 0 ? size : alignment));
}

void rattle_dealloc(void *memory) { heap.give_back(memory); }

thp_code thp_use_allocator(const thp_allocator *allocator) {
    if (allocator == NULL || allocator->allocate == NULL || allocator->resize == NULL || allocator->give_back == NULL) {
        return THP_NULL;
    }
    if (__atomic_load_n(&is_asked, __ATOMIC_RELAXED)) return THP_IN_USE;
    heap = *allocator;
    return THP_OK;
}

/* ---- texts */

const char *thp_version(void) { return THP_VERSION; }

const char *thp_strerror(thp_code code) {
    switch (code) {
    case THP_OK: return "done";
    case THP_NO_PAGE: return "no such page";
    case THP_BAD_RANGE: return "bad range";
    case THP_IS_SPLIT: return "the page is split";
    case THP_NOT_MAPPED: return "not mapped";
    case THP_GONE: return "a frame is gone";
    case THP_NOT_PINNED: return "not pinned";
    case THP_TOO_MANY: return "a count is at its limit";
    case THP_CLOSED: return "the node is closed";
    case THP_NO_BLOCK: return "no free block";
    case THP_HAS_BATCH: return "the caller has pages in flight";
    case THP_OUT_OF_MEMORY: return "out of memory";
    case THP_EMPTY: return "the handle is empty";
    case THP_IN_USE: return "already in use";
    case THP_BAD_CALLER: return "bad caller";
    case THP_BAD_SIZE: return "bad size";
    case THP_BAD_COUNT: return "too many pages requested";
    case THP_NO_BATCH: return "no open batch";
    case THP_BATCH_OPEN: return "a batch is open";
    case THP_TOO_SMALL: return "the buffer is too small";
    case THP_NULL: return "null pointer";
    case THP_ILLEGAL: return "illegal event";
    case THP_TEXT_TOO_LONG: return "the text is too long";
    case THP_TEXT_BAD_BYTE: return "bad byte in the text";
    case THP_TEXT_CUT: return "the text is cut";
    case THP_TEXT_BAD_WORD: return "bad word in the text";
    case THP_TEXT_BAD_COUNT: return "too few or too many words in a line";
    case THP_TEXT_BAD_NUMBER: return "bad number in the text";
    case THP_TEXT_BAD_SET: return "bad set in the text";
    case THP_TEXT_BAD_ORDER: return "the line is out of place";
    case THP_BUSY: return "another pass has the node";
    case THP_BAD_PASS: return "the passes don't fit";
    case THP_FINISHED: return "the check is finished";
    case THP_NO_REASON: return "there is no reason to report";
    case THP_NO_JOURNAL: return "the node only counts its events";
    case THP_NO_CODE: break;
    }
    return "no code of this library";
}

/* ---- the proved functions, and the calls that test their pointers */

uint32_t thp_c_check_text(const uint8_t *text, size_t length, uint32_t *line);
uint32_t thp_c_check_create(thp_check *check);
uint32_t thp_c_check_destroy(thp_check *check);
uint32_t thp_c_check_read(thp_check *check, const uint8_t *part, size_t length);
uint32_t thp_c_check_finish(thp_check *check, uint64_t *line);
uint32_t thp_c_check_reason(thp_check *check, uint8_t *buffer, size_t capacity, size_t *size);
uint32_t thp_c_node_create(thp_node *node, uint32_t blocks, uint32_t order, uint32_t underused, bool counting);
uint32_t thp_c_node_destroy(thp_node *node);
uint32_t thp_c_node_alloc(thp_node *node, uint32_t caller, uint64_t *page);
uint32_t thp_c_node_map_whole(thp_node *node, uint32_t caller, uint64_t page);
uint32_t thp_c_node_unmap_whole(thp_node *node, uint32_t caller, uint64_t page, thp_done *done);
uint32_t thp_c_node_map_sub(thp_node *node, uint32_t caller, uint64_t page, uint32_t first, uint32_t count);
uint32_t thp_c_node_unmap_sub(thp_node *node, uint32_t caller, uint64_t page, uint32_t first, uint32_t count, thp_done *done);
uint32_t thp_c_node_split_pmd(thp_node *node, uint32_t caller, uint64_t page);
uint32_t thp_c_node_pin(thp_node *node, uint32_t caller, uint64_t page);
uint32_t thp_c_node_unpin(thp_node *node, uint32_t caller, uint64_t page, thp_done *done);
uint32_t thp_c_node_write(thp_node *node, uint32_t caller, uint64_t page, uint32_t first, uint32_t count);
uint32_t thp_c_node_zero(thp_node *node, uint32_t caller, uint64_t page, uint32_t first, uint32_t count);
uint32_t thp_c_node_close(thp_node *node, uint32_t caller);
uint32_t thp_c_node_scan(thp_node *node, uint32_t caller, uint32_t n, thp_scan *scan);
uint32_t thp_c_node_take(thp_node *node, uint32_t caller, uint32_t n, uint32_t *count);
uint32_t thp_c_node_split_next(thp_node *node, uint32_t caller, thp_tried *tried);
uint32_t thp_c_node_put_back(thp_node *node, uint32_t caller, thp_back *back);
uint32_t thp_c_node_abandon(thp_node *node, uint32_t caller);
uint32_t thp_c_node_reserve(thp_node *node, uint32_t events);
uint32_t thp_c_node_queue_length(thp_node *node, uint32_t *pages);
uint32_t thp_c_node_queue(thp_node *node, uint64_t *pages, size_t room, uint32_t *count);
uint32_t thp_c_node_page(thp_node *node, uint64_t page, thp_page_state *state);
uint32_t thp_c_node_mapcount(thp_node *node, uint64_t page, uint32_t subpage, uint32_t *own);
uint32_t thp_c_node_stats(thp_node *node, thp_stats *stats);
uint32_t thp_c_node_journal(thp_node *node, uint8_t *buffer, size_t capacity, size_t *size);
uint32_t thp_c_cell_create(thp_pass *pass, uint32_t blocks, uint32_t order, uint32_t underused, uint32_t callers, uint64_t mark,
                           bool counting);
uint32_t thp_c_cell_finish(thp_pass *pass, thp_node *node);
uint32_t thp_c_pass_destroy(thp_pass *pass);
uint32_t thp_c_pass_split(thp_pass *pass, uint32_t at, thp_pass *other);
uint32_t thp_c_pass_join(thp_pass *pass, thp_pass *other);
uint32_t thp_c_pass_callers(thp_pass *pass, uint32_t *first, uint32_t *end);
uint32_t thp_c_pass_alloc(thp_pass *pass, uint32_t caller, uint64_t *page);
uint32_t thp_c_pass_split_pmd(thp_pass *pass, uint32_t caller, uint64_t page);
uint32_t thp_c_pass_unmap_sub(thp_pass *pass, uint32_t caller, uint64_t page, uint32_t first, uint32_t count, thp_done *done);
uint32_t thp_c_pass_map_whole(thp_pass *pass, uint32_t caller, uint64_t page);
uint32_t thp_c_pass_map_sub(thp_pass *pass, uint32_t caller, uint64_t page, uint32_t first, uint32_t count);
uint32_t thp_c_pass_pin(thp_pass *pass, uint32_t caller, uint64_t page);
uint32_t thp_c_pass_write(thp_pass *pass, uint32_t caller, uint64_t page, uint32_t first, uint32_t count);
uint32_t thp_c_pass_zero(thp_pass *pass, uint32_t caller, uint64_t page, uint32_t first, uint32_t count);
uint32_t thp_c_pass_close(thp_pass *pass, uint32_t caller);
uint32_t thp_c_pass_unmap_whole(thp_pass *pass, uint32_t caller, uint64_t page, thp_done *done);
uint32_t thp_c_pass_unpin(thp_pass *pass, uint32_t caller, uint64_t page, thp_done *done);
uint32_t thp_c_pass_scan(thp_pass *pass, uint32_t caller, uint32_t n, thp_scan *scan);
uint32_t thp_c_pass_take(thp_pass *pass, uint32_t caller, uint32_t n, uint32_t *count);
uint32_t thp_c_pass_split_next(thp_pass *pass, uint32_t caller, thp_tried *tried);
uint32_t thp_c_pass_put_back(thp_pass *pass, uint32_t caller, thp_back *back);
uint32_t thp_c_pass_abandon(thp_pass *pass, uint32_t caller);
uint32_t thp_c_pass_count(thp_pass *pass, uint32_t *pages);

/* the proved functions have structs of the same layout */
_Static_assert(sizeof(thp_node) == 16 && offsetof(thp_node, live) == 8, "a handle is a pointer and a mark");
_Static_assert(sizeof(thp_pass) == 16 && offsetof(thp_pass, live) == 8, "a handle is a pointer and a mark");
_Static_assert(sizeof(thp_check) == 16 && offsetof(thp_check, live) == 8, "a handle is a pointer and a mark");
_Static_assert(sizeof(thp_done) == 72 && offsetof(thp_done, released) == 8, "an outcome and eight words");
_Static_assert(sizeof(thp_scan) == 24, "six numbers of 32 bits");
_Static_assert(sizeof(thp_tried) == 16 && offsetof(thp_tried, page) == 8, "a kind and a page");
_Static_assert(sizeof(thp_back) == 8, "two numbers of 32 bits");
_Static_assert(sizeof(thp_stats) == 80, "ten numbers of 64 bits");
_Static_assert(sizeof(thp_page_state) == 24, "six numbers of 32 bits");
_Static_assert(sizeof(thp_code) == sizeof(uint32_t), "a code is a number of 32 bits");

/* the addresses of an empty range of bytes, and of pages, whose pointer is null */
static uint8_t no_bytes;
static uint64_t no_pages;

thp_code thp_check_text(const void *text, size_t length, uint32_t *line) {
    if ((text == NULL && length != 0) || line == NULL) return THP_NULL;
    return (thp_code)thp_c_check_text(text != NULL ? text : &no_bytes, length, line);
}

thp_code thp_check_create(thp_check *check) {
    if (check == NULL) return THP_NULL;
    return (thp_code)thp_c_check_create(check);
}

thp_code thp_check_destroy(thp_check *check) {
    if (check == NULL) return THP_NULL;
    return (thp_code)thp_c_check_destroy(check);
}

thp_code thp_check_read(thp_check *check, const void *part, size_t length) {
    if (check == NULL || (part == NULL && length != 0)) return THP_NULL;
    return (thp_code)thp_c_check_read(check, part != NULL ? part : &no_bytes, length);
}

thp_code thp_check_finish(thp_check *check, uint64_t *line) {
    if (check == NULL || line == NULL) return THP_NULL;
    return (thp_code)thp_c_check_finish(check, line);
}

thp_code thp_check_reason(thp_check *check, void *buffer, size_t capacity, size_t *size) {
    if (check == NULL || (buffer == NULL && capacity != 0) || size == NULL) return THP_NULL;
    return (thp_code)thp_c_check_reason(check, buffer != NULL ? buffer : &no_bytes, capacity, size);
}

thp_code thp_node_create(thp_node *node, uint32_t blocks, uint32_t order, uint32_t underused) {
    if (node == NULL) return THP_NULL;
    return (thp_code)thp_c_node_create(node, blocks, order, underused, false);
}

thp_code thp_node_create_counting(thp_node *node, uint32_t blocks, uint32_t order, uint32_t underused) {
    if (node == NULL) return THP_NULL;
    return (thp_code)thp_c_node_create(node, blocks, order, underused, true);
}

thp_code thp_node_destroy(thp_node *node) {
    if (node == NULL) return THP_NULL;
    return (thp_code)thp_c_node_destroy(node);
}

thp_code thp_node_alloc(thp_node *node, uint32_t caller, uint64_t *page) {
    if (node == NULL || page == NULL) return THP_NULL;
    return (thp_code)thp_c_node_alloc(node, caller, page);
}

thp_code thp_node_map_whole(thp_node *node, uint32_t caller, uint64_t page) {
    if (node == NULL) return THP_NULL;
    return (thp_code)thp_c_node_map_whole(node, caller, page);
}

thp_code thp_node_unmap_whole(thp_node *node, uint32_t caller, uint64_t page, thp_done *done) {
    if (node == NULL || done == NULL) return THP_NULL;
    return (thp_code)thp_c_node_unmap_whole(node, caller, page, done);
}

thp_code thp_node_map_sub(thp_node *node, uint32_t caller, uint64_t page, uint32_t first, uint32_t count) {
    if (node == NULL) return THP_NULL;
    return (thp_code)thp_c_node_map_sub(node, caller, page, first, count);
}

thp_code thp_node_unmap_sub(thp_node *node, uint32_t caller, uint64_t page, uint32_t first, uint32_t count, thp_done *done) {
    if (node == NULL || done == NULL) return THP_NULL;
    return (thp_code)thp_c_node_unmap_sub(node, caller, page, first, count, done);
}

thp_code thp_node_split_pmd(thp_node *node, uint32_t caller, uint64_t page) {
    if (node == NULL) return THP_NULL;
    return (thp_code)thp_c_node_split_pmd(node, caller, page);
}

thp_code thp_node_pin(thp_node *node, uint32_t caller, uint64_t page) {
    if (node == NULL) return THP_NULL;
    return (thp_code)thp_c_node_pin(node, caller, page);
}

thp_code thp_node_unpin(thp_node *node, uint32_t caller, uint64_t page, thp_done *done) {
    if (node == NULL || done == NULL) return THP_NULL;
    return (thp_code)thp_c_node_unpin(node, caller, page, done);
}

thp_code thp_node_write(thp_node *node, uint32_t caller, uint64_t page, uint32_t first, uint32_t count) {
    if (node == NULL) return THP_NULL;
    return (thp_code)thp_c_node_write(node, caller, page, first, count);
}

thp_code thp_node_zero(thp_node *node, uint32_t caller, uint64_t page, uint32_t first, uint32_t count) {
    if (node == NULL) return THP_NULL;
    return (thp_code)thp_c_node_zero(node, caller, page, first, count);
}

thp_code thp_node_close(thp_node *node, uint32_t caller) {
    if (node == NULL) return THP_NULL;
    return (thp_code)thp_c_node_close(node, caller);
}

thp_code thp_node_scan(thp_node *node, uint32_t caller, uint32_t n, thp_scan *scan) {
    if (node == NULL || scan == NULL) return THP_NULL;
    return (thp_code)thp_c_node_scan(node, caller, n, scan);
}

thp_code thp_node_take(thp_node *node, uint32_t caller, uint32_t n, uint32_t *count) {
    if (node == NULL || count == NULL) return THP_NULL;
    return (thp_code)thp_c_node_take(node, caller, n, count);
}

thp_code thp_node_split_next(thp_node *node, uint32_t caller, thp_tried *tried) {
    if (node == NULL || tried == NULL) return THP_NULL;
    return (thp_code)thp_c_node_split_next(node, caller, tried);
}

thp_code thp_node_put_back(thp_node *node, uint32_t caller, thp_back *back) {
    if (node == NULL || back == NULL) return THP_NULL;
    return (thp_code)thp_c_node_put_back(node, caller, back);
}

thp_code thp_node_abandon(thp_node *node, uint32_t caller) {
    if (node == NULL) return THP_NULL;
    return (thp_code)thp_c_node_abandon(node, caller);
}

thp_code thp_node_reserve(thp_node *node, uint32_t events) {
    if (node == NULL) return THP_NULL;
    return (thp_code)thp_c_node_reserve(node, events);
}

/* The proved readers take what they read out of the handle and put it back in the same place. They work on a copy, so a const handle
   is never written. */

thp_code thp_node_queue_length(const thp_node *node, uint32_t *pages) {
    if (node == NULL || pages == NULL) return THP_NULL;
    thp_node copy = *node;
    return (thp_code)thp_c_node_queue_length(&copy, pages);
}

thp_code thp_node_queue(const thp_node *node, uint64_t *pages, size_t room, uint32_t *count) {
    if (node == NULL || (pages == NULL && room != 0) || count == NULL) return THP_NULL;
    thp_node copy = *node;
    return (thp_code)thp_c_node_queue(&copy, pages != NULL ? pages : &no_pages, room, count);
}

thp_code thp_node_page(const thp_node *node, uint64_t page, thp_page_state *state) {
    if (node == NULL || state == NULL) return THP_NULL;
    thp_node copy = *node;
    return (thp_code)thp_c_node_page(&copy, page, state);
}

thp_code thp_node_mapcount(const thp_node *node, uint64_t page, uint32_t subpage, uint32_t *own) {
    if (node == NULL || own == NULL) return THP_NULL;
    thp_node copy = *node;
    return (thp_code)thp_c_node_mapcount(&copy, page, subpage, own);
}

thp_code thp_node_stats(const thp_node *node, thp_stats *stats) {
    if (node == NULL || stats == NULL) return THP_NULL;
    thp_node copy = *node;
    return (thp_code)thp_c_node_stats(&copy, stats);
}

thp_code thp_node_journal(const thp_node *node, void *buffer, size_t capacity, size_t *size) {
    if (node == NULL || (buffer == NULL && capacity != 0) || size == NULL) return THP_NULL;
    thp_node copy = *node;
    return (thp_code)thp_c_node_journal(&copy, buffer != NULL ? buffer : &no_bytes, capacity, size);
}

/* ---- shared nodes */

/* the mark of the next cell: unique within a process, so it distinguishes passes of different cells */
static uint64_t next_mark = 0;

thp_code thp_cell_create(thp_pass *pass, uint32_t blocks, uint32_t order, uint32_t underused, uint32_t callers) {
    if (pass == NULL) return THP_NULL;
    const uint64_t mark = __atomic_fetch_add(&next_mark, 1, __ATOMIC_RELAXED);
    return (thp_code)thp_c_cell_create(pass, blocks, order, underused, callers, mark, false);
}

thp_code thp_cell_create_counting(thp_pass *pass, uint32_t blocks, uint32_t order, uint32_t underused, uint32_t callers) {
    if (pass == NULL) return THP_NULL;
    const uint64_t mark = __atomic_fetch_add(&next_mark, 1, __ATOMIC_RELAXED);
    return (thp_code)thp_c_cell_create(pass, blocks, order, underused, callers, mark, true);
}

thp_code thp_cell_finish(thp_pass *pass, thp_node *node) {
    if (pass == NULL || node == NULL) return THP_NULL;
    return (thp_code)thp_c_cell_finish(pass, node);
}

thp_code thp_pass_destroy(thp_pass *pass) {
    if (pass == NULL) return THP_NULL;
    return (thp_code)thp_c_pass_destroy(pass);
}

thp_code thp_pass_split(thp_pass *pass, uint32_t at, thp_pass *other) {
    if (pass == NULL || other == NULL) return THP_NULL;
    if (pass == other) return THP_IN_USE;
    return (thp_code)thp_c_pass_split(pass, at, other);
}

thp_code thp_pass_join(thp_pass *pass, thp_pass *other) {
    if (pass == NULL || other == NULL) return THP_NULL;
    if (pass == other) return THP_BAD_PASS;
    return (thp_code)thp_c_pass_join(pass, other);
}

thp_code thp_pass_callers(const thp_pass *pass, uint32_t *first, uint32_t *end) {
    if (pass == NULL || first == NULL || end == NULL) return THP_NULL;
    thp_pass copy = *pass;
    return (thp_code)thp_c_pass_callers(&copy, first, end);
}

thp_code thp_pass_alloc(thp_pass *pass, uint32_t caller, uint64_t *page) {
    if (pass == NULL || page == NULL) return THP_NULL;
    return (thp_code)thp_c_pass_alloc(pass, caller, page);
}

thp_code thp_pass_split_pmd(thp_pass *pass, uint32_t caller, uint64_t page) {
    if (pass == NULL) return THP_NULL;
    return (thp_code)thp_c_pass_split_pmd(pass, caller, page);
}

thp_code thp_pass_unmap_sub(thp_pass *pass, uint32_t caller, uint64_t page, uint32_t first, uint32_t count, thp_done *done) {
    if (pass == NULL || done == NULL) return THP_NULL;
    return (thp_code)thp_c_pass_unmap_sub(pass, caller, page, first, count, done);
}

thp_code thp_pass_map_whole(thp_pass *pass, uint32_t caller, uint64_t page) {
    if (pass == NULL) return THP_NULL;
    return (thp_code)thp_c_pass_map_whole(pass, caller, page);
}

thp_code thp_pass_map_sub(thp_pass *pass, uint32_t caller, uint64_t page, uint32_t first, uint32_t count) {
    if (pass == NULL) return THP_NULL;
    return (thp_code)thp_c_pass_map_sub(pass, caller, page, first, count);
}

thp_code thp_pass_pin(thp_pass *pass, uint32_t caller, uint64_t page) {
    if (pass == NULL) return THP_NULL;
    return (thp_code)thp_c_pass_pin(pass, caller, page);
}

thp_code thp_pass_write(thp_pass *pass, uint32_t caller, uint64_t page, uint32_t first, uint32_t count) {
    if (pass == NULL) return THP_NULL;
    return (thp_code)thp_c_pass_write(pass, caller, page, first, count);
}

thp_code thp_pass_zero(thp_pass *pass, uint32_t caller, uint64_t page, uint32_t first, uint32_t count) {
    if (pass == NULL) return THP_NULL;
    return (thp_code)thp_c_pass_zero(pass, caller, page, first, count);
}

thp_code thp_pass_close(thp_pass *pass, uint32_t caller) {
    if (pass == NULL) return THP_NULL;
    return (thp_code)thp_c_pass_close(pass, caller);
}

thp_code thp_pass_unmap_whole(thp_pass *pass, uint32_t caller, uint64_t page, thp_done *done) {
    if (pass == NULL || done == NULL) return THP_NULL;
    return (thp_code)thp_c_pass_unmap_whole(pass, caller, page, done);
}

thp_code thp_pass_unpin(thp_pass *pass, uint32_t caller, uint64_t page, thp_done *done) {
    if (pass == NULL || done == NULL) return THP_NULL;
    return (thp_code)thp_c_pass_unpin(pass, caller, page, done);
}

thp_code thp_pass_scan(thp_pass *pass, uint32_t caller, uint32_t n, thp_scan *scan) {
    if (pass == NULL || scan == NULL) return THP_NULL;
    return (thp_code)thp_c_pass_scan(pass, caller, n, scan);
}

thp_code thp_pass_take(thp_pass *pass, uint32_t caller, uint32_t n, uint32_t *count) {
    if (pass == NULL || count == NULL) return THP_NULL;
    return (thp_code)thp_c_pass_take(pass, caller, n, count);
}

thp_code thp_pass_split_next(thp_pass *pass, uint32_t caller, thp_tried *tried) {
    if (pass == NULL || tried == NULL) return THP_NULL;
    return (thp_code)thp_c_pass_split_next(pass, caller, tried);
}

thp_code thp_pass_put_back(thp_pass *pass, uint32_t caller, thp_back *back) {
    if (pass == NULL || back == NULL) return THP_NULL;
    return (thp_code)thp_c_pass_put_back(pass, caller, back);
}

thp_code thp_pass_abandon(thp_pass *pass, uint32_t caller) {
    if (pass == NULL) return THP_NULL;
    return (thp_code)thp_c_pass_abandon(pass, caller);
}

thp_code thp_pass_count(thp_pass *pass, uint32_t *pages) {
    if (pass == NULL || pages == NULL) return THP_NULL;
    return (thp_code)thp_c_pass_count(pass, pages);
}
