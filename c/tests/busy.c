/* What the calls of a pass answer while another pass has the node, for certain: the other's call stands in the midst of its
   request for memory, and goes on once these calls are made. */
#include "wanted.h"

#include <pthread.h>

static pthread_mutex_t lock = PTHREAD_MUTEX_INITIALIZER;
static pthread_cond_t turned = PTHREAD_COND_INITIALIZER;
static enum turn { QUIET, AWAITED, STANDS, GOES_ON } turn = QUIET;

static void turn_to(enum turn next) {
    pthread_mutex_lock(&lock);
    turn = next;
    pthread_cond_broadcast(&turned);
    pthread_mutex_unlock(&lock);
}

static void wait_for(enum turn wanted) {
    pthread_mutex_lock(&lock);
    while (turn != wanted) pthread_cond_wait(&turned, &lock);
    pthread_mutex_unlock(&lock);
}

/* the first request once it is awaited: it stands until the others' calls are made */
static void stand(void) {
    pthread_mutex_lock(&lock);
    const int is_awaited = turn == AWAITED;
    pthread_mutex_unlock(&lock);
    if (!is_awaited) return;
    turn_to(STANDS);
    wait_for(GOES_ON);
}

static void *allocate(size_t size) {
    stand();
    return malloc(size);
}

static void *resize(void *memory, size_t size) {
    stand();
    return realloc(memory, size);
}

static thp_pass holder = THP_PASS_INIT, other = THP_PASS_INIT;

/* pins page 0, until a call asked for memory for its event */
static void *pins(void *unused) {
    enum turn now = AWAITED;
    turn_to(AWAITED);
    while (now == AWAITED) {
        ANSWERS(thp_pass_pin(&holder, 0, 0), THP_OK);
        pthread_mutex_lock(&lock);
        now = turn;
        pthread_mutex_unlock(&lock);
    }
    return unused;
}

static void all_are_busy(void) {
    uint64_t page = 7;
    uint32_t count = 7;
    thp_done done = {7, {7, 7, 7, 7, 7, 7, 7, 7}};
    thp_scan scan = {7, 7, 7, 7, 7, 7};
    thp_tried tried = {7, 7};
    thp_back back = {7, 7};
    ANSWERS(thp_pass_alloc(&other, 1, &page), THP_BUSY);
    ANSWERS(thp_pass_split_pmd(&other, 1, 0), THP_BUSY);
    ANSWERS(thp_pass_unmap_sub(&other, 1, 0, 0, 1, &done), THP_BUSY);
    ANSWERS(thp_pass_map_whole(&other, 1, 0), THP_BUSY);
    ANSWERS(thp_pass_unmap_whole(&other, 1, 0, &done), THP_BUSY);
    ANSWERS(thp_pass_map_sub(&other, 1, 0, 0, 1), THP_BUSY);
    ANSWERS(thp_pass_pin(&other, 1, 0), THP_BUSY);
    ANSWERS(thp_pass_unpin(&other, 1, 0, &done), THP_BUSY);
    ANSWERS(thp_pass_write(&other, 1, 0, 0, 1), THP_BUSY);
    ANSWERS(thp_pass_zero(&other, 1, 0, 0, 1), THP_BUSY);
    ANSWERS(thp_pass_close(&other, 1), THP_BUSY);
    ANSWERS(thp_pass_scan(&other, 2, 1, &scan), THP_BUSY);
    ANSWERS(thp_pass_take(&other, 2, 1, &count), THP_BUSY);
    ANSWERS(thp_pass_split_next(&other, 1, &tried), THP_BUSY);
    ANSWERS(thp_pass_put_back(&other, 1, &back), THP_BUSY);
    WANT(page == 7 && count == 7 && done.outcome == 7 && done.released[7] == 7);
    WANT(scan.taken == 7 && tried.page == 7 && back.back == 7);
}

/* what needs no node, and refusals that are found before it */
static void others_go_on(void) {
    thp_pass third = THP_PASS_INIT;
    uint32_t pages = 7;
    thp_tried tried;
    ANSWERS(thp_pass_count(&other, &pages), THP_OK);
    WANT(pages == 1);
    ANSWERS(thp_pass_take(&other, 1, 1, &pages), THP_BATCH_OPEN);
    ANSWERS(thp_pass_take(&other, 2, 129, &pages), THP_BAD_COUNT);
    ANSWERS(thp_pass_split_next(&other, 2, &tried), THP_NO_BATCH);
    ANSWERS(thp_pass_pin(&other, 0, 0), THP_BAD_CALLER);
    ANSWERS(thp_pass_split(&other, 2, &third), THP_OK);
    ANSWERS(thp_pass_pin(&third, 2, 0), THP_BUSY);
    ANSWERS(thp_pass_join(&other, &third), THP_OK);
}

/* two pages that are partly mapped: caller 1 has the first in its batch, and the second is queued */
static void make_cell(void) {
    uint64_t page;
    uint32_t count;
    thp_done done;
    ANSWERS(thp_cell_create(&holder, 4, 2, THP_UNDERUSED_OFF, 3), THP_OK);
    for (uint32_t k = 0; k < 2; k++) {
        ANSWERS(thp_pass_alloc(&holder, 0, &page), THP_OK);
        ANSWERS(thp_pass_split_pmd(&holder, 0, page), THP_OK);
        ANSWERS(thp_pass_unmap_sub(&holder, 0, page, 0, 2, &done), THP_OK);
    }
    ANSWERS(thp_pass_split(&holder, 1, &other), THP_OK);
    ANSWERS(thp_pass_take(&other, 1, 1, &count), THP_OK);
    WANT(count == 1);
}

/* the batch is as it was before, and the journal has no event of the calls that were refused */
static void end_cell(void) {
    thp_node node = THP_NODE_INIT;
    thp_stats stats;
    thp_tried tried;
    thp_back back;
    ANSWERS(thp_pass_split_next(&other, 1, &tried), THP_OK);
    WANT(tried.kind == THP_TRY_PINNED && tried.page == 0);
    ANSWERS(thp_pass_put_back(&other, 1, &back), THP_OK);
    WANT(back.back == 1 && back.dropped == 0);
    ANSWERS(thp_pass_join(&holder, &other), THP_OK);
    ANSWERS(thp_cell_finish(&holder, &node), THP_OK);
    ANSWERS(thp_node_stats(&node, &stats), THP_OK);
    WANT(stats.allocations == 2 && stats.queued == 2 && stats.split_page == 0 && stats.split_page_failed == 1);
    ANSWERS(thp_node_destroy(&node), THP_OK);
}

int main(void) {
    static const thp_allocator standing = {allocate, resize, free};
    pthread_t thread;
    ANSWERS(thp_use_allocator(&standing), THP_OK);
    make_cell();
    if (pthread_create(&thread, NULL, pins, NULL) != 0) return 1;
    wait_for(STANDS);
    all_are_busy();
    others_go_on();
    turn_to(GOES_ON);
    pthread_join(thread, NULL);
    end_cell();
    if (failures == 0) printf("busy: done\n");
    return failures != 0;
}
