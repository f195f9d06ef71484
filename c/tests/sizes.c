/* Sizes at which nothing may fail: long journals, long parts of a text, long reasons, each number of callers, passes divided twice. */
#include "wanted.h"

enum { MEBIBYTE = 1 << 20 };

/* Makes so many pins and unpins of page 0 that the journal has more than 1 MiB. */
static void fill(thp_node *node) {
    thp_done done;
    ANSWERS(thp_node_create(node, 1, 9, THP_UNDERUSED_OFF), THP_OK);
    uint64_t page = 7;
    ANSWERS(thp_node_alloc(node, 0, &page), THP_OK);
    WANT(page == 0);
    for (int k = 0; k < 140000; k++) {
        if (thp_node_pin(node, 0, page) != THP_OK || thp_node_unpin(node, 0, page, &done) != THP_OK) failures++;
    }
}

/* A journal of more than 1 MiB is written whole, and read in one part. */
static void long_journal(void) {
    thp_node node = THP_NODE_INIT;
    thp_check check = THP_CHECK_INIT;
    size_t size = 0, written = 0;
    uint64_t line = 7;
    fill(&node);
    ANSWERS(thp_node_journal(&node, NULL, 0, &size), THP_TOO_SMALL);
    WANT(size > MEBIBYTE);
    uint8_t *text = (uint8_t *)malloc(size);
    ANSWERS(thp_node_journal(&node, text, size, &written), THP_OK);
    WANT(written == size);
    ANSWERS(thp_check_create(&check), THP_OK);
    ANSWERS(thp_check_read(&check, text, size), THP_OK);
    ANSWERS(thp_check_finish(&check, &line), THP_OK);
    ANSWERS(thp_check_destroy(&check), THP_OK);
    ANSWERS(thp_node_destroy(&node), THP_OK);
    free(text);
}

/* The reason for a split whose set has every other subpage has more than 1,024 bytes. */
static void long_reason(void) {
    enum { ROOM = 1 << 14 };
    static char text[ROOM], reason[ROOM];
    thp_check check = THP_CHECK_INIT;
    uint64_t line = 7;
    size_t size = 0;
    int at = snprintf(text, ROOM, "thp-journal 1\nnode 0 blocks 1\n0 alloc 0\n0 splitpmd 0\n");
    for (int k = 0; k < 512; k += 2) {
        at += snprintf(text + at, (size_t)(ROOM - at), "0 unmapsub 0 %d 1 %s -\n", k, k == 0 ? "queued" : "stays");
    }
    at += snprintf(text + at, (size_t)(ROOM - at), "0 taken 0\n0 split 0 -\nend\n");
    WANT(at < ROOM);
    ANSWERS(thp_check_create(&check), THP_OK);
    ANSWERS(thp_check_read(&check, (const uint8_t *)text, (size_t)at), THP_OK);
    ANSWERS(thp_check_finish(&check, &line), THP_ILLEGAL);
    WANT(line == 262);
    ANSWERS(thp_check_reason(&check, reason, ROOM, &size), THP_OK);
    WANT(size > 1024);
    ANSWERS(thp_check_destroy(&check), THP_OK);
}

/* Cells of 64 callers, which store or count their events, are divided again and again: each upper pass at its middle. */
static void many_callers(void) {
    static const thp_pass EMPTY = THP_PASS_INIT;
    for (int is_counting = 0; is_counting < 2; is_counting++) {
        thp_pass passes[7];
        thp_node node = THP_NODE_INIT;
        int count = 1;
        for (int k = 0; k < 7; k++) passes[k] = EMPTY;
        ANSWERS((is_counting ? thp_cell_create_counting : thp_cell_create)(passes, 4, 9, THP_UNDERUSED_OFF, 64), THP_OK);
        for (uint32_t at = 32; at < 64; at = (at + 64) / 2) {
            ANSWERS(thp_pass_split(passes + count - 1, at, passes + count), THP_OK);
            count++;
            if (at == 63) break;
        }
        WANT(count == 7);
        for (int k = 0; k < 4; k++) {
            uint64_t page = 7;
            ANSWERS(thp_pass_alloc(passes + 6, 63, &page), THP_OK);
            WANT(page == (uint64_t)k);
        }
        while (--count > 0) ANSWERS(thp_pass_join(passes + count - 1, passes + count), THP_OK);
        ANSWERS(thp_cell_finish(passes, &node), THP_OK);
        ANSWERS(thp_node_destroy(&node), THP_OK);
    }
}

/* A cell of each number of callers, which stores or counts its events: its last caller's pass is divided off, joined, and the cell ends. */
static void each_number_of_callers(void) {
    static const thp_pass EMPTY = THP_PASS_INIT;
    for (uint32_t of = 0; of < 2 * THP_MAX_CALLERS; of++) {
        const uint32_t callers = of / 2 + 1;
        thp_pass pass = EMPTY, last = EMPTY;
        thp_node node = THP_NODE_INIT;
        uint64_t page = 7;
        thp_stats stats;
        ANSWERS((of % 2 ? thp_cell_create_counting : thp_cell_create)(&pass, 2, 2, THP_UNDERUSED_OFF, callers), THP_OK);
        ANSWERS(thp_pass_alloc(&pass, callers - 1, &page), THP_OK);
        if (callers > 1) {
            ANSWERS(thp_pass_split(&pass, callers - 1, &last), THP_OK);
            ANSWERS(thp_pass_alloc(&last, callers - 1, &page), THP_OK);
            ANSWERS(thp_pass_join(&pass, &last), THP_OK);
        }
        ANSWERS(thp_cell_finish(&pass, &node), THP_OK);
        ANSWERS(thp_node_stats(&node, &stats), THP_OK);
        WANT(stats.allocations == (callers > 1 ? 2 : 1));
        ANSWERS(thp_node_destroy(&node), THP_OK);
    }
}

int main(void) {
    long_journal();
    long_reason();
    many_callers();
    each_number_of_callers();
    if (failures == 0) printf("sizes: done\n");
    return failures != 0;
}
