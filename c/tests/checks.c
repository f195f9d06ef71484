/* The check of a text that comes in parts: each call and each code, whatever the parts; each request for memory refused in turn. */
#include "wanted.h"

static const thp_check EMPTY = THP_CHECK_INIT;

static size_t requests, refused_request;
static long blocks;

static int is_refused(void) { return ++requests == refused_request; }

static void *allocate(size_t size) {
    void *memory = is_refused() ? NULL : malloc(size);
    if (memory != NULL) blocks++;
    return memory;
}

static void *resize(void *memory, size_t size) { return is_refused() ? NULL : realloc(memory, size); }

static void give_back(void *memory) {
    free(memory);
    blocks--;
}

/* the whole text, in parts of so many bytes; what a read answers that isn't done */
static thp_code read_in_parts(thp_check *check, const char *text, size_t length, size_t most) {
    for (size_t at = 0; at < length; at += most) {
        const size_t left = length - at;
        const thp_code code = thp_check_read(check, (const uint8_t *)text + at, left < most ? left : most);
        if (code != THP_OK) return code;
    }
    return THP_OK;
}

/* the verdict on a text, whatever its parts, and that of the check of whole texts is the same */
static void answers_text(const char *text, thp_code code, uint32_t at) {
    const size_t length = strlen(text);
    uint32_t short_line = 7;
    ANSWERS(thp_check_text((const uint8_t *)text, length, &short_line), code);
    WANT(short_line == at);
    for (size_t most = 1; most <= length + 1; most++) {
        thp_check check = EMPTY;
        uint64_t line = 7;
        size_t size = 7;
        ANSWERS(thp_check_create(&check), THP_OK);
        ANSWERS(read_in_parts(&check, text, length, most), THP_OK);
        ANSWERS(thp_check_reason(&check, NULL, 0, &size), THP_NO_REASON);
        WANT(size == 7);
        for (int times = 0; times < 2; times++) {
            line = 7;
            ANSWERS(thp_check_finish(&check, &line), code);
            WANT(line == at);
        }
        ANSWERS(thp_check_read(&check, (const uint8_t *)text, length), THP_FINISHED);
        ANSWERS(thp_check_reason(&check, NULL, 0, &size), code == THP_ILLEGAL ? THP_TOO_SMALL : THP_NO_REASON);
        ANSWERS(thp_check_destroy(&check), THP_OK);
    }
}

static void texts(void) {
    answers_text("thp-journal 1\nnode 0 blocks 1\nend\n", THP_OK, 0);
    answers_text("thp-journal 1\nnode 0 blocks 1\n0 alloc 0\nnode 1 blocks 2\n5 alloc 0\n5 pin 0\nend\n", THP_OK, 0);
    answers_text("thp-journal 1\nnode 0 blocks 1\n0 alloc 1\nend\n", THP_ILLEGAL, 3);
    answers_text("thp-journal 1\nnode 0 blocks 1\n0 alloc 0\nnode 1 blocks 2\n5 pin 0\n5 alloc 1\nend\n", THP_ILLEGAL, 5);
    answers_text("thp-journal 1\nnode 0\tblocks 1\nend\n", THP_TEXT_BAD_BYTE, 2);
    answers_text("thp-journal 1\nend", THP_TEXT_CUT, 2);
    answers_text("thp-journal 1\nnode 0 blocks 1\n0 free 0\nend\n", THP_TEXT_BAD_WORD, 3);
    answers_text("thp-journal 1\nnode 0 blocks 1\n0 alloc\nend\n", THP_TEXT_BAD_COUNT, 3);
    answers_text("thp-journal 1\nnode 0 blocks 4097\nend\n", THP_TEXT_BAD_NUMBER, 2);
    answers_text("thp-journal 1\nnode 0 blocks 1\n0 split 0 1,2\nend\n", THP_TEXT_BAD_SET, 3);
    answers_text("thp-journal 1\n0 alloc 0\nend\n", THP_TEXT_BAD_ORDER, 2);
    answers_text("", THP_TEXT_CUT, 1);
}

/* the reason goes to a buffer of its length, and to no shorter one; nothing is written behind it */
static void reasons(void) {
    static const char text[] = "thp-journal 1\nnode 0 blocks 1\n0 alloc 1\nend\n";
    static const char reason[] = "line 3: 0 alloc 1\nexpected: 0 alloc 0\nwhy: the next page number is 0\n";
    const size_t length = sizeof reason - 1;
    thp_check check = EMPTY;
    uint64_t line;
    size_t size = 0;
    uint8_t buffer[128];
    ANSWERS(thp_check_create(&check), THP_OK);
    ANSWERS(read_in_parts(&check, text, sizeof text - 1, 5), THP_OK);
    ANSWERS(thp_check_finish(&check, &line), THP_ILLEGAL);
    ANSWERS(thp_check_reason(&check, NULL, 0, &size), THP_TOO_SMALL);
    WANT(size == length);
    memset(buffer, '#', sizeof buffer);
    ANSWERS(thp_check_reason(&check, buffer, length - 1, &size), THP_TOO_SMALL);
    WANT(size == length && buffer[0] == '#');
    for (int times = 0; times < 2; times++) {
        ANSWERS(thp_check_reason(&check, buffer, times == 0 ? length : sizeof buffer, &size), THP_OK);
        WANT(size == length && memcmp(buffer, reason, length) == 0 && buffer[length] == '#');
    }
    ANSWERS(thp_check_destroy(&check), THP_OK);
}

static void handles(void) {
    thp_check check = EMPTY;
    uint64_t line = 7;
    size_t size = 7;
    uint8_t byte = 7;
    ANSWERS(thp_check_destroy(&check), THP_EMPTY);
    ANSWERS(thp_check_read(&check, &byte, 1), THP_EMPTY);
    ANSWERS(thp_check_finish(&check, &line), THP_EMPTY);
    ANSWERS(thp_check_reason(&check, &byte, 1, &size), THP_EMPTY);
    WANT(line == 7 && size == 7 && byte == 7 && check.at == NULL && check.live == 0);
    ANSWERS(thp_check_create(NULL), THP_NULL);
    ANSWERS(thp_check_destroy(NULL), THP_NULL);
    ANSWERS(thp_check_read(NULL, &byte, 1), THP_NULL);
    ANSWERS(thp_check_finish(NULL, &line), THP_NULL);
    ANSWERS(thp_check_reason(NULL, &byte, 1, &size), THP_NULL);
    ANSWERS(thp_check_create(&check), THP_OK);
    ANSWERS(thp_check_create(&check), THP_IN_USE);
    ANSWERS(thp_check_read(&check, NULL, 1), THP_NULL);
    ANSWERS(thp_check_read(&check, NULL, 0), THP_OK);
    ANSWERS(thp_check_finish(&check, NULL), THP_NULL);
    ANSWERS(thp_check_reason(&check, NULL, 1, &size), THP_NULL);
    ANSWERS(thp_check_reason(&check, &byte, 1, NULL), THP_NULL);
    ANSWERS(thp_check_finish(&check, &line), THP_TEXT_CUT);
    WANT(line == 1 && size == 7 && byte == 7);
    ANSWERS(thp_check_destroy(&check), THP_OK);
    ANSWERS(thp_check_destroy(&check), THP_EMPTY);
}

/* a journal longer than what the check of whole texts takes: 24 MB of pins, of which the last doesn't fit */
static void long_text(void) {
    static const char front[] = "thp-journal 1\nnode 0 blocks 1\n0 alloc 0\n", back[] = "0 unpin 0 stays -\n0 unpin 0 stays -\nend\n";
    static char pairs[26 * 4096];
    static const char pair[] = "0 pin 0\n0 unpin 0 stays -\n";
    enum { TIMES = 230 };
    thp_check check = EMPTY;
    uint64_t line = 7;
    size_t size = 0;
    for (int k = 0; k < 4096; k++) memcpy(pairs + 26 * k, pair, 26);
    ANSWERS(thp_check_create(&check), THP_OK);
    ANSWERS(read_in_parts(&check, front, sizeof front - 1, 64), THP_OK);
    for (int k = 0; k < TIMES; k++) ANSWERS(read_in_parts(&check, pairs, sizeof pairs, sizeof pairs), THP_OK);
    ANSWERS(read_in_parts(&check, back, sizeof back - 1, 64), THP_OK);
    ANSWERS(thp_check_finish(&check, &line), THP_ILLEGAL);
    WANT(line == 3 + 2 * 4096 * (uint64_t)TIMES + 1);
    ANSWERS(thp_check_reason(&check, NULL, 0, &size), THP_TOO_SMALL);
    WANT(size > 0);
    ANSWERS(thp_check_destroy(&check), THP_OK);
}

/* a whole check with each request refused in turn: what is lost for want of memory is reported, and is given back */
static void refused(void) {
    static const char text[] =
        "thp-journal 3\nnode 0 blocks 16 order 4 underused 3\n0 alloc 0\n0 splitpmd 0\n1 write 0 0 3\nnode 1 blocks 2 order 2 underused off\n"
        "7 alloc 0\n7 unpin 0 stays -\nend\n";
    size_t all = 1;
    for (size_t k = 0; k <= all; k++) {
        thp_check check = EMPTY;
        uint64_t line = 0;
        size_t size;
        uint8_t reason[256];
        int lost = 0;
        requests = 0;
        refused_request = k;
        while (thp_check_create(&check) != THP_OK) WANT(lost++ == 0 && check.at == NULL);
        while (read_in_parts(&check, text, sizeof text - 1, 9) == THP_OUT_OF_MEMORY) {
            WANT(lost++ == 0 && check.at == NULL && check.live == 0 && blocks == 0);
            ANSWERS(thp_check_read(&check, (const uint8_t *)text, 1), THP_EMPTY);
            ANSWERS(thp_check_create(&check), THP_OK);
        }
        ANSWERS(thp_check_finish(&check, &line), THP_ILLEGAL);
        WANT(line == 8);
        thp_code reported = thp_check_reason(&check, reason, sizeof reason, &size);
        if (reported == THP_OUT_OF_MEMORY) {
            WANT(lost++ == 0);
            reported = thp_check_reason(&check, reason, sizeof reason, &size);
        }
        WANT(reported == THP_OK && size > 0 && memcmp(reason, "line 8: 7 unpin 0 stays -\n", 26) == 0);
        ANSWERS(thp_check_destroy(&check), THP_OK);
        WANT(blocks == 0);
        WANT(lost == (k > 0));
        if (k == 0) all = requests;
    }
    WANT(all > 3);
    refused_request = 0;
}

int main(void) {
    static const thp_allocator counted = {allocate, resize, give_back};
    ANSWERS(thp_use_allocator(&counted), THP_OK);
    handles();
    texts();
    reasons();
    long_text();
    refused();
    WANT(blocks == 0);
    if (failures == 0) printf("checks: done\n");
    return failures != 0;
}
