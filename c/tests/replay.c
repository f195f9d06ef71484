/* Does what a script says by the library: writes the answers as `thpsplit --report answers` does, and of one node the journal, too.
 * The check finds the journal of each node legal.
 *
 *     replay nodes|passes BLOCKS ORDER,UNDERUSED ..
 *
 * a word for each node, UNDERUSED a threshold or off. The script has no fault, and its sections are done one after the other. With
 * `passes` each node is shared by two, which are joined and divided elsewhere before each command. Beside the script's own lines there
 * may be `as CALLER`: what follows is that caller's, and the others keep their open batches; and, with `nodes`, `look`, which writes the
 * first node's queue and the state of each of its live pages. */
#include <inttypes.h>
#include <stdbool.h>
#include <stdio.h>
#include <stdlib.h>
#include <string.h>

#include "thp.h"

enum { NODES = 8, LINE = 256, WORDS = 5, CALLERS = 64 };

typedef struct place {
    thp_node node;
    thp_pass lower, upper; /* the callers below `at`, and those from it on */
    uint32_t at;
    bool reports_used;
    bool is_open[CALLERS]; /* the caller has an open batch here */
} place;

static place places[NODES];
static size_t nodes;
static bool by_passes;

static const char *const refused[] = {NULL, "no-page", "bad-range", "is-split", "not-mapped", "gone", "not-pinned", "too-many",
                                      "closed", "no-block", "has-batch"};

static void fail(const char *what) {
    fprintf(stderr, "replay: %s\n", what);
    exit(1);
}

static void put_set(const uint64_t *words) {
    bool is_first = true;
    for (int i = 0; i < 512; i++) {
        if (!(words[i / 64] >> (i % 64) & 1)) continue;
        int last = i;
        while (last + 1 < 512 && words[(last + 1) / 64] >> ((last + 1) % 64) & 1) last++;
        printf("%s%d", is_first ? "" : ",", i);
        if (last > i) printf("-%d", last);
        is_first = false;
        i = last;
    }
    printf(is_first ? "-\n" : "\n");
}

static void put_done(const thp_done *done) {
    static const char *const outcomes[] = {"stays", "queued", "freed"};
    printf("%s ", outcomes[done->outcome]);
    put_set(done->released);
}

static void put_tried(const thp_tried *tried) {
    static const char *const kinds[] = {"done", "split", "pinned", "used"};
    if (tried->kind == THP_TRY_DONE) printf("done\n");
    else printf("%s %" PRIu64 "\n", kinds[tried->kind], tried->page);
}

/* the pass has these callers */
static void has_callers(const thp_pass *pass, uint32_t from, uint32_t to) {
    uint32_t first, end;
    if (thp_pass_callers(pass, &first, &end) != THP_OK || first != from || end != to) fail("other callers");
}

/* passes that were divided are so at the next place */
static void divide(place *at) {
    if (thp_pass_join(&at->lower, &at->upper) != THP_OK) fail("no joint");
    at->at = at->at % (CALLERS - 1) + 1;
    if (thp_pass_split(&at->lower, at->at, &at->upper) != THP_OK) fail("no division");
    has_callers(&at->lower, 0, at->at);
    has_callers(&at->upper, at->at, CALLERS);
}

/* a node's queue, read with every room up to its length, and its live pages */
static void look(const thp_node *node) {
    enum { MOST = 4096 };
    static uint64_t pages[MOST], part[MOST];
    uint32_t count, again, own;
    thp_stats stats;
    if (thp_node_queue(node, pages, MOST, &count) != THP_OK) fail("no queue");
    printf("queue");
    for (uint32_t k = 0; k < count; k++) printf(" %" PRIu64, pages[k]);
    printf("\n");
    for (size_t room = 0; room <= count; room++) {
        if (thp_node_queue(node, part, room, &again) != THP_OK || again != count) fail("another length");
        if (memcmp(pages, part, room * sizeof *part) != 0) fail("another queue");
    }
    if (thp_node_stats(node, &stats) != THP_OK) fail("no statistics");
    for (uint64_t page = 0; page <= stats.allocations; page++) {
        thp_page_state state;
        const thp_code code = thp_node_page(node, page, &state);
        if (code != THP_OK && code != THP_NO_PAGE) fail("no state");
        if (code != THP_OK) continue;
        printf("page %" PRIu64 " whole %" PRIu32 " pins %" PRIu32 " partly %" PRIu32 " split %" PRIu32 " list %" PRIu32 " %" PRIu32 " own", page,
               state.whole_mapcount, state.pins, state.partly_mapped, state.split, state.list, state.caller);
        for (uint32_t i = 0; thp_node_mapcount(node, page, i, &own) == THP_OK; i++) printf(" %" PRIu32, own);
        printf("\n");
    }
}

/* the pass of a caller, divided anew */
static thp_pass *pass_of(place *at, uint32_t caller) {
    if (by_passes) divide(at);
    return caller < at->at ? &at->lower : &at->upper;
}

/* a call by the node, or by the caller's pass */
#define ASK(name, ...) (by_passes ? thp_pass_##name(pass, __VA_ARGS__) : thp_node_##name(node, __VA_ARGS__))

/* one command of a caller: its answer's line, behind the section and the place */
static void command(uint32_t caller, char *words[WORDS]) {
    const char *word = words[0];
    place *at = &places[strtoul(words[1], NULL, 10)];
    thp_node *node = &at->node;
    thp_pass *pass = pass_of(at, caller);
    const uint64_t number = words[2] != NULL ? strtoull(words[2], NULL, 10) : 0;
    const uint32_t first = words[3] != NULL ? (uint32_t)strtoul(words[3], NULL, 10) : 0;
    const uint32_t count = words[4] != NULL ? (uint32_t)strtoul(words[4], NULL, 10) : 0;
    thp_code code;
    thp_done done;
    if (strcmp(word, "alloc") == 0) {
        uint64_t page;
        code = ASK(alloc, caller, &page);
        if (code == THP_OK) printf("page %" PRIu64 "\n", page);
    } else if (strcmp(word, "unmapwhole") == 0) {
        code = ASK(unmap_whole, caller, number, &done);
        if (code == THP_OK) put_done(&done);
    } else if (strcmp(word, "unmap") == 0) {
        code = ASK(unmap_sub, caller, number, first, count, &done);
        if (code == THP_OK) put_done(&done);
    } else if (strcmp(word, "unpin") == 0) {
        code = ASK(unpin, caller, number, &done);
        if (code == THP_OK) put_done(&done);
    } else if (strcmp(word, "count") == 0) {
        uint32_t pages;
        code = by_passes ? thp_pass_count(pass, &pages) : thp_node_queue_length(node, &pages);
        if (code == THP_OK) printf("count %" PRIu32 "\n", pages);
    } else if (strcmp(word, "scan") == 0) {
        thp_scan scan;
        code = at->is_open[caller] ? THP_HAS_BATCH : ASK(scan, caller, (uint32_t)number, &scan);
        if (code == THP_OK) {
            printf("taken %" PRIu32 " split %" PRIu32 " pinned %" PRIu32 " back %" PRIu32 " dropped %" PRIu32, scan.taken,
                   scan.split, scan.pinned, scan.back, scan.dropped);
            if (at->reports_used) printf(" used %" PRIu32, scan.used);
            printf("\n");
        }
    } else if (strcmp(word, "take") == 0) {
        uint32_t taken;
        code = ASK(take, caller, (uint32_t)number, &taken);
        if (code == THP_OK) {
            printf("taken %" PRIu32 "\n", taken);
            at->is_open[caller] = true;
        }
        if (code == THP_BATCH_OPEN) code = THP_HAS_BATCH;
    } else if (strcmp(word, "splitnext") == 0) {
        thp_tried tried;
        code = ASK(split_next, caller, &tried);
        if (code == THP_OK) put_tried(&tried);
    } else if (strcmp(word, "putback") == 0) {
        thp_back back;
        code = ASK(put_back, caller, &back);
        if (code == THP_OK) {
            printf("back %" PRIu32 " dropped %" PRIu32 "\n", back.back, back.dropped);
            at->is_open[caller] = false;
        }
    } else {
        if (strcmp(word, "mapwhole") == 0) code = ASK(map_whole, caller, number);
        else if (strcmp(word, "map") == 0) code = ASK(map_sub, caller, number, first, count);
        else if (strcmp(word, "splitpmd") == 0) code = ASK(split_pmd, caller, number);
        else if (strcmp(word, "pin") == 0) code = ASK(pin, caller, number);
        else if (strcmp(word, "write") == 0) code = ASK(write, caller, number, first, count);
        else if (strcmp(word, "zero") == 0) code = ASK(zero, caller, number, first, count);
        else if (strcmp(word, "close") == 0) code = ASK(close, caller);
        else { fail("unknown word"); return; }
        if (code == THP_OK) printf("ok\n");
    }
    if (code == THP_NO_BATCH) printf("no-batch\n");
    else if (code >= THP_NO_PAGE && code <= THP_HAS_BATCH) printf("refused %s\n", refused[code]);
    else if (code != THP_OK) fail(thp_strerror(code));
}

/* the caller's open batches go back, as at a section's end */
static void end_section(uint32_t caller) {
    for (size_t n = 0; n < nodes; n++) {
        if (!places[n].is_open[caller]) continue;
        thp_back back;
        thp_node *node = &places[n].node;
        thp_pass *pass = pass_of(&places[n], caller);
        if (ASK(put_back, caller, &back) != THP_OK) fail("no put-back");
        places[n].is_open[caller] = false;
    }
}

static void make(uint32_t blocks, char *const *shapes) {
    for (; shapes[nodes] != NULL && nodes < NODES; nodes++) {
        char *underused = strchr(shapes[nodes], ',');
        if (underused == NULL) fail("a node wants its order and its threshold");
        places[nodes].reports_used = strcmp(underused, ",off") != 0;
        const uint32_t threshold = places[nodes].reports_used ? (uint32_t)strtoul(underused + 1, NULL, 10) : THP_UNDERUSED_OFF;
        const uint32_t order = (uint32_t)strtoul(shapes[nodes], NULL, 10);
        place *at = &places[nodes];
        thp_code code = by_passes ? thp_cell_create(&at->lower, blocks, order, threshold, CALLERS)
                                  : thp_node_create(&at->node, blocks, order, threshold);
        at->at = 1;
        if (code == THP_OK && by_passes) code = thp_pass_split(&at->lower, at->at, &at->upper);
        if (code != THP_OK) fail(thp_strerror(code));
    }
}

/* the node of two passes */
static void finish(place *at) {
    if (thp_pass_join(&at->lower, &at->upper) != THP_OK) fail("no joint");
    if (thp_cell_finish(&at->lower, &at->node) != THP_OK) fail("not finished");
}

/* each node's journal is legal, and is written where it is asked for */
static void end_node(thp_node *node, bool reports) {
    size_t size;
    uint32_t line;
    if (thp_node_journal(node, NULL, 0, &size) != THP_TOO_SMALL) fail("no length");
    uint8_t *text = malloc(size);
    if (text == NULL || thp_node_journal(node, text, size, &size) != THP_OK) fail("no journal");
    if (thp_check_text(text, size, &line) != THP_OK) fail("the journal isn't legal");
    if (reports) fwrite(text, 1, size, stdout);
    free(text);
    if (thp_node_destroy(node) != THP_OK) fail("not given back");
}

int main(int argc, char **argv) {
    if (argc < 4) fail("nodes|passes BLOCKS ORDER,UNDERUSED ..");
    by_passes = strcmp(argv[1], "passes") == 0;
    char line[LINE];
    uint32_t caller = 0, count = 0;
    make((uint32_t)strtoul(argv[2], NULL, 10), argv + 3);
    while (fgets(line, sizeof line, stdin) != NULL) {
        char *words[WORDS] = {NULL};
        size_t found = 0;
        for (char *word = strtok(line, " \n"); word != NULL && found < WORDS; word = strtok(NULL, " \n")) words[found++] = word;
        if (found == 0) continue;
        if (strcmp(words[0], "setup") == 0 || strcmp(words[0], "worker") == 0) {
            end_section(caller);
            caller = found > 1 ? (uint32_t)strtoul(words[1], NULL, 10) : 0;
            count = 0;
            continue;
        }
        if (strcmp(words[0], "look") == 0) {
            if (!by_passes) look(&places[0].node);
            continue;
        }
        if (strcmp(words[0], "as") == 0) {
            caller = found > 1 ? (uint32_t)strtoul(words[1], NULL, 10) : 0;
            continue;
        }
        printf("%" PRIu32 " %" PRIu32 " ", caller, ++count);
        command(caller, words);
    }
    for (caller = 0; caller < CALLERS; caller++) end_section(caller);
    for (size_t n = 0; n < nodes; n++) {
        if (by_passes) finish(&places[n]);
        end_node(&places[n].node, nodes == 1);
    }
    return 0;
}
