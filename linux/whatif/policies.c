/* Repeats the calls of a journal on a node of libthp with another threshold and other scans; for linux/whatif/policies.py.
 *
 * A run is a node under a policy: start_run makes it, follow_lines is called with its events in order, end_run stores its numbers and
 * removes it. The journal is legal: the caller has checked it. Other lines do nothing.
 *
 * Pages can differ from the recorded ones in one way: they are split earlier, later or never. A page that is split here alone takes PTE
 * calls instead of PMD calls, and no pins and contents. One that was split there alone gets its PMD mappings split where the journal unmaps
 * parts of it. A range that is refused is done subpage by subpage, where each can be. */
#include <stdbool.h>
#include <stdlib.h>
#include <string.h>
#include <thp.h>

/* The words of events: first those that may change which frames are held, last those of recorded scans. */
enum { ALLOC, UNMAPWHOLE, UNMAPSUB, UNPIN, MAPWHOLE, MAPSUB, SPLITPMD, PIN, WRITE, ZERO, CLOSE, TAKEN, SPLIT, PINNED, USED, OTHERS };
static const char *const words[OTHERS] = {"alloc", "unmapwhole", "unmapsub", "unpin", "mapwhole", "mapsub", "splitpmd", "pin",
                                          "write", "zero", "close", "taken", "split", "pinned", "used"};

/* When scans come: where the journal has tried all pages that it took, of as many; never; each `amount` seconds; after each call that
 * leaves `amount` frames held, or more. The last two take all that are queued. */
enum { RECORDED, NEVER, SECONDS, HELD, CALLER = 0 }; /* the caller of all calls: the journal's decides only which batch a try is of */

struct event {
    uint64_t page;
    uint32_t word;
    uint16_t caller, first, count;
};

/* The numbers of a run. Frames are base pages. */
struct sums {
    uint64_t scans;
    uint64_t split;  /* pages split */
    uint64_t failed; /* tries that found a pin; until the end those of scans that were skipped */
    uint64_t back;   /* frames that scans gave back */
    uint64_t peak;   /* the greatest number of frames held */
    double held;     /* frames held, each by the seconds for which it is */
    double seconds;
};

struct run {
    thp_node node;
    thp_code code;   /* of the first call that failed and may not */
    thp_stats stats; /* since frames or queue last changed */
    uint32_t subpages, when;
    double amount;
    struct { uint32_t taken, tried; } batches[UINT16_MAX + 1]; /* of the journal, by caller, until its pages are tried */
    double now, last_scan; /* -1: before the first event */
    struct sums sums;
};

static void demand(struct run *run, thp_code code) {
    if (run->code == THP_OK) run->code = code;
}

static void look(struct run *run) {
    demand(run, thp_node_stats(&run->node, &run->stats));
}

/* Scans `n` pages, in batches of at most THP_MAX_BATCH. Returns whether any page left the queue. */
static bool scan(struct run *run, uint64_t n) {
    thp_stats before = run->stats;
    thp_scan done;
    for (uint32_t part; n; n -= part) {
        part = n < THP_MAX_BATCH ? (uint32_t)n : THP_MAX_BATCH;
        demand(run, thp_node_scan(&run->node, 0, part, &done));
    }
    look(run);
    run->sums.back += run->stats.frames_given - before.frames_given;
    run->sums.scans++;
    return run->stats.queued < before.queued;
}

static void wait_until(struct run *run, double until) {
    run->sums.held += (double)run->stats.frames_held * (until - run->now);
    run->sums.seconds += until - run->now;
    run->now = until;
}

/* Scans for a caller of the journal, where it has tried all that it took, or its batch `is_over`: some were freed. */
static void end_batch(struct run *run, uint32_t caller, bool is_over) {
    uint32_t tried = run->batches[caller].tried;
    if (!tried || !(is_over || tried == run->batches[caller].taken)) return;
    scan(run, tried);
    run->batches[caller].taken = run->batches[caller].tried = 0;
}

/* Lets time pass until an event, with the scans that come meanwhile. One that takes nothing, or puts all back, is like all after it. */
static void pass_time(struct run *run, double until) {
    while (run->when == SECONDS && run->last_scan + run->amount <= until) {
        uint64_t queued = run->stats.queued;
        if (queued) {
            run->last_scan += run->amount;
            wait_until(run, run->last_scan);
            if (scan(run, queued)) continue;
        }
        uint64_t skipped = (uint64_t)((until - run->last_scan) / run->amount);
        run->last_scan += run->amount * (double)skipped;
        run->sums.scans += queued ? skipped : 0;
        run->sums.failed += queued * skipped;
        break;
    }
    wait_until(run, until);
}

/* Makes a call about a page, as the journal has it. */
static thp_code make_call(thp_node *node, const struct event *event) {
    thp_done done;
    switch (event->word) {
    case MAPWHOLE: return thp_node_map_whole(node, CALLER, event->page);
    case UNMAPWHOLE: return thp_node_unmap_whole(node, CALLER, event->page, &done);
    case MAPSUB: return thp_node_map_sub(node, CALLER, event->page, event->first, event->count);
    case UNMAPSUB: return thp_node_unmap_sub(node, CALLER, event->page, event->first, event->count, &done);
    case SPLITPMD: return thp_node_split_pmd(node, CALLER, event->page);
    case PIN: return thp_node_pin(node, CALLER, event->page);
    case UNPIN: return thp_node_unpin(node, CALLER, event->page, &done);
    case WRITE: return thp_node_write(node, CALLER, event->page, event->first, event->count);
    default: return thp_node_zero(node, CALLER, event->page, event->first, event->count);
    }
}

/* Makes a call about mappings that the page, as it is here, refuses. */
static void make_otherwise(struct run *run, const struct event *event, const thp_page_state *page) {
    thp_done done = {.outcome = THP_STAYS};
    bool is_whole = event->word == MAPWHOLE || event->word == UNMAPWHOLE, maps = event->word == MAPWHOLE || event->word == MAPSUB;
    uint32_t first = is_whole ? 0 : event->first, end = is_whole ? run->subpages : first + event->count;
    if (!maps && page->whole_mapcount) /* PMD mappings that the journal's page had no more */
        demand(run, thp_node_split_pmd(&run->node, CALLER, event->page));
    for (; first < end && done.outcome != THP_FREED; first++) {
        thp_code code = maps ? thp_node_map_sub(&run->node, CALLER, event->page, first, 1)
                             : thp_node_unmap_sub(&run->node, CALLER, event->page, first, 1, &done);
        if (code == THP_OUT_OF_MEMORY) demand(run, code);
    }
}

/* A call about a page that lives in the journal. One that a split has freed here early, with all its frames, takes none. */
static void call_page(struct run *run, const struct event *event) {
    thp_page_state page;
    thp_code code = make_call(&run->node, event);
    if (code == THP_OK || thp_node_page(&run->node, event->page, &page) != THP_OK) return;
    bool is_mapping = event->word == MAPWHOLE || event->word == MAPSUB || event->word == UNMAPWHOLE || event->word == UNMAPSUB;
    if (is_mapping) make_otherwise(run, event, &page);
    else if (!page.split) demand(run, code);
}

/* Does an event under the policy. */
static void follow(struct run *run, const struct event *event) {
    uint64_t page;
    if (event->word >= TAKEN) {
        bool is_try = event->word > TAKEN && event->word < OTHERS;
        if (run->when != RECORDED) return;
        if (!is_try) end_batch(run, event->caller, true);
        run->batches[event->caller].taken += event->word == TAKEN;
        run->batches[event->caller].tried += is_try;
        end_batch(run, event->caller, false);
        return;
    }
    if (event->word == ALLOC) demand(run, thp_node_alloc(&run->node, CALLER, &page));
    else if (event->word == CLOSE) demand(run, thp_node_close(&run->node, CALLER));
    else call_page(run, event);
    if (event->word <= UNPIN) look(run);
    if (run->when == HELD && (double)run->stats.frames_held >= run->amount && run->stats.queued) scan(run, run->stats.queued);
    if (run->stats.frames_held > run->sums.peak) run->sums.peak = run->stats.frames_held;
}

/* Reads a number, and the space after it. */
static uint64_t read_number(const char **at) {
    uint64_t value = 0;
    for (; **at >= '0' && **at <= '9'; ++*at) value = value * 10 + (uint64_t)(**at - '0');
    *at += **at == ' ';
    return value;
}

/* Reads the event of a line, and moves to the next line. */
static struct event read_event(const char **at) {
    struct event event = {.caller = (uint16_t)read_number(at)};
    size_t size = strcspn(*at, " \n");
    while (event.word < OTHERS && (strncmp(*at, words[event.word], size) || words[event.word][size])) event.word++;
    *at += size + ((*at)[size] == ' ');
    event.page = read_number(at);
    event.first = (uint16_t)read_number(at);
    event.count = (uint16_t)read_number(at);
    *at += strcspn(*at, "\n");
    *at += **at == '\n';
    return event;
}

/* Makes a run of a node; null where that isn't possible. */
struct run *start_run(uint32_t blocks, uint32_t order, uint32_t threshold, uint32_t when, double amount) {
    struct run *run = calloc(1, sizeof *run); /* most of which stays untouched */
    if (!run) return NULL;
    run->node = (thp_node)THP_NODE_INIT;
    run->subpages = 1U << order, run->when = when, run->amount = amount, run->now = -1;
    if (threshold >= run->subpages) threshold = THP_UNDERUSED_OFF;
    demand(run, thp_node_create_counting(&run->node, blocks, order, threshold));
    if (run->code == THP_OK) return run;
    free(run);
    return NULL;
}

/* Does the events of lines, which a null byte ends, at these times; if that is null, each is a second after the one before. Returns a
 * thp_code; where it isn't THP_OK, `failed` is the line's place, and the run can't continue. */
thp_code follow_lines(struct run *run, const char *text, const double *times, uint32_t *failed) {
    for (*failed = 0; *text; ++*failed) {
        struct event event = read_event(&text);
        double at = times ? times[*failed] : run->now + 1;
        if (run->now < 0) run->now = run->last_scan = at;
        pass_time(run, at);
        follow(run, &event);
        if (run->code != THP_OK) break;
    }
    return run->code;
}

/* Ends a run; stores its numbers. */
void end_run(struct run *run, struct sums *sums) {
    for (uint32_t caller = 0; caller <= UINT16_MAX; caller++) end_batch(run, caller, true);
    *sums = run->sums;
    sums->split = run->stats.split_page;
    sums->failed += run->stats.split_page_failed;
    thp_node_destroy(&run->node);
    free(run);
}
