/* Predicts what a scan of the shrinker does with huge pages, over libthp; for linux/whatif/library.py.
 *
 * Each page is predicted by itself. A counting node of libthp gets one page and is brought to the page's state by calls, each of which
 * stands for what the kernel did; then the node is scanned once. How often a subpage is mapped decides nothing that is reported, only
 * whether PTEs map it, and whether PMD entries map the page: each is done once.
 *
 * Where the kernel differs from the model, the state is that of the kernel's rule, so no number is corrected afterwards (docs/WHATIF.md has
 * all): a scan drops a page that is in no queue first (mm/huge_memory.c: deferred_split_scan). With max_ptes_none 511, or a threshold that
 * its subpages can't exceed, no page is underused (thp_underused): it counts as data, unless it is partly mapped; then a split drops its
 * zeros with any threshold (mm/migrate.c: try_to_map_unused_to_zeropage), while a node without a threshold never drops them. */
#include <stdbool.h>
#include <thp.h>

enum { WORDS = 8, CALLER = 0, OFF = 511 };
enum { SPLIT = 1, UNDERUSED = 2, PINNED = 4 };

/* A page. linux/whatif/library.py packs it. In a set, subpage i is bit i % 64 of word i / 64. */
struct page {
    uint64_t zero[WORDS];   /* zero-filled, and a split drops them */
    uint64_t mapped[WORDS]; /* mapped by PTEs */
    uint8_t order;
    uint8_t is_whole; /* mapped by PMD entries */
    uint8_t is_partly, is_queued, is_pinned; /* and three unused bytes */
};

struct fate {
    uint32_t outcome; /* SPLIT, UNDERUSED (and not partly mapped), PINNED, or 0: it stays as it is */
    uint32_t frames;  /* given back */
};

/* A node with its page. */
struct model {
    const struct page *page;
    uint32_t size; /* subpages */
    thp_node node;
    uint64_t number;
};

/* A call about a range of subpages. */
typedef thp_code call(thp_node *node, uint32_t caller, uint64_t page, uint32_t first, uint32_t count);

/* Returns from a function with the code of a call that fails. */
#define TRY(made) do { thp_code code = (made); if (code != THP_OK) return code; } while (0)

static bool has(const uint64_t *set, uint32_t subpage) {
    return set[subpage / 64] >> subpage % 64 & 1;
}

static thp_code unmap(thp_node *node, uint32_t caller, uint64_t page, uint32_t first, uint32_t count) {
    thp_done done;
    return thp_node_unmap_sub(node, caller, page, first, count, &done);
}

/* Makes a call for each run of subpages that are in a set, or that aren't. */
static thp_code call_runs(struct model *model, call *made, const uint64_t *set, bool are_in) {
    for (uint32_t first = 0, end; first < model->size; first = end) {
        for (end = first + 1; end < model->size && has(set, end) == has(set, first);) end++;
        if (has(set, first) == are_in) TRY(made(&model->node, CALLER, model->number, first, end - first));
    }
    return THP_OK;
}

/* Allocates the page and fills it, so that `zeros` are zero-filled; a page in no queue is dropped from it first. */
static thp_code fill(struct model *model, const uint64_t *zeros) {
    thp_scan scan;
    TRY(thp_node_alloc(&model->node, CALLER, &model->number));
    if (model->page->is_queued) return call_runs(model, thp_node_write, zeros, false);
    TRY(thp_node_write(&model->node, CALLER, model->number, 0, model->size));
    TRY(thp_node_scan(&model->node, CALLER, 1, &scan));
    return scan.used == 1 ? call_runs(model, thp_node_zero, zeros, true) : THP_NO_CODE;
}

/* Maps the page as it is mapped, from the one PMD mapping that an allocation has. Unmaps come last. */
static thp_code map_all(struct model *model) {
    const struct page *page = model->page;
    bool has_holes = false;
    for (uint32_t i = 0; i < model->size; i++) has_holes |= !page->is_whole && !has(page->mapped, i);
    if (page->is_partly && !has_holes) { /* partly mapped once, mapped whole again */
        TRY(thp_node_split_pmd(&model->node, CALLER, model->number));
        TRY(unmap(&model->node, CALLER, model->number, 0, 1));
        TRY(thp_node_map_sub(&model->node, CALLER, model->number, 0, 1));
        if (!page->is_whole) return THP_OK;
        TRY(thp_node_map_whole(&model->node, CALLER, model->number));
        TRY(unmap(&model->node, CALLER, model->number, 0, model->size));
    }
    if (page->is_whole) return call_runs(model, thp_node_map_sub, page->mapped, true);
    TRY(thp_node_split_pmd(&model->node, CALLER, model->number));
    return call_runs(model, unmap, page->mapped, false);
}

/* Scans, and stores what became of the page. */
static thp_code scan_page(struct model *model, struct fate *fate) {
    thp_stats stats;
    thp_scan scan;
    TRY(thp_node_scan(&model->node, CALLER, 1, &scan));
    TRY(thp_node_stats(&model->node, &stats));
    if (scan.taken != model->page->is_queued || scan.split + scan.pinned + scan.used != scan.taken) return THP_NO_CODE;
    fate->outcome = (scan.split ? SPLIT : 0) | (stats.underused_split_page ? UNDERUSED : 0) | (scan.pinned ? PINNED : 0);
    fate->frames = (uint32_t)stats.frames_given;
    return THP_OK;
}

/* Stores the subpages of a page that was split whose frames were given back: they can't be mapped. */
static thp_code find_given(struct model *model, const struct fate *fate, uint64_t *given) {
    uint32_t count = 0;
    for (uint32_t i = 0; i < model->size; i++) {
        thp_code code = thp_node_map_sub(&model->node, CALLER, model->number, i, 1);
        if (code == THP_OK) continue;
        if (code != THP_GONE) return code;
        given[i / 64] |= (uint64_t)1 << i % 64;
        count++;
    }
    return count == fate->frames ? THP_OK : THP_NO_CODE;
}

static thp_code predict_page(struct model *model, uint32_t threshold, struct fate *fate, uint64_t *given) {
    static const uint64_t none[WORDS];
    const struct page *page = model->page;
    uint32_t most = model->size - 1;
    bool is_off = threshold == OFF || threshold > most;
    TRY(thp_node_create_counting(&model->node, 1, page->order, threshold < most ? threshold : most));
    TRY(fill(model, is_off && !page->is_partly ? none : page->zero));
    TRY(map_all(model));
    if (page->is_pinned) TRY(thp_node_pin(&model->node, CALLER, model->number));
    TRY(scan_page(model, fate));
    return given && fate->outcome & SPLIT ? find_given(model, fate, given) : THP_OK;
}

/* Predicts what a scan does with each page at a threshold; `given`, if it isn't null, gets the subpages whose frames come back, `WORDS` for
 * each page. Returns a thp_code; where it isn't THP_OK, `failed` is the page's place. THP_NO_CODE: the page isn't in the state that its
 * calls make. */
thp_code predict(const struct page *pages, uint32_t count, uint32_t threshold, struct fate *fates, uint64_t *given, uint32_t *failed) {
    for (*failed = 0; *failed < count; ++*failed) {
        struct model model = {.page = &pages[*failed], .size = 1U << pages[*failed].order, .node = THP_NODE_INIT};
        thp_code code = predict_page(&model, threshold, &fates[*failed], given ? &given[(size_t)*failed * WORDS] : NULL);
        thp_node_destroy(&model.node); /* it is empty where it couldn't be created */
        if (code != THP_OK) return code;
    }
    return THP_OK;
}

/* Returns a code in words. */
const char *words_of(thp_code code) {
    return code == THP_NO_CODE ? "it isn't in the state that its calls make" : thp_strerror(code);
}
