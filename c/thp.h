/**
 * @file thp.h
 * @brief libthp: a proved deferred split queue for transparent huge pages.
 *
 * For programmers who call the library from C or C++. A node is a set of huge pages, their deferred split queue, and the journal
 * of every call that changed them. The effect of each call on a node is proved (crates/thp_capi, in the terms of
 * crates/thp_history). docs/C.md lists for each call what is proved and what the program must guarantee. This header and thp.c are
 * not proved: they are written manually, and tests compare them with the proved functions.
 *
 * On x86-64 the library needs a processor of the level x86-64-v2 (POPCNT, SSE4.2); an older one ends the program with SIGILL. On
 * aarch64 it runs on every processor.
 *
 * A new node takes about 100 KB, and reserves 1.2 KB of address space for each block, which takes memory when the block is first
 * used. It stores every event of its journal until it is destroyed: 96 bytes each, in memory that doubles when it is full. An
 * allocator of your own must not touch what it gives. thp_node_reserve gets this memory in advance. A program that runs for long and
 * does not need the journal creates its node by thp_node_create_counting or thp_cell_create_counting: such a node only counts its
 * events, and its memory does not grow.
 *
 * The library checks
 *  - null pointers (THP_NULL);
 *  - empty handles, that is, handles before their create and after their destroy (THP_EMPTY);
 *  - handles that are to be filled and are not empty (THP_IN_USE);
 *  - callers' numbers, counts, pages, ranges and sizes of buffers.
 *
 * A call that does not return THP_OK changes neither the node nor what its pointers point to, with these exceptions:
 *  - thp_check_text stores the line with every code except THP_NULL;
 *  - thp_check_finish stores the line with each verdict;
 *  - thp_node_journal and thp_check_reason store the size with THP_TOO_SMALL;
 *  - thp_check_read loses the check with THP_OUT_OF_MEMORY.
 *
 * The program must guarantee, and the library does not check, that
 *  - a handle is THP_NODE_INIT, THP_PASS_INIT or THP_CHECK_INIT (or zeros) before its first call; only these calls change it; of
 *    all copies of it only one is used;
 *  - a pointer is null or points to a valid object of its type, which overlaps nothing else that the call is given;
 *  - only one call at a time uses a handle, even if the call only reads and takes a const handle. Calls on different handles need no
 *    lock. A handle passes from one thread to another by a lock, a thread's start or a join. Different threads may use passes of
 *    one cell at the same time;
 *  - after fork() in a program with threads the child makes no call, not even a destroy: its copy of a node can be in the middle of
 *    another thread's call, and its copy of a cell busy for ever. It may call exec or _exit. In a program without threads the
 *    child may use its own copies of the handles;
 *  - a signal handler makes no call;
 *  - no thread is cancelled during a call: a call has no cancellation point, so deferred cancellation (the default) never happens
 *    there.
 *
 * The proved functions are not built for the thread sanitizer, which therefore reports races within the library that are none.
 * The file of suppressions that is installed with this header, share/libthp/tsan.supp, excludes them:
 * @code
 * TSAN_OPTIONS=suppressions=$(pkg-config --variable=suppressions thp) ./program
 * @endcode
 */
#ifndef THP_H
#define THP_H

#include <stddef.h>
#include <stdint.h>

#define THP_VERSION_MAJOR 0 /**< the first number of THP_VERSION */
#define THP_VERSION_MINOR 3 /**< its second number */
#define THP_VERSION_PATCH 0 /**< its third number */
/** @brief The version of this header; thp_version() returns that of the library. */
#define THP_VERSION "0.3.0"

#define THP_MAX_BLOCKS 16777216 /**< the greatest number of live pages of a node; the least is 1 */
#define THP_MIN_ORDER 2       /**< the least order of a node's pages */
#define THP_MAX_ORDER 9       /**< the greatest order: 512 subpages */
#define THP_MAX_CALLERS 64    /**< the greatest number of callers of a node's handle; their numbers are below it */
#define THP_MAX_CELL_CALLERS 4096 /**< the greatest number of callers of a cell */
#define THP_MAX_BATCH 128     /**< the greatest number of pages of one take or scan */
#define THP_MAX_TEXT 16777216 /**< the length in bytes of the longest text that thp_check_text reads */

#ifdef __cplusplus
extern "C" {
#endif

/** @brief What a call returns. thp_strerror() converts it to text. */
typedef enum thp_code {
    THP_OK = 0,
    /* why the node refuses a call, in the order in which it tests */
    THP_NO_PAGE = 1,        /**< the page was never allocated, or was freed */
    THP_BAD_RANGE = 2,      /**< the range is empty or exceeds the page */
    THP_IS_SPLIT = 3,       /**< the page is split into base pages */
    THP_NOT_MAPPED = 4,     /**< there is no such mapping */
    THP_GONE = 5,           /**< a frame of the range was given back */
    THP_NOT_PINNED = 6,     /**< the page has no pin */
    THP_TOO_MANY = 7,       /**< a count is at 65,535 */
    THP_CLOSED = 8,         /**< the node is closed */
    THP_NO_BLOCK = 9,       /**< every block holds a live page */
    THP_HAS_BATCH = 10,     /**< the caller has pages in flight */
    THP_OUT_OF_MEMORY = 11, /**< memory could not be allocated */
    /* why the library does not call the node */
    THP_EMPTY = 12,      /**< the handle is empty */
    THP_IN_USE = 13,     /**< the handle is not empty */
    THP_BAD_CALLER = 14, /**< the caller's number is 64 or more, or not one of the pass's */
    THP_BAD_SIZE = 15,   /**< no node has this shape, or no cell this number of callers */
    THP_BAD_COUNT = 16,  /**< more than 128 pages were requested */
    THP_NO_BATCH = 17,   /**< the caller has no open batch */
    THP_BATCH_OPEN = 18, /**< the caller already has an open batch */
    THP_TOO_SMALL = 19,  /**< the buffer is too small */
    THP_NULL = 20,       /**< a pointer is null */
    /* results of the check of a text */
    THP_ILLEGAL = 21,         /**< an event of the journal does not fit those before it */
    THP_TEXT_TOO_LONG = 22,   /**< the text is longer than 16,777,216 bytes */
    THP_TEXT_BAD_BYTE = 23,   /**< a byte outside 0x20 to 0x7E */
    THP_TEXT_CUT = 24,        /**< the line has no line feed, or the text ends before its end line */
    THP_TEXT_BAD_WORD = 25,   /**< a word is empty, or not valid at its position */
    THP_TEXT_BAD_COUNT = 26,  /**< too few words, or too many */
    THP_TEXT_BAD_NUMBER = 27, /**< an operand is not a number, or is out of range */
    THP_TEXT_BAD_SET = 28,    /**< a set is not written as its maximal runs in ascending order */
    THP_TEXT_BAD_ORDER = 29,  /**< the line is not allowed at this position */
    /* why the library does not call a shared node */
    THP_BUSY = 30,    /**< another pass has the node: the call had no effect and can be repeated */
    THP_BAD_PASS = 31, /**< passes of two cells, or not adjacent; or not all callers; or not the cell's last handle */
    /* why the library does not call a check */
    THP_FINISHED = 32,  /**< the check is finished and reads no more text */
    THP_NO_REASON = 33, /**< the check found no illegal event, or is not finished */
    /* why there is no journal */
    THP_NO_JOURNAL = 34, /**< the node only counts its events */
    THP_NO_CODE = 0x7fffffff /**< never returned: makes the type hold every 31-bit number, including later codes */
} thp_code;

/** @brief Returns a static, readable text for a code. Never null, even for a number that is not a code. */
const char *thp_strerror(thp_code code);

/** @brief Returns the version of the linked library as a static text; THP_VERSION is that of the header. */
const char *thp_version(void);

/** @brief A node's handle. Its fields are private to the library. */
typedef struct thp_node {
    void *at;      /**< private */
    uint32_t live; /**< private */
} thp_node;

/** @brief The empty handle of a node. */
#define THP_NODE_INIT {NULL, 0}

/** @brief A pass's handle. Its fields are private to the library. */
typedef struct thp_pass {
    void *at;      /**< private */
    uint32_t live; /**< private */
} thp_pass;

/** @brief The empty handle of a pass. */
#define THP_PASS_INIT {NULL, 0}

/** @brief The handle of a check of a text that arrives in parts. Its fields are private to the library. */
typedef struct thp_check {
    void *at;      /**< private */
    uint32_t live; /**< private */
} thp_check;

/** @brief The empty handle of a check. */
#define THP_CHECK_INIT {NULL, 0}

/** @brief The threshold with which the shrinker does not look for underused pages. */
#define THP_UNDERUSED_OFF UINT32_MAX

/** @brief The effect of an unmap or an unpin on its page. */
typedef enum thp_outcome {
    THP_STAYS = 0,  /**< it stays live, on the list that it was on */
    THP_QUEUED = 1, /**< it joined the deferred split queue */
    THP_FREED = 2   /**< it was freed */
} thp_outcome;

/** @brief The result of an unmap or an unpin. */
typedef struct thp_done {
    uint32_t outcome;     /**< a thp_outcome */
    uint64_t released[8]; /**< the subpages whose frames were given back: subpage i is bit i % 64 of word i / 64 */
} thp_done;

/** @brief The result of a scan, as page counts. */
typedef struct thp_scan {
    uint32_t taken;   /**< pages taken from the queue */
    uint32_t split;   /**< pages split */
    uint32_t pinned;  /**< pages found pinned */
    uint32_t back;    /**< pinned pages queued again */
    uint32_t dropped; /**< pinned pages not queued again */
    uint32_t used;    /**< pages not worth a split */
} thp_scan;

/** @brief The effect of a try of a batch's next page. */
typedef enum thp_try {
    THP_TRY_DONE = 0,   /**< no page of the batch is left to try */
    THP_TRY_SPLIT = 1,  /**< the page was split into base pages */
    THP_TRY_PINNED = 2, /**< the page has pins and stays in the batch */
    THP_TRY_USED = 3    /**< the page is not worth a split and left the batch */
} thp_try;

/** @brief The result of a try. The frames of a page that it split are in the journal, and counted in thp_stats. */
typedef struct thp_tried {
    uint32_t kind; /**< a thp_try */
    uint64_t page; /**< the page that was tried; 0 with THP_TRY_DONE */
} thp_tried;

/** @brief The result of a put back, as page counts. */
typedef struct thp_back {
    uint32_t back;    /**< pages queued again */
    uint32_t dropped; /**< pages not queued again */
} thp_back;

/** @brief A node's statistics; numbers greater than 2^64 - 1 are stored as that. */
typedef struct thp_stats {
    uint64_t events;               /**< events in the journal */
    uint64_t allocations;          /**< pages ever allocated, including freed ones */
    uint64_t queued;               /**< pages in the deferred split queue */
    uint64_t frames_given;         /**< frames given back */
    uint64_t frames_held;          /**< frames that the live pages hold */
    uint64_t split_page;           /**< pages split */
    uint64_t split_page_failed;    /**< tries that found a page pinned */
    uint64_t deferred_split_page;  /**< times an unmap or an unpin queued a page */
    uint64_t underused_split_page; /**< pages split that were underused and not partly mapped */
    uint64_t split_pmd;            /**< PMD mappings split */
} thp_stats;

/** @brief The list that a page is on. */
typedef enum thp_list {
    THP_LIST_NONE = 0,  /**< no list */
    THP_LIST_QUEUE = 1, /**< the deferred split queue */
    THP_LIST_FLIGHT = 2 /**< the flight of a caller: a take took the page, and nothing has removed it since */
} thp_list;

/** @brief The state of a live page. */
typedef struct thp_page_state {
    uint32_t whole_mapcount; /**< the whole map count: PMD entries that map the page */
    uint32_t pins;           /**< pins */
    uint32_t partly_mapped;  /**< 1 if the page is partly mapped, otherwise 0 */
    uint32_t split;          /**< 1 if the page was split into base pages, otherwise 0 */
    uint32_t list;           /**< a thp_list */
    uint32_t caller;         /**< with THP_LIST_FLIGHT the caller in whose flight the page is, otherwise 0 */
} thp_page_state;

/**
 * @name Memory
 * @{
 */

/**
 * @brief The functions from which the library gets its memory; they behave as malloc, realloc and free do. Each must return (no
 * longjmp, no C++ exception) and must not call the library.
 */
typedef struct thp_allocator {
    void *(*allocate)(size_t size);               /**< returns memory aligned to 16 bytes, or null on failure */
    void *(*resize)(void *memory, size_t size);   /**< returns null on failure, and leaves the memory unchanged */
    void (*give_back)(void *memory);              /**< frees memory from the other two; never called with null */
} thp_allocator;

/**
 * @brief Makes the library use these functions for its memory instead of those of the C library.
 *
 * If a program makes this call, it must be its first call of the library, since memory is freed with the functions set at that
 * time.
 * @return THP_OK; THP_NULL if a pointer is null; THP_IN_USE if the library has already allocated memory
 */
thp_code thp_use_allocator(const thp_allocator *allocator);
/** @} */

/**
 * @brief Checks whether the journals in a text (docs/FORMATS.md) are legal.
 * @param text the text; may be null if length is 0
 * @param length the length of the text in bytes
 * @param[out] line with THP_ILLEGAL the line of the first event that does not fit, with THP_TEXT_.. that of the first error, else
 *        0
 * @return THP_OK, THP_ILLEGAL, THP_TEXT_.., THP_OUT_OF_MEMORY, THP_NULL
 */
thp_code thp_check_text(const void *text, size_t length, uint32_t *line);

/**
 * @name The check of journals of any length
 * The text arrives in parts of any length. The check stores only the state of the current node and the line in progress. The
 * verdict is that of thp_check_text, for texts of any length, with 64-bit line numbers and with the reason. Each call can also
 * return THP_NULL.
 * @{
 */
/** @brief Creates a check that has read nothing. @return THP_OK, THP_IN_USE, THP_OUT_OF_MEMORY */
thp_code thp_check_create(thp_check *check);
/** @brief Frees the check and all its memory, and empties the handle. @return THP_OK, THP_EMPTY */
thp_code thp_check_destroy(thp_check *check);
/**
 * @brief Reads the next part of the text. Only thp_check_finish reports errors and illegal events.
 * @param check the check
 * @param part the part; may be null if length is 0
 * @param length the length of the part in bytes
 * @return THP_OK; THP_EMPTY; THP_FINISHED; THP_OUT_OF_MEMORY, and then the check is lost: its memory is freed, and the handle is
 *         empty
 */
thp_code thp_check_read(thp_check *check, const void *part, size_t length);
/**
 * @brief Returns the verdict on the text read, which is taken as the whole text. Finishes the check, unless it is finished
 * already. Allocates no memory, and returns the same verdict each time.
 * @param check the check
 * @param[out] line with THP_ILLEGAL the line of the first event that does not fit, with THP_TEXT_.. that of the first error, with
 *        THP_OK 0
 * @return THP_OK, THP_ILLEGAL, THP_TEXT_.., THP_EMPTY
 */
thp_code thp_check_finish(thp_check *check, uint64_t *line);
/**
 * @brief Writes why an event does not fit, after a thp_check_finish that returned THP_ILLEGAL: the text of `thpcheck --explain`
 * (docs/FORMATS.md, explanations). The text has no terminating null byte.
 * @param check the check
 * @param[out] buffer receives the text if it fits; may be null if capacity is 0
 * @param capacity the size of the buffer in bytes; 0 to find out the required size
 * @param[out] size the length of the text in bytes, with THP_OK and THP_TOO_SMALL
 * @return THP_OK, THP_EMPTY, THP_NO_REASON, THP_TOO_SMALL, THP_OUT_OF_MEMORY
 */
thp_code thp_check_reason(thp_check *check, void *buffer, size_t capacity, size_t *size);
/** @} */

/**
 * @brief Creates a node with no page.
 * @param[out] node an empty handle, which the call fills
 * @param blocks the greatest number of live pages, 1 to 16,777,216
 * @param order the order of the pages, 2 to 9: each page has 2^order subpages
 * @param underused the threshold, below 2^order: a page with more zero-filled subpages is worth a split; or THP_UNDERUSED_OFF
 * @return THP_OK, THP_IN_USE, THP_BAD_SIZE, THP_OUT_OF_MEMORY, THP_NULL
 */
thp_code thp_node_create(thp_node *node, uint32_t blocks, uint32_t order, uint32_t underused);

/**
 * @brief Creates a node that only counts its events, as thp_node_create creates one that stores them. Its memory does not grow.
 * It has no journal: thp_node_journal returns THP_NO_JOURNAL. All other calls are the same.
 */
thp_code thp_node_create_counting(thp_node *node, uint32_t blocks, uint32_t order, uint32_t underused);

/** @brief Frees the node and all its memory, and empties the handle. @return THP_OK, THP_EMPTY, THP_NULL */
thp_code thp_node_destroy(thp_node *node);

/**
 * @name Calls about a page
 * Callers are numbered from 0 to 63. Each call can also return THP_EMPTY, THP_BAD_CALLER, THP_OUT_OF_MEMORY and THP_NULL.
 * @{
 */
/**
 * @brief Allocates a page, mapped whole once; its number is the number of allocations before it. The page keeps its block until it is
 * freed, also after a split.
 * @return also THP_CLOSED, THP_NO_BLOCK
 */
thp_code thp_node_alloc(thp_node *node, uint32_t caller, uint64_t *page);
/** @brief Maps the whole page once more, by a PMD entry. @return also THP_NO_PAGE, THP_IS_SPLIT, THP_TOO_MANY */
thp_code thp_node_map_whole(thp_node *node, uint32_t caller, uint64_t page);
/** @brief Removes one mapping of the whole page. @return also THP_NO_PAGE, THP_IS_SPLIT, THP_NOT_MAPPED */
thp_code thp_node_unmap_whole(thp_node *node, uint32_t caller, uint64_t page, thp_done *done);
/**
 * @brief Maps each subpage of a range once more, by PTE entries.
 * @return also THP_NO_PAGE, THP_BAD_RANGE, THP_GONE, THP_TOO_MANY
 */
thp_code thp_node_map_sub(thp_node *node, uint32_t caller, uint64_t page, uint32_t first, uint32_t count);
/**
 * @brief Removes one PTE mapping of each subpage of a range, which can queue or free the page. A page mapped by a PMD entry needs
 * thp_node_split_pmd first.
 * @return also THP_NO_PAGE, THP_BAD_RANGE, THP_NOT_MAPPED
 */
thp_code thp_node_unmap_sub(thp_node *node, uint32_t caller, uint64_t page, uint32_t first, uint32_t count, thp_done *done);
/** @brief Replaces one PMD mapping by a PTE mapping of each subpage. @return also THP_NO_PAGE, THP_IS_SPLIT, THP_NOT_MAPPED */
thp_code thp_node_split_pmd(thp_node *node, uint32_t caller, uint64_t page);
/** @brief Adds a pin, which prevents the page from being split. @return also THP_NO_PAGE, THP_IS_SPLIT, THP_TOO_MANY */
thp_code thp_node_pin(thp_node *node, uint32_t caller, uint64_t page);
/** @brief Removes a pin, which can free the page. @return also THP_NO_PAGE, THP_IS_SPLIT, THP_NOT_PINNED */
thp_code thp_node_unpin(thp_node *node, uint32_t caller, uint64_t page, thp_done *done);
/**
 * @brief Records that data is written to each subpage of a range, which is not zero-filled afterwards. Of a split page nothing more is
 * recorded: where another thread's scan may have split the page, THP_IS_SPLIT can be ignored.
 * @return also THP_NO_PAGE, THP_BAD_RANGE, THP_IS_SPLIT, THP_NOT_MAPPED
 */
thp_code thp_node_write(thp_node *node, uint32_t caller, uint64_t page, uint32_t first, uint32_t count);
/**
 * @brief Records that zeros are written to each subpage of a range, which is zero-filled afterwards.
 * @return as thp_node_write
 */
thp_code thp_node_zero(thp_node *node, uint32_t caller, uint64_t page, uint32_t first, uint32_t count);
/** @brief Closes the node: no page is queued or allocated afterwards. @return also THP_CLOSED */
thp_code thp_node_close(thp_node *node, uint32_t caller);
/** @} */

/**
 * @name The shrinker
 * A batch is the pages of one take. It belongs to the caller that took it, and each caller can have one open batch. Calls on the
 * node can free pages of a batch before they are tried; such pages are skipped. Each call can also return THP_EMPTY and THP_NULL.
 * @{
 */
/**
 * @brief Takes up to n of the oldest queued pages, in order, tries each, and returns the pinned ones.
 * @return THP_OK, THP_BAD_CALLER, THP_BAD_COUNT (n above 128), THP_HAS_BATCH, THP_OUT_OF_MEMORY
 */
thp_code thp_node_scan(thp_node *node, uint32_t caller, uint32_t n, thp_scan *scan);
/**
 * @brief Takes up to n of the oldest queued pages, in order, into a batch of the caller, which is open afterwards.
 * @param node the node
 * @param caller the caller's number, below 64
 * @param n the greatest number of pages to take, at most 128
 * @param[out] count the number of pages taken
 * @return THP_OK, THP_BAD_CALLER, THP_BAD_COUNT (n above 128), THP_BATCH_OPEN (the caller has one), THP_HAS_BATCH,
 *        THP_OUT_OF_MEMORY
 */
thp_code thp_node_take(thp_node *node, uint32_t caller, uint32_t n, uint32_t *count);
/**
 * @brief Tries the next page of the caller's open batch that is still in flight.
 * @return THP_OK, THP_NO_BATCH, THP_OUT_OF_MEMORY
 */
thp_code thp_node_split_next(thp_node *node, uint32_t caller, thp_tried *tried);
/**
 * @brief Returns the remaining pages of the caller's open batch, and closes the batch. If the call fails, the batch stays open.
 * @return THP_OK, THP_NO_BATCH, THP_OUT_OF_MEMORY
 */
thp_code thp_node_put_back(thp_node *node, uint32_t caller, thp_back *back);
/**
 * @brief Closes the caller's open batch, and leaves its pages in flight, out of the queue. They leave the flight only when they
 * are freed; until then the caller's takes and scans are refused.
 * @return THP_OK, THP_NO_BATCH
 */
thp_code thp_node_abandon(thp_node *node, uint32_t caller);
/** @} */

/**
 * @name A node's memory, pages, statistics and journal
 * @{
 */
/**
 * @brief Reserves room in the journal for so many events: calls that record no more than that never fail for lack of memory. For
 * each page, a scan needs three events, a take one, and a put back one.
 * @return THP_OK, THP_EMPTY, THP_OUT_OF_MEMORY, THP_NULL
 */
thp_code thp_node_reserve(thp_node *node, uint32_t events);
/** @brief Stores the number of queued pages, which is the shrinker's count. @return THP_OK, THP_EMPTY, THP_NULL */
thp_code thp_node_queue_length(const thp_node *node, uint32_t *pages);
/**
 * @brief Stores the queued pages, oldest first, as many as there is room for. Allocates no memory, and takes constant time for each.
 * @param node the node
 * @param[out] pages receives the pages; may be null if room is 0
 * @param room the number of pages that the array holds
 * @param[out] count the number of queued pages, which can be greater than room
 * @return THP_OK, THP_EMPTY, THP_NULL
 */
thp_code thp_node_queue(const thp_node *node, uint64_t *pages, size_t room, uint32_t *count);
/**
 * @brief Stores the state of a live page.
 * @return THP_OK, THP_EMPTY, THP_NO_PAGE, THP_NULL
 */
thp_code thp_node_page(const thp_node *node, uint64_t page, thp_page_state *state);
/**
 * @brief Stores the own map count of a subpage of a live page: the number of PTE entries that map it. Its total map count is that plus
 * the whole map count of its page.
 * @return THP_OK, THP_EMPTY, THP_NO_PAGE, THP_BAD_RANGE (the page has no such subpage), THP_NULL
 */
thp_code thp_node_mapcount(const thp_node *node, uint64_t page, uint32_t subpage, uint32_t *own);
/** @brief Stores the node's statistics. @return THP_OK, THP_EMPTY, THP_NULL */
thp_code thp_node_stats(const thp_node *node, thp_stats *stats);
/**
 * @brief Writes the journal as text (docs/FORMATS.md), which thp_check_text reads. The text has no terminating null byte. Each call
 * builds the text, even if the buffer is too small for it: a large buffer makes one call suffice.
 * @param node the node
 * @param[out] buffer receives the text if it fits; may be null if capacity is 0
 * @param capacity the size of the buffer in bytes; 0 to find out the required size
 * @param[out] size the length of the text in bytes, with THP_OK and THP_TOO_SMALL
 * @return THP_OK, THP_EMPTY, THP_NO_JOURNAL, THP_TOO_SMALL, THP_OUT_OF_MEMORY, THP_NULL
 */
thp_code thp_node_journal(const thp_node *node, void *buffer, size_t capacity, size_t *size);
/** @} */

/**
 * @name A shared node
 * A cell is a node that threads share through passes. Each pass has some of the cell's callers and its own handle, and belongs to
 * one thread at a time. No call waits: if another pass has the node, the call returns THP_BUSY and has no effect. A pass of all
 * callers never gets THP_BUSY. Another pass has the node only during one call, so to wait, repeat the call with sched_yield()
 * between tries. Which pass gets the node next is not specified. Each caller of a pass can have an open batch, which stays with the
 * caller when passes are divided and joined. A take, each try and a put back lock the node separately: between them other passes can
 * free pages of the batch, which are then skipped. Each call can also return THP_EMPTY and THP_NULL.
 * @{
 */
/**
 * @brief Creates a cell of a new node, and the pass of all its callers.
 * @param[out] pass an empty handle, which the call fills
 * @param blocks as for thp_node_create
 * @param order as for thp_node_create
 * @param underused as for thp_node_create
 * @param callers the number of callers, 1 to 4,096; they are numbered from 0
 * @return THP_OK, THP_IN_USE, THP_BAD_SIZE, THP_OUT_OF_MEMORY, THP_NULL
 */
thp_code thp_cell_create(thp_pass *pass, uint32_t blocks, uint32_t order, uint32_t underused, uint32_t callers);
/** @brief Creates a cell of a new node that only counts its events, as thp_cell_create creates one of a node that stores them. */
thp_code thp_cell_create_counting(thp_pass *pass, uint32_t blocks, uint32_t order, uint32_t underused, uint32_t callers);
/**
 * @brief Dismantles the cell and fills a node's handle with its node. The node's journal is the one legal history of everything
 * the passes did, and no caller has an open batch on it. The pass must have all callers, that is, all passes must be joined and
 * every other handle of the cell be empty, and no caller may have an open batch.
 * @param pass the cell's only pass; the call empties its handle
 * @param[out] node an empty handle, which the call fills
 * @return THP_OK, THP_IN_USE, THP_BAD_PASS, THP_BATCH_OPEN, THP_OUT_OF_MEMORY
 */
thp_code thp_cell_finish(thp_pass *pass, thp_node *node);
/**
 * @brief Frees the pass, and with the last pass the cell. After that the cell can't be finished. Open batches of the pass's
 * callers are closed as by thp_pass_abandon.
 * @return THP_OK
 */
thp_code thp_pass_destroy(thp_pass *pass);
/**
 * @brief Divides the callers of a pass: those below `at` stay, and those from `at` on move to the other handle.
 * @param pass the pass
 * @param at the first caller that moves
 * @param[out] other an empty handle, which the call fills
 * @return THP_OK, THP_IN_USE, THP_BAD_CALLER (none would stay, or none would move), THP_OUT_OF_MEMORY
 */
thp_code thp_pass_split(thp_pass *pass, uint32_t at, thp_pass *other);
/**
 * @brief Adds the other pass's callers, which must directly follow this one's, and empties the other handle.
 * @return THP_OK, THP_BAD_PASS
 */
thp_code thp_pass_join(thp_pass *pass, thp_pass *other);
/** @brief Stores the callers of the pass: those from `first` on and below `end`. @return THP_OK */
thp_code thp_pass_callers(const thp_pass *pass, uint32_t *first, uint32_t *end);
/**
 * @brief Does what thp_node_alloc does.
 * @return THP_OK, THP_BAD_CALLER (not one of the pass's), THP_BUSY, THP_CLOSED, THP_NO_BLOCK, THP_OUT_OF_MEMORY
 */
thp_code thp_pass_alloc(thp_pass *pass, uint32_t caller, uint64_t *page);
/**
 * @brief Does what thp_node_split_pmd does.
 * @return as thp_node_split_pmd; THP_BAD_CALLER if the caller is not one of the pass's; THP_BUSY
 */
thp_code thp_pass_split_pmd(thp_pass *pass, uint32_t caller, uint64_t page);
/**
 * @brief Does what thp_node_unmap_sub does.
 * @return as thp_node_unmap_sub; THP_BAD_CALLER if the caller is not one of the pass's; THP_BUSY
 */
thp_code thp_pass_unmap_sub(thp_pass *pass, uint32_t caller, uint64_t page, uint32_t first, uint32_t count, thp_done *done);
/**
 * @brief Does what thp_node_map_whole does.
 * @return as thp_node_map_whole; THP_BAD_CALLER if the caller is not one of the pass's; THP_BUSY
 */
thp_code thp_pass_map_whole(thp_pass *pass, uint32_t caller, uint64_t page);
/**
 * @brief Does what thp_node_map_sub does.
 * @return as thp_node_map_sub; THP_BAD_CALLER if the caller is not one of the pass's; THP_BUSY
 */
thp_code thp_pass_map_sub(thp_pass *pass, uint32_t caller, uint64_t page, uint32_t first, uint32_t count);
/**
 * @brief Does what thp_node_pin does.
 * @return as thp_node_pin; THP_BAD_CALLER if the caller is not one of the pass's; THP_BUSY
 */
thp_code thp_pass_pin(thp_pass *pass, uint32_t caller, uint64_t page);
/**
 * @brief Does what thp_node_write does.
 * @return as thp_node_write; THP_BAD_CALLER if the caller is not one of the pass's; THP_BUSY
 */
thp_code thp_pass_write(thp_pass *pass, uint32_t caller, uint64_t page, uint32_t first, uint32_t count);
/**
 * @brief Does what thp_node_zero does.
 * @return as thp_node_zero; THP_BAD_CALLER if the caller is not one of the pass's; THP_BUSY
 */
thp_code thp_pass_zero(thp_pass *pass, uint32_t caller, uint64_t page, uint32_t first, uint32_t count);
/**
 * @brief Does what thp_node_close does.
 * @return as thp_node_close; THP_BAD_CALLER if the caller is not one of the pass's; THP_BUSY
 */
thp_code thp_pass_close(thp_pass *pass, uint32_t caller);
/**
 * @brief Does what thp_node_unmap_whole does.
 * @return as thp_node_unmap_whole; THP_BAD_CALLER if the caller is not one of the pass's; THP_BUSY
 */
thp_code thp_pass_unmap_whole(thp_pass *pass, uint32_t caller, uint64_t page, thp_done *done);
/**
 * @brief Does what thp_node_unpin does.
 * @return as thp_node_unpin; THP_BAD_CALLER if the caller is not one of the pass's; THP_BUSY
 */
thp_code thp_pass_unpin(thp_pass *pass, uint32_t caller, uint64_t page, thp_done *done);
/**
 * @brief Does what thp_node_scan does.
 * @return as thp_node_scan; THP_BAD_CALLER if the caller is not one of the pass's; THP_BUSY
 */
thp_code thp_pass_scan(thp_pass *pass, uint32_t caller, uint32_t n, thp_scan *scan);
/**
 * @brief Takes up to n of the oldest queued pages, in order, into a batch of the caller, which is open afterwards.
 * @param pass the pass
 * @param caller the caller's number, one of the pass's
 * @param n the greatest number of pages to take, at most 128
 * @param[out] count the number of pages taken
 * @return THP_OK, THP_BAD_CALLER, THP_BAD_COUNT (n above 128), THP_BATCH_OPEN (the caller has one), THP_BUSY, THP_HAS_BATCH,
 *         THP_OUT_OF_MEMORY
 */
thp_code thp_pass_take(thp_pass *pass, uint32_t caller, uint32_t n, uint32_t *count);
/**
 * @brief Tries the next page of the caller's open batch that is still in flight.
 * @return THP_OK, THP_BAD_CALLER, THP_NO_BATCH, THP_BUSY, THP_OUT_OF_MEMORY
 */
thp_code thp_pass_split_next(thp_pass *pass, uint32_t caller, thp_tried *tried);
/**
 * @brief Returns the remaining pages of the caller's open batch, and closes the batch. If the call fails, the batch stays open.
 * @return THP_OK, THP_BAD_CALLER, THP_NO_BATCH, THP_BUSY, THP_OUT_OF_MEMORY
 */
thp_code thp_pass_put_back(thp_pass *pass, uint32_t caller, thp_back *back);
/**
 * @brief Does what thp_node_abandon does. Never returns THP_BUSY, since no node is involved.
 * @return THP_OK, THP_BAD_CALLER, THP_NO_BATCH
 */
thp_code thp_pass_abandon(thp_pass *pass, uint32_t caller);
/** @brief Stores the number of queued pages, even while another pass has the node. @return THP_OK */
thp_code thp_pass_count(thp_pass *pass, uint32_t *pages);
/** @} */

#ifdef __cplusplus
}
#endif
#endif
