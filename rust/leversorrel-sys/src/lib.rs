//! The declarations of `thp.h`, and the link to `libthp.a`: the proved deferred split queue for transparent huge pages.
//!
//! Names and types are those of C. `thp.h` and `libthp(3)` describe each call, and what a program must guarantee. The crate
//! `leversorrel` has safe types over these declarations. README.md lists where the build looks for the library.
#![no_std]
#![deny(missing_docs)]
#![allow(non_camel_case_types)]

use core::ffi::{c_char, c_void};
use core::mem::size_of;
use core::ptr::null_mut;

/// What a call returns: `THP_OK`, or another constant of this type.
pub type thp_code = u32;

/// A node's handle. Its fields are private to the library.
#[repr(C)]
pub struct thp_node {
    at: *mut c_void,
    live: u32,
}

/// The empty handle of a node.
pub const THP_NODE_INIT: thp_node = thp_node { at: null_mut(), live: 0 };

/// A pass's handle. Its fields are private to the library.
#[repr(C)]
pub struct thp_pass {
    at: *mut c_void,
    live: u32,
}

/// The empty handle of a pass.
pub const THP_PASS_INIT: thp_pass = thp_pass { at: null_mut(), live: 0 };

/// The handle of a check of a text that arrives in parts. Its fields are private to the library.
#[repr(C)]
pub struct thp_check {
    at: *mut c_void,
    live: u32,
}

/// The empty handle of a check.
pub const THP_CHECK_INIT: thp_check = thp_check { at: null_mut(), live: 0 };

/// The result of an unmap or an unpin.
#[repr(C)]
#[derive(Clone, Copy, Debug, Default, PartialEq, Eq)]
pub struct thp_done {
    /// `THP_STAYS`, `THP_QUEUED` or `THP_FREED`.
    pub outcome: u32,
    /// The subpages whose frames were given back: subpage i is bit i % 64 of word i / 64.
    pub released: [u64; 8],
}

/// The result of a scan, as page counts.
#[repr(C)]
#[derive(Clone, Copy, Debug, Default, PartialEq, Eq)]
pub struct thp_scan {
    /// Pages taken from the queue.
    pub taken: u32,
    /// Pages split.
    pub split: u32,
    /// Pages found pinned.
    pub pinned: u32,
    /// Pinned pages queued again.
    pub back: u32,
    /// Pinned pages not queued again.
    pub dropped: u32,
    /// Pages not worth a split.
    pub used: u32,
}

/// The result of a try.
#[repr(C)]
#[derive(Clone, Copy, Debug, Default, PartialEq, Eq)]
pub struct thp_tried {
    /// One of `THP_TRY_..`.
    pub kind: u32,
    /// The page that was tried; 0 with `THP_TRY_DONE`.
    pub page: u64,
}

/// The result of a put back, as page counts.
#[repr(C)]
#[derive(Clone, Copy, Debug, Default, PartialEq, Eq)]
pub struct thp_back {
    /// Pages queued again.
    pub back: u32,
    /// Pages not queued again.
    pub dropped: u32,
}

/// A node's statistics; numbers greater than 2^64 - 1 are stored as that.
#[repr(C)]
#[derive(Clone, Copy, Debug, Default, PartialEq, Eq)]
pub struct thp_stats {
    /// Events in the journal.
    pub events: u64,
    /// Pages ever allocated, including freed ones.
    pub allocations: u64,
    /// Pages in the deferred split queue.
    pub queued: u64,
    /// Frames given back.
    pub frames_given: u64,
    /// Frames that the live pages hold.
    pub frames_held: u64,
    /// Pages split.
    pub split_page: u64,
    /// Tries that found a page pinned.
    pub split_page_failed: u64,
    /// Times an unmap or an unpin queued a page.
    pub deferred_split_page: u64,
    /// Pages split that were underused and not partly mapped.
    pub underused_split_page: u64,
    /// PMD mappings split.
    pub split_pmd: u64,
}

/// The state of a live page.
#[repr(C)]
#[derive(Clone, Copy, Debug, Default, PartialEq, Eq)]
pub struct thp_page_state {
    /// The whole map count: PMD entries that map the page.
    pub whole_mapcount: u32,
    /// Pins.
    pub pins: u32,
    /// 1 if the page is partly mapped, otherwise 0.
    pub partly_mapped: u32,
    /// 1 if the page was split into base pages, otherwise 0.
    pub split: u32,
    /// One of `THP_LIST_..`.
    pub list: u32,
    /// With `THP_LIST_FLIGHT` the caller in whose flight the page is, otherwise 0.
    pub caller: u32,
}

/// The functions from which the library gets its memory; they behave as malloc, realloc and free do.
#[repr(C)]
#[derive(Clone, Copy, Debug)]
pub struct thp_allocator {
    /// Returns memory aligned to 16 bytes, or null on failure.
    pub allocate: Option<unsafe extern "C" fn(size: usize) -> *mut c_void>,
    /// Returns null on failure, and leaves the memory unchanged.
    pub resize: Option<unsafe extern "C" fn(memory: *mut c_void, size: usize) -> *mut c_void>,
    /// Frees memory from the other two; never called with null.
    pub give_back: Option<unsafe extern "C" fn(memory: *mut c_void)>,
}

const _: () = assert!(size_of::<thp_node>() == 2 * size_of::<usize>());
const _: () = assert!(size_of::<thp_pass>() == 2 * size_of::<usize>());
const _: () = assert!(size_of::<thp_check>() == 2 * size_of::<usize>());
const _: () = assert!(size_of::<thp_done>() == 72);
const _: () = assert!(size_of::<thp_scan>() == 24);
const _: () = assert!(size_of::<thp_tried>() == 16);
const _: () = assert!(size_of::<thp_back>() == 8);
const _: () = assert!(size_of::<thp_stats>() == 80);
const _: () = assert!(size_of::<thp_page_state>() == 24);
const _: () = assert!(size_of::<thp_allocator>() == 3 * size_of::<usize>());

/// The call succeeded.
pub const THP_OK: thp_code = 0;
/// The page was never allocated, or was freed.
pub const THP_NO_PAGE: thp_code = 1;
/// The range is empty or exceeds the page.
pub const THP_BAD_RANGE: thp_code = 2;
/// The page is split into base pages.
pub const THP_IS_SPLIT: thp_code = 3;
/// There is no such mapping.
pub const THP_NOT_MAPPED: thp_code = 4;
/// A frame of the range was given back.
pub const THP_GONE: thp_code = 5;
/// The page has no pin.
pub const THP_NOT_PINNED: thp_code = 6;
/// A count is at 65,535.
pub const THP_TOO_MANY: thp_code = 7;
/// The node is closed.
pub const THP_CLOSED: thp_code = 8;
/// Every block holds a live page.
pub const THP_NO_BLOCK: thp_code = 9;
/// The caller has pages in flight.
pub const THP_HAS_BATCH: thp_code = 10;
/// Memory could not be allocated.
pub const THP_OUT_OF_MEMORY: thp_code = 11;
/// The handle is empty.
pub const THP_EMPTY: thp_code = 12;
/// The handle is not empty.
pub const THP_IN_USE: thp_code = 13;
/// The caller's number is 64 or more.
pub const THP_BAD_CALLER: thp_code = 14;
/// No node has this shape, or no cell this number of callers.
pub const THP_BAD_SIZE: thp_code = 15;
/// More than 128 pages were requested.
pub const THP_BAD_COUNT: thp_code = 16;
/// The caller has no open batch.
pub const THP_NO_BATCH: thp_code = 17;
/// The caller already has an open batch.
pub const THP_BATCH_OPEN: thp_code = 18;
/// The buffer is too small.
pub const THP_TOO_SMALL: thp_code = 19;
/// A pointer is null.
pub const THP_NULL: thp_code = 20;
/// An event of the journal does not fit those before it.
pub const THP_ILLEGAL: thp_code = 21;
/// The text is longer than 16,777,216 bytes.
pub const THP_TEXT_TOO_LONG: thp_code = 22;
/// A byte outside 0x20 to 0x7E.
pub const THP_TEXT_BAD_BYTE: thp_code = 23;
/// The line has no line feed, or the text ends before its end line.
pub const THP_TEXT_CUT: thp_code = 24;
/// A word is empty, or not valid at its position.
pub const THP_TEXT_BAD_WORD: thp_code = 25;
/// Too few words, or too many.
pub const THP_TEXT_BAD_COUNT: thp_code = 26;
/// An operand is not a number, or is out of range.
pub const THP_TEXT_BAD_NUMBER: thp_code = 27;
/// A set is not written as its maximal runs in ascending order.
pub const THP_TEXT_BAD_SET: thp_code = 28;
/// The line is not allowed at this position.
pub const THP_TEXT_BAD_ORDER: thp_code = 29;
/// Another pass has the node: the call had no effect and can be repeated.
pub const THP_BUSY: thp_code = 30;
/// Passes of two cells, or not adjacent; or not all callers; or not the cell's last handle.
pub const THP_BAD_PASS: thp_code = 31;
/// The check is finished and reads no more text.
pub const THP_FINISHED: thp_code = 32;
/// The check found no illegal event, or is not finished.
pub const THP_NO_REASON: thp_code = 33;
/// The node only counts its events.
pub const THP_NO_JOURNAL: thp_code = 34;

// thp_outcome: the effect of an unmap or an unpin on its page
/// It stays live, on the list that it was on.
pub const THP_STAYS: u32 = 0;
/// It joined the deferred split queue.
pub const THP_QUEUED: u32 = 1;
/// It was freed.
pub const THP_FREED: u32 = 2;

// thp_try: the effect of a try of a batch's next page
/// No page of the batch is left to try.
pub const THP_TRY_DONE: u32 = 0;
/// The page was split into base pages.
pub const THP_TRY_SPLIT: u32 = 1;
/// The page has pins and stays in the batch.
pub const THP_TRY_PINNED: u32 = 2;
/// The page is not worth a split and left the batch.
pub const THP_TRY_USED: u32 = 3;

// thp_list: the list that a page is on
/// No list.
pub const THP_LIST_NONE: u32 = 0;
/// The deferred split queue.
pub const THP_LIST_QUEUE: u32 = 1;
/// The flight of a caller: a take took the page, and nothing has removed it since.
pub const THP_LIST_FLIGHT: u32 = 2;

/// The threshold with which the shrinker does not look for underused pages.
pub const THP_UNDERUSED_OFF: u32 = u32::MAX;
/// The greatest number of live pages of a node; the least is 1.
pub const THP_MAX_BLOCKS: u32 = 16_777_216;
/// The least order of a node's pages.
pub const THP_MIN_ORDER: u32 = 2;
/// The greatest order: 512 subpages.
pub const THP_MAX_ORDER: u32 = 9;
/// The greatest number of callers of a node's handle; their numbers are below it.
pub const THP_MAX_CALLERS: u32 = 64;
/// The greatest number of callers of a cell.
pub const THP_MAX_CELL_CALLERS: u32 = 4_096;
/// The greatest number of pages of one take or scan.
pub const THP_MAX_BATCH: u32 = 128;
/// The length in bytes of the longest text that `thp_check_text` reads.
pub const THP_MAX_TEXT: u32 = 16_777_216;

extern "C" {
    /// Returns a static, readable text for a code.
    pub fn thp_strerror(code: thp_code) -> *const c_char;
    /// Returns the version of the linked library as a static text.
    pub fn thp_version() -> *const c_char;
    /// Makes the library use these functions for its memory instead of those of the C library.
    pub fn thp_use_allocator(allocator: *const thp_allocator) -> thp_code;
    /// Checks whether the journals in a text are legal.
    pub fn thp_check_text(text: *const c_void, length: usize, line: *mut u32) -> thp_code;
    /// Creates a check that has read nothing.
    pub fn thp_check_create(check: *mut thp_check) -> thp_code;
    /// Frees the check and all its memory, and empties the handle.
    pub fn thp_check_destroy(check: *mut thp_check) -> thp_code;
    /// Reads the next part of the text.
    pub fn thp_check_read(check: *mut thp_check, part: *const c_void, length: usize) -> thp_code;
    /// Returns the verdict on the text read, which is taken as the whole text.
    pub fn thp_check_finish(check: *mut thp_check, line: *mut u64) -> thp_code;
    /// Writes why an event does not fit, after a `thp_check_finish` that returned `THP_ILLEGAL`: the text of `thpcheck --explain`.
    pub fn thp_check_reason(check: *mut thp_check, buffer: *mut c_void, capacity: usize, size: *mut usize) -> thp_code;
    /// Creates a node with no page.
    pub fn thp_node_create(node: *mut thp_node, blocks: u32, order: u32, underused: u32) -> thp_code;
    /// Creates a node that only counts its events, as `thp_node_create` creates one that stores them.
    pub fn thp_node_create_counting(node: *mut thp_node, blocks: u32, order: u32, underused: u32) -> thp_code;
    /// Frees the node and all its memory, and empties the handle.
    pub fn thp_node_destroy(node: *mut thp_node) -> thp_code;
    /// Allocates a page, mapped whole once; its number is the number of allocations before it.
    pub fn thp_node_alloc(node: *mut thp_node, caller: u32, page: *mut u64) -> thp_code;
    /// Maps the whole page once more, by a PMD entry.
    pub fn thp_node_map_whole(node: *mut thp_node, caller: u32, page: u64) -> thp_code;
    /// Removes one mapping of the whole page.
    pub fn thp_node_unmap_whole(node: *mut thp_node, caller: u32, page: u64, done: *mut thp_done) -> thp_code;
    /// Maps each subpage of a range once more, by PTE entries.
    pub fn thp_node_map_sub(node: *mut thp_node, caller: u32, page: u64, first: u32, count: u32) -> thp_code;
    /// Removes one PTE mapping of each subpage of a range, which can queue or free the page.
    pub fn thp_node_unmap_sub(
        node: *mut thp_node,
        caller: u32,
        page: u64,
        first: u32,
        count: u32,
        done: *mut thp_done,
    ) -> thp_code;
    /// Replaces one PMD mapping by a PTE mapping of each subpage.
    pub fn thp_node_split_pmd(node: *mut thp_node, caller: u32, page: u64) -> thp_code;
    /// Adds a pin, which prevents the page from being split.
    pub fn thp_node_pin(node: *mut thp_node, caller: u32, page: u64) -> thp_code;
    /// Removes a pin, which can free the page.
    pub fn thp_node_unpin(node: *mut thp_node, caller: u32, page: u64, done: *mut thp_done) -> thp_code;
    /// Records that data is written to each subpage of a range, which is not zero-filled afterwards.
    pub fn thp_node_write(node: *mut thp_node, caller: u32, page: u64, first: u32, count: u32) -> thp_code;
    /// Records that zeros are written to each subpage of a range, which is zero-filled afterwards.
    pub fn thp_node_zero(node: *mut thp_node, caller: u32, page: u64, first: u32, count: u32) -> thp_code;
    /// Closes the node: no page is queued or allocated afterwards.
    pub fn thp_node_close(node: *mut thp_node, caller: u32) -> thp_code;
    /// Takes up to n of the oldest queued pages, in order, tries each, and returns the pinned ones.
    pub fn thp_node_scan(node: *mut thp_node, caller: u32, n: u32, scan: *mut thp_scan) -> thp_code;
    /// Takes up to n of the oldest queued pages, in order, into a batch of the caller, which is open afterwards.
    pub fn thp_node_take(node: *mut thp_node, caller: u32, n: u32, count: *mut u32) -> thp_code;
    /// Tries the next page of the caller's open batch that is still in flight.
    pub fn thp_node_split_next(node: *mut thp_node, caller: u32, tried: *mut thp_tried) -> thp_code;
    /// Returns the remaining pages of the caller's open batch, and closes the batch.
    pub fn thp_node_put_back(node: *mut thp_node, caller: u32, back: *mut thp_back) -> thp_code;
    /// Closes the caller's open batch, and leaves its pages in flight, out of the queue.
    pub fn thp_node_abandon(node: *mut thp_node, caller: u32) -> thp_code;
    /// Reserves room in the journal for so many events: calls that record no more than that never fail for lack of memory.
    pub fn thp_node_reserve(node: *mut thp_node, events: u32) -> thp_code;
    /// Stores the number of queued pages, which is the shrinker's count.
    pub fn thp_node_queue_length(node: *const thp_node, pages: *mut u32) -> thp_code;
    /// Stores the queued pages, oldest first, as many as there is room for.
    pub fn thp_node_queue(node: *const thp_node, pages: *mut u64, room: usize, count: *mut u32) -> thp_code;
    /// Stores the state of a live page.
    pub fn thp_node_page(node: *const thp_node, page: u64, state: *mut thp_page_state) -> thp_code;
    /// Stores the own map count of a subpage of a live page: the number of PTE entries that map it.
    pub fn thp_node_mapcount(node: *const thp_node, page: u64, subpage: u32, own: *mut u32) -> thp_code;
    /// Stores the node's statistics.
    pub fn thp_node_stats(node: *const thp_node, stats: *mut thp_stats) -> thp_code;
    /// Writes the journal as text, which `thp_check_text` reads.
    pub fn thp_node_journal(node: *const thp_node, buffer: *mut c_void, capacity: usize, size: *mut usize) -> thp_code;
    /// Creates a cell of a new node, and the pass of all its callers.
    pub fn thp_cell_create(pass: *mut thp_pass, blocks: u32, order: u32, underused: u32, callers: u32) -> thp_code;
    /// Creates a cell of a new node that only counts its events, as `thp_cell_create` creates one of a node that stores them.
    pub fn thp_cell_create_counting(pass: *mut thp_pass, blocks: u32, order: u32, underused: u32, callers: u32) -> thp_code;
    /// Dismantles the cell and fills a node's handle with its node.
    pub fn thp_cell_finish(pass: *mut thp_pass, node: *mut thp_node) -> thp_code;
    /// Frees the pass, and with the last pass the cell.
    pub fn thp_pass_destroy(pass: *mut thp_pass) -> thp_code;
    /// Divides the callers of a pass: those below `at` stay, and those from `at` on move to the other handle.
    pub fn thp_pass_split(pass: *mut thp_pass, at: u32, other: *mut thp_pass) -> thp_code;
    /// Adds the other pass's callers, which must directly follow this one's, and empties the other handle.
    pub fn thp_pass_join(pass: *mut thp_pass, other: *mut thp_pass) -> thp_code;
    /// Stores the callers of the pass: those from `first` on and below `end`.
    pub fn thp_pass_callers(pass: *const thp_pass, first: *mut u32, end: *mut u32) -> thp_code;
    /// Does what `thp_node_alloc` does.
    pub fn thp_pass_alloc(pass: *mut thp_pass, caller: u32, page: *mut u64) -> thp_code;
    /// Does what `thp_node_split_pmd` does.
    pub fn thp_pass_split_pmd(pass: *mut thp_pass, caller: u32, page: u64) -> thp_code;
    /// Does what `thp_node_unmap_sub` does.
    pub fn thp_pass_unmap_sub(
        pass: *mut thp_pass,
        caller: u32,
        page: u64,
        first: u32,
        count: u32,
        done: *mut thp_done,
    ) -> thp_code;
    /// Does what `thp_node_map_whole` does.
    pub fn thp_pass_map_whole(pass: *mut thp_pass, caller: u32, page: u64) -> thp_code;
    /// Does what `thp_node_map_sub` does.
    pub fn thp_pass_map_sub(pass: *mut thp_pass, caller: u32, page: u64, first: u32, count: u32) -> thp_code;
    /// Does what `thp_node_pin` does.
    pub fn thp_pass_pin(pass: *mut thp_pass, caller: u32, page: u64) -> thp_code;
    /// Does what `thp_node_write` does.
    pub fn thp_pass_write(pass: *mut thp_pass, caller: u32, page: u64, first: u32, count: u32) -> thp_code;
    /// Does what `thp_node_zero` does.
    pub fn thp_pass_zero(pass: *mut thp_pass, caller: u32, page: u64, first: u32, count: u32) -> thp_code;
    /// Does what `thp_node_close` does.
    pub fn thp_pass_close(pass: *mut thp_pass, caller: u32) -> thp_code;
    /// Does what `thp_node_unmap_whole` does.
    pub fn thp_pass_unmap_whole(pass: *mut thp_pass, caller: u32, page: u64, done: *mut thp_done) -> thp_code;
    /// Does what `thp_node_unpin` does.
    pub fn thp_pass_unpin(pass: *mut thp_pass, caller: u32, page: u64, done: *mut thp_done) -> thp_code;
    /// Does what `thp_node_scan` does.
    pub fn thp_pass_scan(pass: *mut thp_pass, caller: u32, n: u32, scan: *mut thp_scan) -> thp_code;
    /// Takes up to n of the oldest queued pages, in order, into a batch of the caller, which is open afterwards.
    pub fn thp_pass_take(pass: *mut thp_pass, caller: u32, n: u32, count: *mut u32) -> thp_code;
    /// Tries the next page of the caller's open batch that is still in flight.
    pub fn thp_pass_split_next(pass: *mut thp_pass, caller: u32, tried: *mut thp_tried) -> thp_code;
    /// Returns the remaining pages of the caller's open batch, and closes the batch.
    pub fn thp_pass_put_back(pass: *mut thp_pass, caller: u32, back: *mut thp_back) -> thp_code;
    /// Does what `thp_node_abandon` does.
    pub fn thp_pass_abandon(pass: *mut thp_pass, caller: u32) -> thp_code;
    /// Stores the number of queued pages, even while another pass has the node.
    pub fn thp_pass_count(pass: *mut thp_pass, pages: *mut u32) -> thp_code;
}
