//! A node.
use std::fmt;

use leversorrel_sys as sys;

use crate::batch::Batch;
use crate::fault::{done, Fault};
use crate::sub_set::SubSet;

/// The effect of an unmap or an unpin on its page.
#[derive(Clone, Copy, PartialEq, Eq, Hash, Debug)]
#[non_exhaustive]
pub enum Outcome {
    /// The page stays live, on the list that it was on.
    Stays,
    /// The page joined the deferred split queue.
    Queued,
    /// The page was freed.
    Freed,
}

/// The result of an unmap or an unpin.
#[derive(Clone, Copy, PartialEq, Eq, Hash, Debug)]
pub struct Done {
    /// The effect on the page.
    pub outcome: Outcome,
    /// The subpages whose frames were given back.
    pub released: SubSet,
}

impl Done {
    pub(crate) fn of(reported: sys::thp_done) -> Done {
        let outcome = match reported.outcome {
            sys::THP_STAYS => Outcome::Stays,
            sys::THP_QUEUED => Outcome::Queued,
            _ => Outcome::Freed,
        };
        Done { outcome, released: SubSet::of(reported.released) }
    }
}

/// The effect of a try of a batch's next page.
#[derive(Clone, Copy, PartialEq, Eq, Hash, Debug)]
#[non_exhaustive]
pub enum Tried {
    /// No page of the batch is left to try.
    Done,
    /// The page was split into base pages.
    Split(u64),
    /// The page has pins and stays in the batch.
    Pinned(u64),
    /// The page is not worth a split and left the batch.
    Used(u64),
}

impl Tried {
    pub(crate) fn of(reported: sys::thp_tried) -> Tried {
        match reported.kind {
            sys::THP_TRY_DONE => Tried::Done,
            sys::THP_TRY_SPLIT => Tried::Split(reported.page),
            sys::THP_TRY_PINNED => Tried::Pinned(reported.page),
            _ => Tried::Used(reported.page),
        }
    }
}

/// The result of a scan, as page counts.
#[derive(Clone, Copy, PartialEq, Eq, Hash, Debug)]
pub struct Scan {
    /// The number of pages taken from the queue.
    pub taken: u32,
    /// The number of pages split.
    pub split: u32,
    /// The number of pages found pinned.
    pub pinned: u32,
    /// The number of pinned pages queued again.
    pub back: u32,
    /// The number of pinned pages not queued again.
    pub dropped: u32,
    /// The number of pages not worth a split.
    pub used: u32,
}

impl Scan {
    pub(crate) fn of(reported: sys::thp_scan) -> Scan {
        let sys::thp_scan { taken, split, pinned, back, dropped, used } = reported;
        Scan { taken, split, pinned, back, dropped, used }
    }
}

/// The result of a put back, as page counts.
#[derive(Clone, Copy, PartialEq, Eq, Hash, Debug)]
pub struct Back {
    /// The number of pages queued again.
    pub back: u32,
    /// The number of pages not queued again.
    pub dropped: u32,
}

impl Back {
    pub(crate) fn of(reported: sys::thp_back) -> Back {
        Back { back: reported.back, dropped: reported.dropped }
    }
}

/// A node's statistics; numbers greater than 2^64 - 1 are stored as that.
#[derive(Clone, Copy, PartialEq, Eq, Hash, Debug)]
pub struct Stats {
    /// The number of events in the journal.
    pub events: u64,
    /// The number of pages ever allocated, including those that were freed.
    pub allocations: u64,
    /// The number of pages in the deferred split queue.
    pub queued: u64,
    /// The number of frames given back.
    pub frames_given: u64,
    /// The number of frames that the live pages hold.
    pub frames_held: u64,
    /// The number of pages split.
    pub split_page: u64,
    /// The number of tries that found a page pinned.
    pub split_page_failed: u64,
    /// The number of times that an unmap or an unpin queued a page. A put back or an allocation doesn't count.
    pub deferred_split_page: u64,
    /// The number of pages split that were underused and not partly mapped.
    pub underused_split_page: u64,
    /// The number of PMD mappings split.
    pub split_pmd: u64,
}

/// The list that a page is on.
#[derive(Clone, Copy, PartialEq, Eq, Hash, Debug)]
#[non_exhaustive]
pub enum List {
    /// No list.
    Nowhere,
    /// The deferred split queue.
    Queue,
    /// The flight of this caller: a take took the page, and nothing has removed it since.
    Flight(u32),
}

/// The state of a live page.
#[derive(Clone, Copy, PartialEq, Eq, Hash, Debug)]
#[non_exhaustive]
pub struct PageState {
    /// The whole map count: the number of PMD entries that map the page.
    pub whole_mapcount: u32,
    /// The number of pins.
    pub pins: u32,
    /// Whether the page is partly mapped.
    pub partly_mapped: bool,
    /// Whether the page was split into base pages.
    pub split: bool,
    /// The list that the page is on.
    pub list: List,
}

impl PageState {
    fn of(reported: sys::thp_page_state) -> PageState {
        let sys::thp_page_state { whole_mapcount, pins, partly_mapped, split, list, caller } = reported;
        let list = match list {
            sys::THP_LIST_NONE => List::Nowhere,
            sys::THP_LIST_QUEUE => List::Queue,
            _ => List::Flight(caller),
        };
        PageState { whole_mapcount, pins, partly_mapped: partly_mapped != 0, split: split != 0, list }
    }
}

// The library's number for a threshold: without one, a number that no page can exceed.
pub(crate) fn threshold_of(underused: Option<u32>) -> Result<u32, Fault> {
    match underused {
        Some(threshold) if threshold >= 512 => Err(Fault::BadSize),
        Some(threshold) => Ok(threshold),
        None => Ok(sys::THP_UNDERUSED_OFF),
    }
}

/// A memory node: its huge pages, their deferred split queue, and the journal of every call that changed them.
///
/// Callers are numbered from 0 to 63; a greater number fails with [`Fault::BadCaller`]. A call that records events can also fail
/// with [`Fault::OutOfMemory`]. A call that fails leaves the node unchanged.
pub struct Node {
    handle: sys::thp_node,
}

// SAFETY: a handle refers to plain data and memory of its own: proved, `handle_send` in crates/thp_capi/proofs/Crossings.antt.
// The handle's memory is freed with the C library's allocator, which accepts memory from any thread.
unsafe impl Send for Node {}

impl Node {
    // The node of a handle that is not empty and that nothing else uses.
    pub(crate) fn of(handle: sys::thp_node) -> Node {
        Node { handle }
    }

    /// Creates a node with no page, of `blocks` blocks (1 to 16,777,216), whose pages have `2^order` subpages (order 2 to 9).
    ///
    /// With a threshold `underused`, below `2^order`, a page with more zero-filled subpages is worth a split. Fails with
    /// [`Fault::BadSize`] or [`Fault::OutOfMemory`].
    pub fn new(blocks: u32, order: u32, underused: Option<u32>) -> Result<Node, Fault> {
        let threshold = threshold_of(underused)?;
        let mut handle = sys::THP_NODE_INIT;
        // SAFETY: the handle is empty, and local until the node owns it.
        done(unsafe { sys::thp_node_create(&mut handle, blocks, order, threshold) })?;
        Ok(Node { handle })
    }

    /// Creates a node as [`Node::new`] does, which only counts its events: its memory doesn't grow. It has no journal, so
    /// [`Node::journal`] fails with [`Fault::NoJournal`].
    ///
    /// ```
    /// use leversorrel::{Fault, Node};
    ///
    /// let mut node = Node::counting(16, 9, None)?;
    /// node.alloc(0)?;
    /// assert_eq!(node.stats().events, 1);
    /// assert_eq!(node.journal(), Err(Fault::NoJournal));
    /// # Ok::<(), Fault>(())
    /// ```
    pub fn counting(blocks: u32, order: u32, underused: Option<u32>) -> Result<Node, Fault> {
        let threshold = threshold_of(underused)?;
        let mut handle = sys::THP_NODE_INIT;
        // SAFETY: the handle is empty, and local until the node owns it.
        done(unsafe { sys::thp_node_create_counting(&mut handle, blocks, order, threshold) })?;
        Ok(Node { handle })
    }

    /// Allocates a page, mapped whole once; its number is the number of allocations before it. The page keeps its block until it is
    /// freed, also after a split. Fails with `Closed` or `NoBlock`.
    pub fn alloc(&mut self, caller: u32) -> Result<u64, Fault> {
        let mut page = 0;
        // SAFETY: the handle is this node's own, and the page is a local.
        done(unsafe { sys::thp_node_alloc(&mut self.handle, caller, &mut page) })?;
        Ok(page)
    }

    /// Maps the whole page once more, by a PMD entry. Fails with `NoPage`, `IsSplit` or `TooMany`.
    pub fn map_whole(&mut self, caller: u32, page: u64) -> Result<(), Fault> {
        // SAFETY: the handle is this node's own.
        done(unsafe { sys::thp_node_map_whole(&mut self.handle, caller, page) })
    }

    /// Removes one mapping of the whole page. Fails with `NoPage`, `IsSplit` or `NotMapped`.
    pub fn unmap_whole(&mut self, caller: u32, page: u64) -> Result<Done, Fault> {
        let mut reported = sys::thp_done::default();
        // SAFETY: the handle is this node's own, and the result goes to a local.
        done(unsafe { sys::thp_node_unmap_whole(&mut self.handle, caller, page, &mut reported) })?;
        Ok(Done::of(reported))
    }

    /// Maps each of the `count` subpages from `first` on once more, by PTE entries. Fails with `NoPage`, `BadRange`, `Gone` or
    /// `TooMany`.
    pub fn map_sub(&mut self, caller: u32, page: u64, first: u32, count: u32) -> Result<(), Fault> {
        // SAFETY: the handle is this node's own.
        done(unsafe { sys::thp_node_map_sub(&mut self.handle, caller, page, first, count) })
    }

    /// Removes one mapping of each of the `count` subpages from `first` on, which can queue or free the page. Fails with
    /// `NoPage`, `BadRange` or `NotMapped`.
    pub fn unmap_sub(&mut self, caller: u32, page: u64, first: u32, count: u32) -> Result<Done, Fault> {
        let mut reported = sys::thp_done::default();
        // SAFETY: the handle is this node's own, and the result goes to a local.
        done(unsafe { sys::thp_node_unmap_sub(&mut self.handle, caller, page, first, count, &mut reported) })?;
        Ok(Done::of(reported))
    }

    /// Replaces one PMD mapping by a PTE mapping of each subpage. Fails with `NoPage`, `IsSplit` or `NotMapped`.
    pub fn split_pmd(&mut self, caller: u32, page: u64) -> Result<(), Fault> {
        // SAFETY: the handle is this node's own.
        done(unsafe { sys::thp_node_split_pmd(&mut self.handle, caller, page) })
    }

    /// Adds a pin, which prevents the page from being split. Fails with `NoPage`, `IsSplit` or `TooMany`.
    pub fn pin(&mut self, caller: u32, page: u64) -> Result<(), Fault> {
        // SAFETY: the handle is this node's own.
        done(unsafe { sys::thp_node_pin(&mut self.handle, caller, page) })
    }

    /// Removes a pin, which can free the page. Fails with `NoPage`, `IsSplit` or `NotPinned`.
    pub fn unpin(&mut self, caller: u32, page: u64) -> Result<Done, Fault> {
        let mut reported = sys::thp_done::default();
        // SAFETY: the handle is this node's own, and the result goes to a local.
        done(unsafe { sys::thp_node_unpin(&mut self.handle, caller, page, &mut reported) })?;
        Ok(Done::of(reported))
    }

    /// Records that data is written to each of the `count` subpages from `first` on, which are not zero-filled afterwards. Fails
    /// with `NoPage`, `BadRange`, `IsSplit` or `NotMapped`. Of a split page nothing more is recorded: where another thread's scan may
    /// have split the page, `IsSplit` can be ignored.
    pub fn write(&mut self, caller: u32, page: u64, first: u32, count: u32) -> Result<(), Fault> {
        // SAFETY: the handle is this node's own.
        done(unsafe { sys::thp_node_write(&mut self.handle, caller, page, first, count) })
    }

    /// Records that zeros are written to each of the `count` subpages from `first` on, which are zero-filled afterwards. Fails as
    /// [`Node::write`] does.
    pub fn zero(&mut self, caller: u32, page: u64, first: u32, count: u32) -> Result<(), Fault> {
        // SAFETY: the handle is this node's own.
        done(unsafe { sys::thp_node_zero(&mut self.handle, caller, page, first, count) })
    }

    /// Closes the node: no page is queued or allocated afterwards. Fails with `Closed`.
    pub fn close(&mut self, caller: u32) -> Result<(), Fault> {
        // SAFETY: the handle is this node's own.
        done(unsafe { sys::thp_node_close(&mut self.handle, caller) })
    }

    /// Takes up to `n` of the oldest queued pages (at most 128), in order, tries each, and returns the pinned ones. Fails with
    /// `BadCount` or `HasBatch`.
    pub fn scan(&mut self, caller: u32, n: u32) -> Result<Scan, Fault> {
        let mut reported = sys::thp_scan::default();
        // SAFETY: the handle is this node's own, and the result goes to a local.
        done(unsafe { sys::thp_node_scan(&mut self.handle, caller, n, &mut reported) })?;
        Ok(Scan::of(reported))
    }

    /// Takes up to `n` of the oldest queued pages (at most 128), in order, into the caller's batch, which is open afterwards.
    /// Returns the number of pages taken. Fails with `BadCount`, `BatchOpen` or `HasBatch`.
    pub fn take(&mut self, caller: u32, n: u32) -> Result<u32, Fault> {
        let mut count = 0;
        // SAFETY: the handle is this node's own, and the count is a local.
        done(unsafe { sys::thp_node_take(&mut self.handle, caller, n, &mut count) })?;
        Ok(count)
    }

    /// Takes pages as [`Node::take`] does, and returns the batch as a value that is put back when it is dropped.
    pub fn batch(&mut self, caller: u32, n: u32) -> Result<Batch<'_, Node>, Fault> {
        let taken = self.take(caller, n)?;
        Ok(Batch::new(self, caller, taken))
    }

    /// Tries the next page of the caller's open batch that is still in flight. Fails with `NoBatch`.
    pub fn split_next(&mut self, caller: u32) -> Result<Tried, Fault> {
        let mut reported = sys::thp_tried::default();
        // SAFETY: the handle is this node's own, and the result goes to a local.
        done(unsafe { sys::thp_node_split_next(&mut self.handle, caller, &mut reported) })?;
        Ok(Tried::of(reported))
    }

    /// Returns the remaining pages of the caller's open batch, and closes the batch. Fails with `NoBatch`; with `OutOfMemory` the
    /// batch stays open.
    pub fn put_back(&mut self, caller: u32) -> Result<Back, Fault> {
        let mut reported = sys::thp_back::default();
        // SAFETY: the handle is this node's own, and the result goes to a local.
        done(unsafe { sys::thp_node_put_back(&mut self.handle, caller, &mut reported) })?;
        Ok(Back::of(reported))
    }

    /// Closes the caller's open batch, and leaves its pages in flight, out of the queue. Fails with `NoBatch`.
    pub fn abandon(&mut self, caller: u32) -> Result<(), Fault> {
        // SAFETY: the handle is this node's own.
        done(unsafe { sys::thp_node_abandon(&mut self.handle, caller) })
    }

    /// Reserves room in the journal for `events` events: calls that record no more than that never fail with
    /// [`Fault::OutOfMemory`].
    pub fn reserve(&mut self, events: u32) -> Result<(), Fault> {
        // SAFETY: the handle is this node's own.
        done(unsafe { sys::thp_node_reserve(&mut self.handle, events) })
    }

    /// Returns the number of queued pages, which is the shrinker's count.
    pub fn queue_length(&self) -> u32 {
        let mut pages = 0;
        // SAFETY: the handle is this node's own and is not empty, and the number is a local.
        unsafe { sys::thp_node_queue_length(&self.handle, &mut pages) };
        pages
    }

    /// Returns the queued pages, oldest first. Fails with [`Fault::OutOfMemory`].
    pub fn queue(&self) -> Result<Vec<u64>, Fault> {
        let length = self.queue_length() as usize;
        let mut pages = Vec::new();
        pages.try_reserve_exact(length).map_err(|_| Fault::OutOfMemory)?;
        pages.resize(length, 0);
        let mut count = 0;
        // SAFETY: the handle is this node's own, the buffer is the vector's, and the number is a local.
        done(unsafe { sys::thp_node_queue(&self.handle, pages.as_mut_ptr(), pages.len(), &mut count) })?;
        Ok(pages)
    }

    /// Returns the state of a live page. Fails with `NoPage`.
    pub fn page(&self, page: u64) -> Result<PageState, Fault> {
        let mut reported = sys::thp_page_state::default();
        // SAFETY: the handle is this node's own, and the result goes to a local.
        done(unsafe { sys::thp_node_page(&self.handle, page, &mut reported) })?;
        Ok(PageState::of(reported))
    }

    /// Returns the own map count of a subpage of a live page: the number of PTE entries that map it. Fails with `NoPage` or
    /// `BadRange`.
    pub fn mapcount(&self, page: u64, subpage: u32) -> Result<u32, Fault> {
        let mut own = 0;
        // SAFETY: the handle is this node's own, and the number is a local.
        done(unsafe { sys::thp_node_mapcount(&self.handle, page, subpage, &mut own) })?;
        Ok(own)
    }

    /// Returns the node's statistics.
    pub fn stats(&self) -> Stats {
        let mut reported = sys::thp_stats::default();
        // SAFETY: the handle is this node's own and is not empty, and the result goes to a local.
        unsafe { sys::thp_node_stats(&self.handle, &mut reported) };
        Stats {
            events: reported.events,
            allocations: reported.allocations,
            queued: reported.queued,
            frames_given: reported.frames_given,
            frames_held: reported.frames_held,
            split_page: reported.split_page,
            split_page_failed: reported.split_page_failed,
            deferred_split_page: reported.deferred_split_page,
            underused_split_page: reported.underused_split_page,
            split_pmd: reported.split_pmd,
        }
    }

    /// Returns the journal as text, which [`check`](crate::check) reads. Fails with [`Fault::NoJournal`] if the node only counts
    /// its events, and with [`Fault::OutOfMemory`].
    pub fn journal(&self) -> Result<Vec<u8>, Fault> {
        let mut text: Vec<u8> = Vec::new();
        let mut size = 0;
        loop {
            // SAFETY: the handle is this node's own, the buffer is the vector's, and the size is a local.
            match unsafe { sys::thp_node_journal(&self.handle, text.as_mut_ptr().cast(), text.len(), &mut size) } {
                sys::THP_OK => return Ok(text),
                sys::THP_TOO_SMALL => {
                    text.try_reserve_exact(size).map_err(|_| Fault::OutOfMemory)?;
                    text.resize(size, 0);
                }
                code => return Err(Fault::of(code)),
            }
        }
    }
}

impl Drop for Node {
    fn drop(&mut self) {
        // SAFETY: the handle is this node's own, and nothing uses it later.
        unsafe { sys::thp_node_destroy(&mut self.handle) };
    }
}

impl fmt::Debug for Node {
    fn fmt(&self, f: &mut fmt::Formatter<'_>) -> fmt::Result {
        f.debug_struct("Node").finish_non_exhaustive()
    }
}
