//! A shared node, and the passes to it.
use std::fmt;
use std::ops::Range;

use leversorrel_sys as sys;

use crate::batch::Batch;
use crate::fault::{done, Fault};
use crate::node::{Back, Done, Node, Scan, Tried};

/// A pass to a shared node: the right to call it as some of its callers.
///
/// A call fails with [`Fault::Busy`] if another pass has the node, and then has no effect; that never happens to a pass of all
/// callers. A call can also fail with [`Fault::BadCaller`], if the caller is not one of the pass's, and with
/// [`Fault::OutOfMemory`]. The last pass frees the node, unless [`Pass::finish`] returns it.
///
/// ```
/// use leversorrel::{Fault, NodeCell};
///
/// let mut one = NodeCell::new(16, 9, None, 2)?.into_pass();
/// let mut two = one.split(1)?;
/// let page = one.alloc(0)?;
/// two.split_pmd(1, page)?;
/// two.unmap_sub(1, page, 0, 256)?;
/// assert_eq!(one.scan(0, 8)?.split, 1);
/// one.join(two)?;
/// let node = one.finish()?;
/// assert_eq!(node.stats().frames_given, 256);
/// # Ok::<(), Fault>(())
/// ```
pub struct Pass {
    handle: sys::thp_pass,
    // the number of the node's callers
    all: u32,
}

// SAFETY: a handle refers to a pass and a share of its cell, which may move to another thread: proved, `pass_handle_send` in
// crates/thp_capi/proofs/PassCrossings.antt. The C library's allocator accepts memory from any thread.
unsafe impl Send for Pass {}

impl Pass {
    // The pass of all callers of a new cell, whose handle is filled and used by nothing else.
    pub(crate) fn of(handle: sys::thp_pass, callers: u32) -> Pass {
        Pass { handle, all: callers }
    }

    /// Returns the callers of the pass.
    pub fn callers(&self) -> Range<u32> {
        let (mut first, mut end) = (0, 0);
        // SAFETY: the handle is this pass's own and is not empty, and the numbers are locals.
        unsafe { sys::thp_pass_callers(&self.handle, &mut first, &mut end) };
        first..end
    }

    // Whether the pass has all callers of its node.
    pub(crate) fn has_all(&self) -> bool {
        self.callers() == (0..self.all)
    }

    /// Divides the callers: those below `at` stay, and the result has those from `at` on. Fails with [`Fault::BadCaller`] if
    /// either part would be empty, and with [`Fault::OutOfMemory`].
    pub fn split(&mut self, at: u32) -> Result<Pass, Fault> {
        let mut other = sys::THP_PASS_INIT;
        // SAFETY: the handle is this pass's own, and the other is local and empty.
        done(unsafe { sys::thp_pass_split(&mut self.handle, at, &mut other) })?;
        Ok(Pass { handle: other, all: self.all })
    }

    /// Adds the other pass's callers, which must directly follow this one's. Otherwise fails with [`Fault::BadPass`], and then
    /// returns the other pass.
    pub fn join(&mut self, mut other: Pass) -> Result<(), (Pass, Fault)> {
        // SAFETY: each handle is its pass's own, and they are different.
        match done(unsafe { sys::thp_pass_join(&mut self.handle, &mut other.handle) }) {
            Ok(()) => Ok(()),
            Err(fault) => Err((other, fault)),
        }
    }

    /// Returns the node, if the pass has all callers, none of them has an open batch, and no other pass exists. Otherwise returns
    /// the pass and the reason.
    pub fn finish(mut self) -> Result<Node, (Pass, Fault)> {
        let mut handle = sys::THP_NODE_INIT;
        // SAFETY: the handle is this pass's own, and the node's is local and empty.
        match done(unsafe { sys::thp_cell_finish(&mut self.handle, &mut handle) }) {
            Ok(()) => Ok(Node::of(handle)),
            Err(fault) => Err((self, fault)),
        }
    }

    /// Allocates a page, mapped whole once; its number is the number of allocations before it. Fails with `Closed` or `NoBlock`.
    pub fn alloc(&mut self, caller: u32) -> Result<u64, Fault> {
        let mut page = 0;
        // SAFETY: the handle is this pass's own, and the number is a local.
        done(unsafe { sys::thp_pass_alloc(&mut self.handle, caller, &mut page) })?;
        Ok(page)
    }

    /// Replaces one PMD mapping by a PTE mapping of each subpage. Fails with `NoPage`, `IsSplit` or `NotMapped`.
    pub fn split_pmd(&mut self, caller: u32, page: u64) -> Result<(), Fault> {
        // SAFETY: the handle is this pass's own.
        done(unsafe { sys::thp_pass_split_pmd(&mut self.handle, caller, page) })
    }

    /// Removes one mapping of each of the `count` subpages from `first` on, which can queue or free the page. Fails with
    /// `NoPage`, `BadRange` or `NotMapped`.
    pub fn unmap_sub(&mut self, caller: u32, page: u64, first: u32, count: u32) -> Result<Done, Fault> {
        let mut reported = sys::thp_done::default();
        // SAFETY: the handle is this pass's own, and the result goes to a local.
        done(unsafe { sys::thp_pass_unmap_sub(&mut self.handle, caller, page, first, count, &mut reported) })?;
        Ok(Done::of(reported))
    }

    /// Maps the whole page once more, by a PMD entry. Fails with `NoPage`, `IsSplit` or `TooMany`.
    pub fn map_whole(&mut self, caller: u32, page: u64) -> Result<(), Fault> {
        // SAFETY: the handle is this pass's own.
        done(unsafe { sys::thp_pass_map_whole(&mut self.handle, caller, page) })
    }

    /// Maps each of the `count` subpages from `first` on once more, by PTE entries. Fails with `NoPage`, `BadRange`, `Gone` or
    /// `TooMany`.
    pub fn map_sub(&mut self, caller: u32, page: u64, first: u32, count: u32) -> Result<(), Fault> {
        // SAFETY: the handle is this pass's own.
        done(unsafe { sys::thp_pass_map_sub(&mut self.handle, caller, page, first, count) })
    }

    /// Adds a pin, which prevents the page from being split. Fails with `NoPage`, `IsSplit` or `TooMany`.
    pub fn pin(&mut self, caller: u32, page: u64) -> Result<(), Fault> {
        // SAFETY: the handle is this pass's own.
        done(unsafe { sys::thp_pass_pin(&mut self.handle, caller, page) })
    }

    /// Records that data is written to each of the `count` subpages from `first` on, which are not zero-filled afterwards. Fails
    /// with `NoPage`, `BadRange`, `IsSplit` or `NotMapped`.
    pub fn write(&mut self, caller: u32, page: u64, first: u32, count: u32) -> Result<(), Fault> {
        // SAFETY: the handle is this pass's own.
        done(unsafe { sys::thp_pass_write(&mut self.handle, caller, page, first, count) })
    }

    /// Records that zeros are written to each of the `count` subpages from `first` on, which are zero-filled afterwards. Fails as
    /// [`Pass::write`] does.
    pub fn zero(&mut self, caller: u32, page: u64, first: u32, count: u32) -> Result<(), Fault> {
        // SAFETY: the handle is this pass's own.
        done(unsafe { sys::thp_pass_zero(&mut self.handle, caller, page, first, count) })
    }

    /// Closes the node: no page is queued or allocated afterwards. Fails with `Closed`.
    pub fn close(&mut self, caller: u32) -> Result<(), Fault> {
        // SAFETY: the handle is this pass's own.
        done(unsafe { sys::thp_pass_close(&mut self.handle, caller) })
    }

    /// Removes one mapping of the whole page. Fails with `NoPage`, `IsSplit` or `NotMapped`.
    pub fn unmap_whole(&mut self, caller: u32, page: u64) -> Result<Done, Fault> {
        let mut reported = sys::thp_done::default();
        // SAFETY: the handle is this pass's own, and the result goes to a local.
        done(unsafe { sys::thp_pass_unmap_whole(&mut self.handle, caller, page, &mut reported) })?;
        Ok(Done::of(reported))
    }

    /// Removes a pin, which can free the page. Fails with `NoPage`, `IsSplit` or `NotPinned`.
    pub fn unpin(&mut self, caller: u32, page: u64) -> Result<Done, Fault> {
        let mut reported = sys::thp_done::default();
        // SAFETY: the handle is this pass's own, and the result goes to a local.
        done(unsafe { sys::thp_pass_unpin(&mut self.handle, caller, page, &mut reported) })?;
        Ok(Done::of(reported))
    }

    /// Takes up to `n` of the oldest queued pages (at most 128), in order, tries each, and returns the pinned ones. Fails with
    /// `BadCount` or `HasBatch`.
    pub fn scan(&mut self, caller: u32, n: u32) -> Result<Scan, Fault> {
        let mut reported = sys::thp_scan::default();
        // SAFETY: the handle is this pass's own, and the result goes to a local.
        done(unsafe { sys::thp_pass_scan(&mut self.handle, caller, n, &mut reported) })?;
        Ok(Scan::of(reported))
    }

    /// Takes up to `n` of the oldest queued pages (at most 128), in order, into a batch of the caller, which is open afterwards.
    /// Returns the number of pages taken. Fails with `BadCount`, `BatchOpen` or `HasBatch`.
    pub fn take(&mut self, caller: u32, n: u32) -> Result<u32, Fault> {
        let mut count = 0;
        // SAFETY: the handle is this pass's own, and the count is a local.
        done(unsafe { sys::thp_pass_take(&mut self.handle, caller, n, &mut count) })?;
        Ok(count)
    }

    /// Takes pages as [`Pass::take`] does, and returns the batch as a value that is put back when it is dropped.
    pub fn batch(&mut self, caller: u32, n: u32) -> Result<Batch<'_, Pass>, Fault> {
        let taken = self.take(caller, n)?;
        Ok(Batch::new(self, caller, taken))
    }

    /// Tries the next page of the caller's open batch that is still in flight. Fails with `NoBatch`.
    pub fn split_next(&mut self, caller: u32) -> Result<Tried, Fault> {
        let mut reported = sys::thp_tried::default();
        // SAFETY: the handle is this pass's own, and the result goes to a local.
        done(unsafe { sys::thp_pass_split_next(&mut self.handle, caller, &mut reported) })?;
        Ok(Tried::of(reported))
    }

    /// Returns the remaining pages of the caller's open batch, and closes the batch. Fails with `NoBatch`; with any other error
    /// the batch stays open.
    pub fn put_back(&mut self, caller: u32) -> Result<Back, Fault> {
        let mut reported = sys::thp_back::default();
        // SAFETY: the handle is this pass's own, and the result goes to a local.
        done(unsafe { sys::thp_pass_put_back(&mut self.handle, caller, &mut reported) })?;
        Ok(Back::of(reported))
    }

    /// Closes the caller's open batch, and leaves its pages in flight, out of the queue. Fails with `NoBatch`.
    pub fn abandon(&mut self, caller: u32) -> Result<(), Fault> {
        // SAFETY: the handle is this pass's own.
        done(unsafe { sys::thp_pass_abandon(&mut self.handle, caller) })
    }

    /// Returns the number of queued pages, even while another pass has the node.
    pub fn count(&mut self) -> u32 {
        let mut pages = 0;
        // SAFETY: the handle is this pass's own and is not empty, and the number is a local.
        unsafe { sys::thp_pass_count(&mut self.handle, &mut pages) };
        pages
    }
}

impl Drop for Pass {
    fn drop(&mut self) {
        // SAFETY: the handle is this pass's own. It is empty if the pass was joined or finished; the call then has no effect.
        unsafe { sys::thp_pass_destroy(&mut self.handle) };
    }
}

impl fmt::Debug for Pass {
    fn fmt(&self, f: &mut fmt::Formatter<'_>) -> fmt::Result {
        f.debug_struct("Pass").field("callers", &self.callers()).finish_non_exhaustive()
    }
}
