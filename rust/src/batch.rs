//! The open batch of one caller, as a value.
use std::fmt;

use crate::fault::Fault;
use crate::node::{Back, Node, Tried};
use crate::pass::Pass;

/// A source of batches: a [`Node`], or a [`Pass`] of a shared one.
pub trait HasBatches: sealed::Calls {}

impl HasBatches for Node {}
impl HasBatches for Pass {}

mod sealed {
    use super::{Back, Fault, Node, Pass, Tried};

    /// The calls about open batches, by caller.
    pub trait Calls {
        fn split_next(&mut self, caller: u32) -> Result<Tried, Fault>;
        fn put_back(&mut self, caller: u32) -> Result<Back, Fault>;
        fn abandon(&mut self, caller: u32) -> Result<(), Fault>;
    }

    impl Calls for Node {
        fn split_next(&mut self, caller: u32) -> Result<Tried, Fault> {
            Node::split_next(self, caller)
        }

        fn put_back(&mut self, caller: u32) -> Result<Back, Fault> {
            Node::put_back(self, caller)
        }

        fn abandon(&mut self, caller: u32) -> Result<(), Fault> {
            Node::abandon(self, caller)
        }
    }

    impl Calls for Pass {
        fn split_next(&mut self, caller: u32) -> Result<Tried, Fault> {
            Pass::split_next(self, caller)
        }

        fn put_back(&mut self, caller: u32) -> Result<Back, Fault> {
            Pass::put_back(self, caller)
        }

        fn abandon(&mut self, caller: u32) -> Result<(), Fault> {
            Pass::abandon(self, caller)
        }
    }
}

/// The open batch of a caller: pages that it took from the queue together.
///
/// Dropping a batch puts it back. If that fails, because another pass has the node or memory can't be allocated, the batch stays
/// open, and the caller's `put_back` on the node or pass can return it later.
///
/// ```
/// use leversorrel::{Fault, Node, Tried};
///
/// let mut node = Node::new(16, 9, None)?;
/// let page = node.alloc(0)?;
/// node.split_pmd(0, page)?;
/// node.unmap_sub(0, page, 0, 256)?;
/// let mut batch = node.batch(1, 8)?;
/// assert_eq!(batch.taken(), 1);
/// assert_eq!(batch.tries().collect::<Result<Vec<_>, _>>()?, [Tried::Split(page)]);
/// drop(batch);
/// assert_eq!(node.put_back(1), Err(Fault::NoBatch));
/// # Ok::<(), Fault>(())
/// ```
///
/// A batch can't outlive its node or pass, which nothing else uses meanwhile:
///
/// ```compile_fail,E0505
/// let mut node = leversorrel::Node::new(16, 9, None).unwrap();
/// let batch = node.batch(0, 8).unwrap();
/// drop(node);
/// batch.taken();
/// ```
///
/// ```compile_fail,E0505
/// let mut pass = leversorrel::NodeCell::new(16, 9, None, 2).unwrap().into_pass();
/// let batch = pass.batch(0, 8).unwrap();
/// drop(pass);
/// batch.taken();
/// ```
///
/// ```compile_fail,E0499
/// let mut node = leversorrel::Node::new(16, 9, None).unwrap();
/// let batch = node.batch(0, 8).unwrap();
/// node.alloc(0).unwrap();
/// batch.taken();
/// ```
pub struct Batch<'a, H: HasBatches> {
    of: &'a mut H,
    caller: u32,
    taken: u32,
    is_open: bool,
}

impl<'a, H: HasBatches> Batch<'a, H> {
    // The open batch of the caller.
    pub(crate) fn new(of: &'a mut H, caller: u32, taken: u32) -> Batch<'a, H> {
        Batch { of, caller, taken, is_open: true }
    }

    /// Returns the number of pages taken.
    pub fn taken(&self) -> u32 {
        self.taken
    }

    /// Tries the next page that is still in flight. An error leaves the batch open.
    pub fn split_next(&mut self) -> Result<Tried, Fault> {
        self.of.split_next(self.caller)
    }

    /// Tries the remaining pages, one for each item, and ends when none is left. An error leaves the batch open, and the next item
    /// tries the same page again.
    pub fn tries(&mut self) -> Tries<'_, 'a, H> {
        Tries { batch: self }
    }

    /// Returns the remaining pages to the node. An error returns the batch unchanged.
    pub fn put_back(mut self) -> Result<Back, (Self, Fault)> {
        match self.of.put_back(self.caller) {
            Ok(back) => {
                self.is_open = false;
                Ok(back)
            }
            Err(fault) => Err((self, fault)),
        }
    }

    /// Closes the batch and leaves its pages in flight, out of the queue.
    pub fn abandon(mut self) -> Result<(), Fault> {
        self.is_open = false;
        self.of.abandon(self.caller)
    }
}

/// The tries of a [`Batch`]'s remaining pages: see [`Batch::tries`].
#[derive(Debug)]
pub struct Tries<'b, 'a, H: HasBatches> {
    batch: &'b mut Batch<'a, H>,
}

impl<H: HasBatches> Iterator for Tries<'_, '_, H> {
    type Item = Result<Tried, Fault>;

    fn next(&mut self) -> Option<Self::Item> {
        match self.batch.split_next() {
            Ok(Tried::Done) => None,
            tried => Some(tried),
        }
    }
}

impl<H: HasBatches> Drop for Batch<'_, H> {
    fn drop(&mut self) {
        if self.is_open {
            // on failure the batch stays open, as the type's description says; nothing else can have closed it
            let back = self.of.put_back(self.caller);
            debug_assert_ne!(back.err(), Some(Fault::NoBatch));
        }
    }
}

impl<H: HasBatches> fmt::Debug for Batch<'_, H> {
    fn fmt(&self, f: &mut fmt::Formatter<'_>) -> fmt::Result {
        f.debug_struct("Batch").field("caller", &self.caller).field("taken", &self.taken).finish_non_exhaustive()
    }
}
