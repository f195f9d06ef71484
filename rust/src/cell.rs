//! A shared node as a whole.
use leversorrel_sys as sys;

use crate::fault::{done, Fault};
use crate::node::{threshold_of, Node};
use crate::pass::Pass;

/// A node that threads share, as a whole: it can be divided into passes, and is assembled from them again.
///
/// ```
/// use leversorrel::{Fault, NodeCell};
/// use std::thread;
///
/// let passes = NodeCell::new(16, 9, None, 4)?.into_passes()?;
/// let threads: Vec<_> = passes.into_iter().enumerate().map(|(caller, mut pass)| thread::spawn(move || {
///     // repeated while another pass has the node
///     while pass.alloc(caller as u32) == Err(Fault::Busy) {}
///     pass
/// })).collect();
/// let passes = threads.into_iter().map(|thread| thread.join().unwrap()).collect();
/// let cell = NodeCell::from_passes(passes)?;
/// let node = cell.finish()?;
/// assert_eq!(node.stats().allocations, 4);
/// # Ok::<(), Fault>(())
/// ```
#[derive(Debug)]
pub struct NodeCell {
    pass: Pass,
}

impl NodeCell {
    /// Creates a shared node of this shape, as [`Node::new`] does, for `callers` callers (1 to 4,096), which are numbered from 0.
    pub fn new(blocks: u32, order: u32, underused: Option<u32>, callers: u32) -> Result<NodeCell, Fault> {
        let threshold = threshold_of(underused)?;
        let mut handle = sys::THP_PASS_INIT;
        // SAFETY: the handle is local and empty.
        done(unsafe { sys::thp_cell_create(&mut handle, blocks, order, threshold, callers) })?;
        Ok(NodeCell { pass: Pass::of(handle, callers) })
    }

    /// Creates a shared node as [`NodeCell::new`] does, which only counts its events: see [`Node::counting`].
    pub fn counting(blocks: u32, order: u32, underused: Option<u32>, callers: u32) -> Result<NodeCell, Fault> {
        let threshold = threshold_of(underused)?;
        let mut handle = sys::THP_PASS_INIT;
        // SAFETY: the handle is local and empty.
        done(unsafe { sys::thp_cell_create_counting(&mut handle, blocks, order, threshold, callers) })?;
        Ok(NodeCell { pass: Pass::of(handle, callers) })
    }

    /// Divides the cell into one pass for each caller, in the callers' order. Fails with [`Fault::OutOfMemory`], and then returns
    /// the cell.
    pub fn into_passes(self) -> Result<Vec<Pass>, (NodeCell, Fault)> {
        let mut first = self.pass;
        let mut others = Vec::new();
        for at in (1..first.callers().end).rev() {
            match first.split(at) {
                Ok(pass) => others.push(pass),
                Err(fault) => {
                    others.push(first);
                    others.reverse();
                    return match NodeCell::from_passes(others) {
                        Ok(cell) => Err((cell, fault)),
                        Err(_) => unreachable!("passes that were divided are joined again"),
                    };
                }
            }
        }
        others.push(first);
        others.reverse();
        Ok(others)
    }

    /// Joins all passes of a cell, in any order. Fails with [`Fault::BadPass`] if they are not all of one cell, or not all of its
    /// passes, and then returns the passes that were not joined.
    pub fn from_passes(mut passes: Vec<Pass>) -> Result<NodeCell, (Vec<Pass>, Fault)> {
        passes.sort_by_key(|pass| pass.callers().start);
        let mut passes = passes.into_iter();
        let Some(mut whole) = passes.next() else {
            return Err((Vec::new(), Fault::BadPass));
        };
        while let Some(next) = passes.next() {
            if let Err((next, fault)) = whole.join(next) {
                return Err(([whole, next].into_iter().chain(passes).collect(), fault));
            }
        }
        if whole.has_all() {
            Ok(NodeCell { pass: whole })
        } else {
            Err((vec![whole], Fault::BadPass))
        }
    }

    /// Returns the pass of all callers, which never gets [`Fault::Busy`].
    pub fn into_pass(self) -> Pass {
        self.pass
    }

    /// Returns the node. Fails with [`Fault::BatchOpen`] if a caller has an open batch, and then returns the cell.
    pub fn finish(self) -> Result<Node, (NodeCell, Fault)> {
        self.pass.finish().map_err(|(pass, fault)| (NodeCell { pass }, fault))
    }
}
