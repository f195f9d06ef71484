//! The verified deferred split queue for transparent huge pages, for Rust: safe types over the proved library `libthp`.
//!
//! ```
//! use leversorrel::{check, Node, Outcome, Verdict};
//!
//! let mut node = Node::new(16, 9, None)?;
//! let page = node.alloc(0)?;
//! node.split_pmd(0, page)?;
//! // half of the page is unmapped: it is queued, and nothing is given back at once
//! assert_eq!(node.unmap_sub(0, page, 0, 256)?.outcome, Outcome::Queued);
//! // the shrinker splits it, and 256 frames come back
//! assert_eq!(node.scan(0, 8)?.split, 1);
//! assert_eq!(node.stats().frames_given, 256);
//! assert_eq!(check(&node.journal()?)?, Verdict::Legal);
//! # Ok::<(), leversorrel::Fault>(())
//! ```
//!
//! The effect of each call on a node is proved; docs/C.md of the repository describes it for each call. The types of this crate
//! guarantee what the header requires of a program: a handle is never copied, `&mut self` gives it to one call at a time, and
//! `Drop` frees it exactly once. One call at a time may use a handle, even to read, so a handle can move to another thread, but
//! threads can't share it: they share a node by its passes.
//!
//! ```compile_fail,E0277
//! fn share<T: Sync>(_: T) {}
//! share(leversorrel::Node::new(16, 9, None).unwrap());
//! ```
//!
//! ```compile_fail,E0277
//! fn share<T: Sync>(_: T) {}
//! share(leversorrel::NodeCell::new(16, 9, None, 2).unwrap().into_pass());
//! ```
//!
//! ```compile_fail,E0277
//! fn share<T: Sync>(_: T) {}
//! share(leversorrel::Check::new().unwrap());
//! ```
//!
//! ```compile_fail,E0599
//! let copy = leversorrel::Node::new(16, 9, None).unwrap().clone();
//! ```
//!
//! ```compile_fail,E0599
//! let copy = leversorrel::NodeCell::new(16, 9, None, 2).unwrap().into_pass().clone();
//! ```
//!
//! ```compile_fail,E0599
//! let copy = leversorrel::Check::new().unwrap().clone();
//! ```
//!
//! On x86-64 the library needs a processor of the level x86-64-v2 (POPCNT, SSE4.2). A node stores every event of its journal until it is
//! dropped: 96 bytes each, in memory that doubles when it is full.
#![deny(missing_docs)]

mod batch;
mod cell;
mod check;
mod fault;
mod node;
mod pass;
mod sub_set;

pub use batch::{Batch, HasBatches, Tries};
pub use cell::NodeCell;
pub use check::Check;
pub use fault::Fault;
pub use node::{Back, Done, List, Node, Outcome, PageState, Scan, Stats, Tried};
pub use pass::Pass;
pub use sub_set::{SubSet, Subpages};

use std::ffi::CStr;

use leversorrel_sys as sys;

/// The result of the check of a text of journals.
#[derive(Clone, Copy, PartialEq, Eq, Hash, Debug)]
#[non_exhaustive]
pub enum Verdict {
    /// Each event fits those before it.
    Legal,
    /// The event of this line does not.
    Illegal {
        /// The line, counted from 1.
        line: u64,
    },
    /// The text is not a text of journals.
    Faulty {
        /// The line of the first error, counted from 1; 0 if the text is too long.
        line: u64,
        /// The kind of the error.
        fault: Fault,
    },
}

impl Verdict {
    // Converts a code and its line to a verdict. Fails with `OutOfMemory`.
    pub(crate) fn of(code: u32, line: u64) -> Result<Verdict, Fault> {
        match code {
            sys::THP_OK => Ok(Verdict::Legal),
            sys::THP_ILLEGAL => Ok(Verdict::Illegal { line }),
            code => match Fault::of(code) {
                Fault::OutOfMemory => Err(Fault::OutOfMemory),
                fault => Ok(Verdict::Faulty { line, fault }),
            },
        }
    }
}

/// Checks whether the journals in a text are legal. Fails with [`Fault::OutOfMemory`].
///
/// ```
/// use leversorrel::{check, Fault, Verdict};
///
/// let text = b"thp-journal 1\nnode 0 blocks 1\n0 alloc 1\nend\n";
/// assert_eq!(check(text)?, Verdict::Illegal { line: 3 });
/// assert_eq!(check(b"thp-journal 1\n")?, Verdict::Faulty { line: 2, fault: Fault::TextCut });
/// # Ok::<(), Fault>(())
/// ```
pub fn check(text: &[u8]) -> Result<Verdict, Fault> {
    let mut line = 0;
    // SAFETY: the pointer and the length are those of one slice, and the line is a local.
    let code = unsafe { sys::thp_check_text(text.as_ptr().cast(), text.len(), &mut line) };
    Verdict::of(code, u64::from(line))
}

// The example of the crate's README.md is compiled and run.
#[cfg(doctest)]
#[doc = include_str!("../README.md")]
struct Readme;

/// Returns the version of the linked library.
pub fn version() -> &'static str {
    // SAFETY: the text is static, ends with a zero and is never null.
    unsafe { CStr::from_ptr(sys::thp_version()) }.to_str().unwrap_or("")
}
