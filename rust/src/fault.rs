//! Why a call has no effect.
use std::ffi::CStr;
use std::fmt;

use leversorrel_sys as sys;

/// Why a call has no effect, or what is wrong with a text. `fault as u32` is the code of `thp.h`.
#[derive(Clone, Copy, PartialEq, Eq, Hash, Debug)]
#[repr(u32)]
#[non_exhaustive]
pub enum Fault {
    /// The page was never allocated, or was freed.
    NoPage = sys::THP_NO_PAGE,
    /// The range is empty, or is not within the page.
    BadRange = sys::THP_BAD_RANGE,
    /// The page is split into base pages.
    IsSplit = sys::THP_IS_SPLIT,
    /// There is no such mapping.
    NotMapped = sys::THP_NOT_MAPPED,
    /// A frame of the range was given back.
    Gone = sys::THP_GONE,
    /// The page has no pin.
    NotPinned = sys::THP_NOT_PINNED,
    /// A count is at 65,535.
    TooMany = sys::THP_TOO_MANY,
    /// The node is closed.
    Closed = sys::THP_CLOSED,
    /// Every block holds a live page.
    NoBlock = sys::THP_NO_BLOCK,
    /// The caller has pages in flight.
    HasBatch = sys::THP_HAS_BATCH,
    /// Memory could not be allocated.
    OutOfMemory = sys::THP_OUT_OF_MEMORY,
    /// The caller's number is 64 or more, or not one of the pass's.
    BadCaller = sys::THP_BAD_CALLER,
    /// No node has this shape, or no cell this number of callers.
    BadSize = sys::THP_BAD_SIZE,
    /// More than 128 pages were requested.
    BadCount = sys::THP_BAD_COUNT,
    /// The caller has no open batch.
    NoBatch = sys::THP_NO_BATCH,
    /// The caller already has an open batch.
    BatchOpen = sys::THP_BATCH_OPEN,
    /// The text is longer than 16,777,216 bytes.
    TextTooLong = sys::THP_TEXT_TOO_LONG,
    /// A byte outside 0x20 to 0x7E.
    TextBadByte = sys::THP_TEXT_BAD_BYTE,
    /// The line has no line feed, or the text ends before its `end` line.
    TextCut = sys::THP_TEXT_CUT,
    /// A word is empty, or not valid at its position.
    TextBadWord = sys::THP_TEXT_BAD_WORD,
    /// Too few words, or too many.
    TextBadCount = sys::THP_TEXT_BAD_COUNT,
    /// An operand is not a number, or is out of range.
    TextBadNumber = sys::THP_TEXT_BAD_NUMBER,
    /// A set is not written as its maximal runs in ascending order.
    TextBadSet = sys::THP_TEXT_BAD_SET,
    /// The line is not allowed at this position.
    TextBadOrder = sys::THP_TEXT_BAD_ORDER,
    /// Another pass has the node: the call had no effect and can be repeated.
    Busy = sys::THP_BUSY,
    /// The passes belong to two nodes or are not adjacent; or the pass does not have all callers, or another pass exists.
    BadPass = sys::THP_BAD_PASS,
    /// The check is finished and reads no more text.
    Finished = sys::THP_FINISHED,
    /// The check found no illegal event, or is not finished.
    NoReason = sys::THP_NO_REASON,
    /// The node only counts its events.
    NoJournal = sys::THP_NO_JOURNAL,
    /// The linked library returned a code that this crate does not have: their versions differ.
    Unknown = 0x7fff_ffff,
}

impl Fault {
    const ALL: [Fault; 29] = [
        Fault::NoPage,
        Fault::BadRange,
        Fault::IsSplit,
        Fault::NotMapped,
        Fault::Gone,
        Fault::NotPinned,
        Fault::TooMany,
        Fault::Closed,
        Fault::NoBlock,
        Fault::HasBatch,
        Fault::OutOfMemory,
        Fault::BadCaller,
        Fault::BadSize,
        Fault::BadCount,
        Fault::NoBatch,
        Fault::BatchOpen,
        Fault::TextTooLong,
        Fault::TextBadByte,
        Fault::TextCut,
        Fault::TextBadWord,
        Fault::TextBadCount,
        Fault::TextBadNumber,
        Fault::TextBadSet,
        Fault::TextBadOrder,
        Fault::Busy,
        Fault::BadPass,
        Fault::Finished,
        Fault::NoReason,
        Fault::NoJournal,
    ];

    /// Converts a code other than 0 to its fault. The types of this crate rule all other codes of this version out.
    pub(crate) fn of(code: u32) -> Fault {
        Fault::ALL.into_iter().find(|&fault| fault as u32 == code).unwrap_or(Fault::Unknown)
    }
}

impl fmt::Display for Fault {
    fn fmt(&self, f: &mut fmt::Formatter<'_>) -> fmt::Result {
        // SAFETY: the text is static, ends with a zero and is never null.
        let words = unsafe { CStr::from_ptr(sys::thp_strerror(*self as u32)) };
        f.write_str(&words.to_string_lossy())
    }
}

impl std::error::Error for Fault {}

/// Keeps the fault of a call that also returns what it was given, so that `?` works on its result:
///
/// ```
/// use leversorrel::{Fault, NodeCell};
///
/// fn node_of_two() -> Result<leversorrel::Node, Fault> {
///     let mut one = NodeCell::new(16, 9, None, 2)?.into_pass();
///     let two = one.split(1)?;
///     one.join(two)?;
///     Ok(one.finish()?)
/// }
/// assert!(node_of_two().is_ok());
///
/// fn any_error() -> Result<(), Box<dyn std::error::Error>> {
///     NodeCell::new(16, 9, None, 2)?.into_pass().finish().map_err(Fault::from)?;
///     Ok(())
/// }
/// assert!(any_error().is_ok());
/// ```
impl<T> From<(T, Fault)> for Fault {
    fn from((_, fault): (T, Fault)) -> Fault {
        fault
    }
}

/// Converts the code 0 to `Ok`, and every other code to its fault.
pub(crate) fn done(code: u32) -> Result<(), Fault> {
    if code == sys::THP_OK {
        Ok(())
    } else {
        Err(Fault::of(code))
    }
}

#[cfg(test)]
mod tests {
    use super::{done, Fault};

    #[test]
    fn every_code_is_a_fault() {
        for fault in Fault::ALL {
            assert_eq!(done(fault as u32), Err(fault));
            assert_ne!(fault.to_string(), Fault::Unknown.to_string());
        }
        for code in [12, 13, 35, 1000, u32::MAX] {
            assert_eq!(done(code), Err(Fault::Unknown));
        }
        assert_eq!(Fault::Unknown.to_string(), "no code of this library");
    }
}
