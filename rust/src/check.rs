//! The check of journals of any length.
use std::fmt;

use leversorrel_sys as sys;

use crate::fault::{done, Fault};
use crate::Verdict;

/// A check of journals of any length, whose text arrives in parts. It stores only the state of the current node and the line in
/// progress.
///
/// ```
/// use leversorrel::{Check, Fault, Verdict};
///
/// let mut check = Check::new()?;
/// for part in [&b"thp-journal 1\nnode 0 blo"[..], b"cks 1\n0 alloc 1\nend\n"] {
///     check.read(part)?;
/// }
/// assert_eq!(check.finish()?, Verdict::Illegal { line: 3 });
/// assert_eq!(check.reason()?, "line 3: 0 alloc 1\nexpected: 0 alloc 0\nwhy: the next page number is 0\n");
/// assert_eq!(check.read(b"0 alloc 2\n"), Err(Fault::Finished));
/// # Ok::<(), Fault>(())
/// ```
pub struct Check {
    handle: sys::thp_check,
}

// SAFETY: a handle refers to plain data and memory of its own: proved, `check_handle_send` in
// crates/thp_capi/proofs/CheckCrossings.antt. The handle's memory is freed with the C library's allocator, which accepts memory
// from any thread.
unsafe impl Send for Check {}

impl Check {
    /// Creates a check that has read nothing. Fails with [`Fault::OutOfMemory`].
    pub fn new() -> Result<Check, Fault> {
        let mut handle = sys::THP_CHECK_INIT;
        // SAFETY: the handle is local and empty.
        done(unsafe { sys::thp_check_create(&mut handle) })?;
        Ok(Check { handle })
    }

    /// Reads the next part of the text. Fails with [`Fault::Finished`] after a finish. Fails with [`Fault::OutOfMemory`] if
    /// memory can't be allocated; the check is then lost, and every later call fails with that error too.
    pub fn read(&mut self, part: &[u8]) -> Result<(), Fault> {
        // SAFETY: the handle is this check's own, and the pointer and the length are those of one slice.
        match unsafe { sys::thp_check_read(&mut self.handle, part.as_ptr().cast(), part.len()) } {
            LOST => Err(Fault::OutOfMemory),
            code => done(code),
        }
    }

    /// Finishes the check and returns the verdict on the text read, which is taken as the whole text.
    pub fn finish(&mut self) -> Result<Verdict, Fault> {
        let mut line = 0;
        // SAFETY: the handle is this check's own, and the line is a local.
        match unsafe { sys::thp_check_finish(&mut self.handle, &mut line) } {
            LOST => Err(Fault::OutOfMemory),
            code => Verdict::of(code, line),
        }
    }

    /// Returns why the illegal event does not fit, after a finish that found one: the text of `thpcheck --explain`. Otherwise
    /// fails with [`Fault::NoReason`].
    pub fn reason(&mut self) -> Result<String, Fault> {
        let mut text: Vec<u8> = Vec::new();
        let mut size = 0;
        loop {
            // SAFETY: the handle is this check's own, the buffer is the vector's, and the size is a local.
            match unsafe { sys::thp_check_reason(&mut self.handle, text.as_mut_ptr().cast(), text.len(), &mut size) } {
                sys::THP_OK => return Ok(String::from_utf8(text).expect("a reason is ASCII")),
                LOST => return Err(Fault::OutOfMemory),
                sys::THP_TOO_SMALL => {
                    text.try_reserve_exact(size).map_err(|_| Fault::OutOfMemory)?;
                    text.resize(size, 0);
                }
                code => return Err(Fault::of(code)),
            }
        }
    }
}

// A read could not allocate memory and freed the check.
const LOST: u32 = sys::THP_EMPTY;

impl Drop for Check {
    fn drop(&mut self) {
        // SAFETY: the handle is this check's own, and nothing uses it later. An empty one stays empty.
        unsafe { sys::thp_check_destroy(&mut self.handle) };
    }
}

impl fmt::Debug for Check {
    fn fmt(&self, f: &mut fmt::Formatter<'_>) -> fmt::Result {
        f.debug_struct("Check").finish_non_exhaustive()
    }
}
