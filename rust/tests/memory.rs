//! Memory: what is created is freed, and want of memory is an error: neither a verdict nor a panic.
//!
//! There is one test, since a program has one allocator.
use std::ffi::c_void;
use std::sync::atomic::{AtomicIsize, Ordering::SeqCst};

use leversorrel::{check, Check, Fault, Node, NodeCell, Tried, Verdict};
use leversorrel_sys::{thp_allocator, thp_use_allocator, THP_OK};

extern "C" {
    fn malloc(size: usize) -> *mut c_void;
    fn realloc(memory: *mut c_void, size: usize) -> *mut c_void;
    fn free(memory: *mut c_void);
}

/// The number of blocks that the library holds, and the number of requests that succeed before all others are refused.
static HELD: AtomicIsize = AtomicIsize::new(0);
static LEFT: AtomicIsize = AtomicIsize::new(isize::MAX);

fn is_refused() -> bool {
    LEFT.fetch_sub(1, SeqCst) <= 0
}

unsafe extern "C" fn allocate(size: usize) -> *mut c_void {
    if is_refused() {
        return std::ptr::null_mut();
    }
    HELD.fetch_add(1, SeqCst);
    // SAFETY: any size is allowed.
    unsafe { malloc(size) }
}

unsafe extern "C" fn resize(memory: *mut c_void, size: usize) -> *mut c_void {
    if is_refused() {
        return std::ptr::null_mut();
    }
    // SAFETY: the library resizes what it was given.
    unsafe { realloc(memory, size) }
}

unsafe extern "C" fn give_back(memory: *mut c_void) {
    HELD.fetch_sub(1, SeqCst);
    // SAFETY: the library gives back what it was given.
    unsafe { free(memory) }
}

const LEGAL: &[u8] = b"thp-journal 1\nnode 0 blocks 2\n0 alloc 0\n0 splitpmd 0\n0 unmapsub 0 0 256 queued -\nend\n";

// Every kind of handle, and every way in which one ends without a call.
fn use_all() -> Result<(), Fault> {
    let mut node = Node::new(4, 2, None)?;
    let page = node.alloc(0)?;
    node.split_pmd(0, page)?;
    node.unmap_sub(0, page, 0, 2)?;
    drop(node.batch(0, 8)?);
    let mut one = NodeCell::new(4, 2, None, 3)?.into_pass();
    let two = one.split(1)?;
    drop(two);
    let cell = NodeCell::new(4, 2, None, 2)?;
    drop(cell.into_passes().map_err(Fault::from)?);
    let mut lost = Check::new()?;
    lost.read(LEGAL)?;
    assert_eq!(lost.finish()?, Verdict::Legal);
    let mut part = Check::new()?;
    part.read(&LEGAL[..40])?;
    assert_eq!(check(LEGAL)?, Verdict::Legal);
    Ok(())
}

// A check that lost its text returns the same error from every call.
fn lose_a_check() -> Result<(), Fault> {
    let mut check = Check::new()?;
    if check.read(LEGAL).is_err() {
        assert_eq!(check.read(LEGAL), Err(Fault::OutOfMemory));
        assert_eq!(check.finish(), Err(Fault::OutOfMemory));
        assert_eq!(check.reason(), Err(Fault::OutOfMemory));
    }
    Ok(())
}

// Whether the first try of a batch lacks memory after so many other events; the next item is then a try of the same page.
fn refused_try_is_repeated(others: usize) -> Result<bool, Fault> {
    let mut node = Node::new(4, 2, None)?;
    for page in 0..2 {
        node.alloc(0)?;
        node.split_pmd(0, page)?;
        node.unmap_sub(0, page, 0, 2)?;
    }
    for _ in 0..others {
        node.zero(0, 0, 2, 1)?;
    }
    let mut batch = node.batch(1, 2)?;
    let mut tries = batch.tries();
    LEFT.store(0, SeqCst);
    let first = tries.next();
    LEFT.store(isize::MAX, SeqCst);
    let is_refused = first == Some(Err(Fault::OutOfMemory));
    if is_refused {
        assert_eq!(tries.collect::<Vec<_>>(), [Ok(Tried::Split(0)), Ok(Tried::Split(1))]);
    }
    Ok(is_refused)
}

#[test]
fn memory_comes_back_and_its_want_is_an_error() {
    let own = thp_allocator { allocate: Some(allocate), resize: Some(resize), give_back: Some(give_back) };
    // SAFETY: the functions are static, and this is the first call of the library.
    assert_eq!(unsafe { thp_use_allocator(&own) }, THP_OK);
    assert_eq!((use_all(), HELD.load(SeqCst)), (Ok(()), 0));
    assert!((0..200).any(|others| refused_try_is_repeated(others) == Ok(true)));
    for calls in [use_all, lose_a_check] {
        for granted in 0.. {
            LEFT.store(granted, SeqCst);
            let ended = calls();
            let was_refused = LEFT.load(SeqCst) < 0;
            LEFT.store(isize::MAX, SeqCst);
            assert_eq!(HELD.load(SeqCst), 0, "after {granted} requests");
            assert!(matches!(ended, Ok(()) | Err(Fault::OutOfMemory)), "after {granted} requests: {ended:?}");
            if !was_refused {
                break;
            }
        }
    }
}
