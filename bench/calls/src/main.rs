//! The rounds of calls.c on the node of bench/plain: for each round the processor time of one call, in nanoseconds.
#![allow(dead_code)]
#[path = "../../plain/src/event.rs"]
mod event;
#[path = "../../plain/src/list.rs"]
mod list;
#[path = "../../plain/src/node.rs"]
mod node;
#[path = "../../plain/src/page.rs"]
mod page;
#[path = "../../plain/src/sub_set.rs"]
mod sub_set;

use event::{Refusal, Shape};
use node::{Node, Tried};
use std::hint::black_box;

const ROUNDS: usize = 250;
const EVENTS: usize = 5;
const LONG: usize = 300_000;

// this thread's processor time, in nanoseconds: what the system reports of the clock that calls.c reads
fn now() -> f64 {
    #[repr(C)]
    struct Time {
        seconds: i64,
        nanos: i64,
    }
    unsafe extern "C" {
        fn clock_gettime(clock: i32, time: *mut Time) -> i32;
    }
    const THREAD_CPUTIME: i32 = 3;
    let mut time = Time { seconds: 0, nanos: 0 };
    // SAFETY: `time` is a local, laid out as 64-bit Linux has its `struct timespec`.
    unsafe { clock_gettime(THREAD_CPUTIME, &mut time) };
    time.seconds as f64 * 1e9 + time.nanos as f64
}

fn made(events: usize) -> (Node, u64) {
    let mut node = Node::new(Shape { blocks: 16, order: 9, underused: None });
    node.journal.reserve(events);
    let page = node.alloc(0).unwrap();
    (node, page)
}

// A round of each kind, which isn't built into the loop around it: as in calls.c it is called there.

#[inline(never)]
fn count(node: &mut Node, _: u64) {
    black_box(node.queue_len());
}

#[inline(never)]
fn refused(node: &mut Node, _: u64) {
    assert!(matches!(node.pin(0, 7), Err(Refusal::NoPage)));
}

#[inline(never)]
fn pin_unpin(node: &mut Node, page: u64) {
    node.pin(0, page).unwrap();
    black_box(node.unpin(0, page).unwrap());
}

fn map_unmap(node: &mut Node, page: u64, first: u32, count: u32) {
    node.map_sub(0, page, first, count).unwrap();
    black_box(node.unmap_sub(0, page, first, count).unwrap());
}

#[inline(never)]
fn one_subpage(node: &mut Node, page: u64) {
    map_unmap(node, page, 17, 1);
}

#[inline(never)]
fn some_subpages(node: &mut Node, page: u64) {
    map_unmap(node, page, 17, 64);
}

#[inline(never)]
fn all_subpages(node: &mut Node, page: u64) {
    map_unmap(node, page, 0, 512);
}

#[inline(never)]
fn live(node: &mut Node, _: u64) {
    let page = node.alloc(0).unwrap();
    node.split_pmd(0, page).unwrap();
    node.unmap_sub(0, page, 0, 256).unwrap();
    let taken = node.take_first(0).unwrap();
    assert!(matches!(node.try_page(0, taken), Some(Tried::Split(_))));
    assert!(node.return_first(0).is_none());
    black_box(node.unmap_sub(0, page, 256, 256).unwrap());
}

// how many tries, and how many nodes each of them makes: the program's arguments
fn asked(number: usize, otherwise: usize) -> usize {
    std::env::args().nth(number).and_then(|word| word.parse().ok()).unwrap_or(otherwise)
}

fn time_rounds(what: &str, calls: usize, round: fn(&mut Node, u64)) {
    let (tries, nodes) = (asked(1, 15), asked(2, 400));
    let spent = (0..tries).map(|_| {
        let mut spent = 0.0;
        for _ in 0..nodes {
            let (mut node, page) = made(ROUNDS * (EVENTS + 1) + 1);
            let start = now();
            for _ in 0..ROUNDS {
                round(black_box(&mut node), black_box(page));
            }
            spent += now() - start;
        }
        spent
    });
    let best = spent.fold(f64::INFINITY, f64::min);
    println!("{what}|{:.1}", best / (nodes * ROUNDS * calls) as f64);
}

fn time_growing(what: &str) {
    let spent = (0..asked(1, 15)).map(|_| {
        let (mut node, page) = made(0);
        let start = now();
        for _ in 0..LONG {
            pin_unpin(black_box(&mut node), black_box(page));
        }
        now() - start
    });
    let best = spent.fold(f64::INFINITY, f64::min);
    println!("{what}|{:.1}", best / (2 * LONG) as f64);
}

fn main() {
    time_rounds("queue_length", 1, count);
    time_rounds("pin, refused: no such page", 1, refused);
    time_rounds("pin and unpin", 2, pin_unpin);
    time_rounds("map_sub and unmap_sub, 1 subpage", 2, one_subpage);
    time_rounds("map_sub and unmap_sub, 64", 2, some_subpages);
    time_rounds("map_sub and unmap_sub, 512", 2, all_subpages);
    time_rounds("alloc, split_pmd, unmap_sub 256, scan, unmap_sub 256", 5, live);
    if asked(2, 400) > 1 {
        time_growing("pin and unpin, 600,000 calls on one growing journal");
    }
}
