//! The rounds of large.c on the node of bench/plain: what a call takes on a node with many live pages, and a whole life of them.
#![allow(dead_code)]
#[path = "../../../plain/src/event.rs"]
mod event;
#[path = "../../../plain/src/list.rs"]
mod list;
#[path = "../../../plain/src/node.rs"]
mod node;
#[path = "../../../plain/src/page.rs"]
mod page;
#[path = "../../../plain/src/sub_set.rs"]
mod sub_set;

use event::{Refusal, Shape};
use node::Node;
use std::hint::black_box;
use std::time::Instant;

const ROUNDS: u64 = 4000;
const BATCH: u64 = 8;
const STRIDE: u64 = 7919;

// the resident memory of this process, in bytes
fn resident() -> f64 {
    let text = std::fs::read_to_string("/proc/self/statm").unwrap();
    4096.0 * text.split(' ').nth(1).unwrap().parse::<f64>().unwrap()
}

fn queued_page(node: &mut Node) {
    let page = node.alloc(0).unwrap();
    node.split_pmd(0, page).unwrap();
    node.unmap_sub(0, page, 0, 1).unwrap();
    node.pin(0, page).unwrap();
}

#[inline(never)]
fn count(node: &mut Node, _: u64) {
    black_box(node.queue_len());
}

#[inline(never)]
fn refused(node: &mut Node, page: u64) {
    assert!(matches!(node.pin(0, u64::MAX - page), Err(Refusal::NoPage)));
}

#[inline(never)]
fn pin_unpin(node: &mut Node, page: u64) {
    node.pin(0, page).unwrap();
    black_box(node.unpin(0, page).unwrap());
}

#[inline(never)]
fn one_subpage(node: &mut Node, page: u64) {
    node.map_sub(0, page, 17, 1).unwrap();
    black_box(node.unmap_sub(0, page, 17, 1).unwrap());
}

#[inline(never)]
fn live(node: &mut Node, _: u64) {
    let page = node.alloc(0).unwrap();
    node.split_pmd(0, page).unwrap();
    node.unmap_sub(0, page, 0, 256).unwrap();
    black_box(node.unmap_sub(0, page, 256, 256).unwrap());
}

#[inline(never)]
fn try_batch(node: &mut Node, _: u64) {
    let mut taken = [0; BATCH as usize];
    for page in &mut taken {
        *page = node.take_first(0).unwrap();
    }
    for page in taken {
        black_box(node.try_page(0, page));
    }
    for _ in 0..BATCH {
        black_box(node.return_first(0));
    }
}

type Kind = (&'static str, u64, fn(&mut Node, u64));

const KINDS: [Kind; 6] = [
    ("queue_length", 1, count),
    ("pin, refused: no such page", 1, refused),
    ("pin and unpin", 2, pin_unpin),
    ("map_sub and unmap_sub, 1 subpage", 2, one_subpage),
    ("alloc, split_pmd, unmap_sub 256, unmap_sub 256", 4, live),
    ("take, 8 split_next, put_back", BATCH + 2, try_batch),
];

fn rounds(pages: u32) {
    let mut node = Node::new(Shape { blocks: pages + 1, order: 9, underused: None });
    node.journal.reserve(4 * pages as usize + 200_000);
    for _ in 0..pages {
        queued_page(&mut node);
    }
    for (what, calls, round) in KINDS {
        let start = Instant::now();
        for k in 0..ROUNDS {
            round(black_box(&mut node), black_box(k * STRIDE % u64::from(pages)));
        }
        println!("{what}|{:.1}", start.elapsed().as_nanos() as f64 / (ROUNDS * calls) as f64);
    }
}

fn whole_life(pages: u32) {
    let (start, before) = (Instant::now(), resident());
    let mut node = Node::new(Shape { blocks: pages, order: 9, underused: None });
    println!("create|{:.1}", start.elapsed().as_nanos() as f64);
    let born: Vec<u64> = (0..pages).map(|_| node.alloc(0).unwrap()).collect();
    for page in &born {
        node.split_pmd(0, *page).unwrap();
    }
    for page in &born {
        node.unmap_sub(0, *page, 256, 256).unwrap();
    }
    let held = resident() - before;
    while let Some(page) = node.take_first(0) {
        black_box(node.try_page(0, page));
    }
    for page in &born {
        node.unmap_sub(0, *page, 0, 256).unwrap();
    }
    let nanos = start.elapsed().as_nanos() as f64;
    println!("a page's life|{:.1}\nresident bytes a page|{:.1}", nanos / f64::from(pages), held / f64::from(pages));
}

fn main() {
    let words: Vec<String> = std::env::args().collect();
    let pages = words[1].parse().unwrap();
    match words[2].as_str() {
        "rounds" => rounds(pages),
        _ => whole_life(pages),
    }
}
