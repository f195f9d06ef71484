//! The first run: one page, half of it unmapped, split by the shrinker; what `first.c` does by the library for C.
use leversorrel::{Fault, Node, Outcome};

fn main() -> Result<(), Fault> {
    let mut node = Node::new(16, 9, None)?;
    let page = node.alloc(0)?;
    node.split_pmd(0, page)?;
    let done = node.unmap_sub(0, page, 0, 256)?;
    println!("page {page} is {}", if done.outcome == Outcome::Queued { "queued" } else { "not queued" });
    let scan = node.scan(0, 8)?;
    println!("taken {}, split {}", scan.taken, scan.split);
    let stats = node.stats();
    println!("frames: {} given back, {} held", stats.frames_given, stats.frames_held);
    Ok(())
}
