//! Each call of the crate, and what it answers.
use leversorrel::{check, version, Back, Fault, List, Node, Outcome, Tried, Verdict};

#[test]
fn a_page_is_queued_and_split() -> Result<(), Fault> {
    let mut node = Node::new(16, 9, None)?;
    let page = node.alloc(0)?;
    node.split_pmd(0, page)?;
    let done = node.unmap_sub(0, page, 0, 256)?;
    assert_eq!((done.outcome, done.released.is_empty()), (Outcome::Queued, true));
    assert_eq!(node.queue_length(), 1);
    let scan = node.scan(0, 8)?;
    assert_eq!((scan.taken, scan.split, scan.pinned), (1, 1, 0));
    let done = node.unmap_sub(0, page, 256, 256)?;
    assert_eq!((done.outcome, done.released.len()), (Outcome::Freed, 256));
    assert!(done.released.contains(256) && !done.released.contains(255) && !done.released.contains(512));
    assert_eq!(done.released.iter().next(), Some(256));
    let stats = node.stats();
    assert_eq!((stats.frames_given, stats.frames_held, stats.split_page), (512, 0, 1));
    Ok(())
}

#[test]
fn a_node_that_counts_has_no_journal() -> Result<(), Fault> {
    let mut node = Node::counting(16, 9, Some(511))?;
    let page = node.alloc(0)?;
    node.split_pmd(0, page)?;
    node.unmap_sub(0, page, 0, 256)?;
    assert_eq!((node.scan(0, 8)?.split, node.stats().events), (1, 5));
    assert_eq!((node.journal(), node.queue()), (Err(Fault::NoJournal), Ok(vec![])));
    assert_eq!(Node::counting(16, 9, Some(512)).err(), Some(Fault::BadSize));
    Ok(())
}

#[test]
fn a_batch_is_tried_and_put_back() -> Result<(), Fault> {
    let mut node = Node::new(4, 2, None)?;
    let page = node.alloc(0)?;
    node.split_pmd(0, page)?;
    node.unmap_sub(0, page, 0, 1)?;
    node.pin(0, page)?;
    assert_eq!(node.split_next(1), Err(Fault::NoBatch));
    assert_eq!(node.take(1, 128)?, 1);
    assert_eq!(node.take(1, 128), Err(Fault::BatchOpen));
    assert_eq!(node.split_next(2), Err(Fault::NoBatch));
    assert_eq!(node.split_next(1)?, Tried::Pinned(page));
    assert_eq!(node.split_next(1)?, Tried::Done);
    assert_eq!(node.put_back(1)?.back, 1);
    assert_eq!(node.unpin(0, page)?.outcome, Outcome::Stays);
    let batch = node.batch(1, 1)?;
    assert_eq!(batch.taken(), 1);
    batch.abandon()?;
    assert_eq!((node.page(page)?.list, node.scan(1, 1)), (List::Flight(1), Err(Fault::HasBatch)));
    Ok(())
}

#[test]
fn pages_gain_and_lose() -> Result<(), Fault> {
    let mut node = Node::new(2, 3, Some(2))?;
    let page = node.alloc(0)?;
    node.map_whole(0, page)?;
    node.map_sub(0, page, 2, 3)?;
    node.write(0, page, 0, 8)?;
    node.zero(0, page, 0, 3)?;
    assert_eq!(node.unmap_whole(0, page)?.outcome, Outcome::Stays);
    assert_eq!(node.take(3, 1)?, 1);
    assert_eq!(node.split_next(3)?, Tried::Split(page));
    // its zero-filled subpages came back with the split
    assert_eq!(node.map_sub(0, page, 0, 1), Err(Fault::Gone));
    assert_eq!(node.stats().underused_split_page, 1);
    node.reserve(10)?;
    node.close(0)?;
    assert_eq!(node.alloc(0), Err(Fault::Closed));
    Ok(())
}

#[test]
fn pages_and_the_queue_are_read() -> Result<(), Fault> {
    let mut node = Node::new(4, 2, None)?;
    for page in 0..3 {
        assert_eq!(node.alloc(0)?, page);
        node.split_pmd(0, page)?;
        node.unmap_sub(0, page, 0, 1)?;
    }
    node.alloc(0)?;
    node.pin(0, 1)?;
    node.take(7, 2)?;
    let seen = &node;
    assert_eq!(seen.queue()?, [2]);
    let page = seen.page(1)?;
    assert_eq!(
        (page.whole_mapcount, page.pins, page.partly_mapped, page.split, page.list),
        (0, 1, true, false, List::Flight(7))
    );
    assert_eq!((seen.page(2)?.list, seen.page(3)?.list, seen.page(3)?.whole_mapcount), (List::Queue, List::Nowhere, 1));
    assert_eq!((seen.mapcount(1, 0)?, seen.mapcount(1, 3)?), (0, 1));
    assert_eq!(
        (seen.page(4).err(), seen.mapcount(4, 0), seen.mapcount(1, 4)),
        (Some(Fault::NoPage), Err(Fault::NoPage), Err(Fault::BadRange))
    );
    // no bit of a number is lost
    for bit in 8..64 {
        let page = 1 + (1 << bit);
        assert_eq!((seen.page(page).err(), seen.mapcount(page, 1)), (Some(Fault::NoPage), Err(Fault::NoPage)));
    }
    assert_eq!(seen.mapcount(1, 1 + (1 << 16)), Err(Fault::BadRange));
    assert_eq!(node.split_next(7)?, Tried::Split(0));
    assert_eq!(node.put_back(7)?, Back { back: 1, dropped: 0 });
    assert_eq!((node.page(0)?.split, node.queue()?), (true, vec![2, 1]));
    Ok(())
}

#[test]
fn refusals_have_their_names() {
    assert_eq!(Node::new(0, 9, None).err(), Some(Fault::BadSize));
    assert_eq!(Node::new(1, 9, Some(512)).err(), Some(Fault::BadSize));
    assert_eq!(Node::new(1, 9, Some(u32::MAX)).err(), Some(Fault::BadSize));
    assert_eq!(Node::counting(1, 9, Some(u32::MAX)).err(), Some(Fault::BadSize));
    let mut node = Node::new(1, 2, None).unwrap();
    assert_eq!(node.map_whole(0, 3), Err(Fault::NoPage));
    assert_eq!(node.alloc(64), Err(Fault::BadCaller));
    assert_eq!(node.scan(0, 129), Err(Fault::BadCount));
    assert_eq!(node.abandon(0), Err(Fault::NoBatch));
    assert_eq!(Fault::NoPage.to_string(), "no such page");
    assert_eq!(version(), env!("CARGO_PKG_VERSION"));
}

#[test]
fn a_node_goes_to_another_thread_and_back() -> Result<(), Fault> {
    let mut node = Node::new(4, 9, None)?;
    let page = node.alloc(0)?;
    let node = std::thread::spawn(move || node.pin(1, page).map(|()| node)).join().unwrap()?;
    assert_eq!(node.stats().events, 2);
    Ok(())
}

#[test]
fn a_journal_is_legal() -> Result<(), Fault> {
    let mut node = Node::new(4, 9, None)?;
    let page = node.alloc(63)?;
    node.unmap_whole(63, page)?;
    let text = node.journal()?;
    assert_eq!(text, b"thp-journal 1\nnode 0 blocks 4\n63 alloc 0\n63 unmapwhole 0 freed 0-511\nend\n");
    assert_eq!(check(&text)?, Verdict::Legal);
    assert_eq!(check(&text[..text.len() - 1])?, Verdict::Faulty { line: 5, fault: Fault::TextCut });
    assert_eq!(check(b"")?, Verdict::Faulty { line: 1, fault: Fault::TextCut });
    Ok(())
}

#[test]
fn each_caller_has_a_batch() -> Result<(), Fault> {
    let mut node = Node::new(4, 2, None)?;
    for caller in 0..4 {
        let page = node.alloc(caller)?;
        node.split_pmd(caller, page)?;
        node.unmap_sub(caller, page, 0, 2)?;
    }
    for caller in 0..4 {
        assert_eq!(node.take(caller, 1)?, 1);
        assert_eq!(node.take(caller, 1), Err(Fault::BatchOpen));
    }
    node.unmap_sub(0, 2, 2, 2)?;
    assert_eq!(node.split_next(3)?, Tried::Split(3));
    assert_eq!(node.split_next(2)?, Tried::Done);
    assert_eq!(node.put_back(1)?, Back { back: 1, dropped: 0 });
    assert_eq!(node.put_back(1), Err(Fault::NoBatch));
    node.abandon(0)?;
    assert_eq!(node.batch(0, 1).err(), Some(Fault::HasBatch));
    let batch = node.batch(1, 1)?;
    assert_eq!((batch.taken(), format!("{batch:?}")), (1, "Batch { caller: 1, taken: 1, .. }".into()));
    drop(batch);
    assert_eq!(node.put_back(2)?, Back { back: 0, dropped: 0 });
    assert_eq!(check(&node.journal()?)?, Verdict::Legal);
    Ok(())
}
