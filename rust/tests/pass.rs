//! Each call of a pass, and what it answers.
use leversorrel::{check, Back, Fault, NodeCell, Outcome, Pass, Tried, Verdict};

#[test]
fn two_passes_have_one_journal() -> Result<(), Fault> {
    let mut one = NodeCell::new(16, 2, None, 3)?.into_pass();
    let mut two = one.split(2)?;
    assert_eq!((one.callers(), two.callers()), (0..2, 2..3));
    for caller in [0, 1] {
        let page = one.alloc(caller)?;
        two.split_pmd(2, page)?;
        assert_eq!(one.unmap_sub(caller, page, 0, 2)?.outcome, Outcome::Queued);
        assert_eq!(two.count(), caller + 1);
    }
    let scan = two.scan(2, 8)?;
    assert_eq!((scan.taken, scan.split, scan.pinned), (2, 2, 0));
    let done = one.unmap_sub(0, 1, 2, 2)?;
    assert_eq!((done.outcome, done.released.len()), (Outcome::Freed, 2));
    one.join(two)?;
    assert_eq!(one.callers(), 0..3);
    let node = one.finish()?;
    assert_eq!(node.stats().split_page, 2);
    assert_eq!(check(&node.journal()?)?, Verdict::Legal);
    Ok(())
}

#[test]
fn four_threads_share_a_node() -> Result<(), Fault> {
    let mut first = NodeCell::new(16, 2, None, 4)?.into_pass();
    let others = [first.split(3)?, first.split(2)?, first.split(1)?];
    let threads = others.into_iter().zip([3, 2, 1]).map(|(pass, caller)| std::thread::spawn(move || lives(pass, caller)));
    let threads: Vec<_> = threads.collect();
    let mut first = lives(first, 0)?;
    for thread in threads.into_iter().rev() {
        first.join(thread.join().expect("a thread ended")?).map_err(|(_, fault)| fault)?;
    }
    let node = first.finish().map_err(|(_, fault)| fault)?;
    assert_eq!((node.stats().allocations, node.stats().frames_held), (400, 0));
    assert_eq!(check(&node.journal()?)?, Verdict::Legal);
    Ok(())
}

// A hundred pages from first to last, each call made again where another pass has the node.
fn lives(mut pass: Pass, caller: u32) -> Result<Pass, Fault> {
    for _ in 0..100 {
        let page = free(|| pass.alloc(caller))?;
        free(|| pass.split_pmd(caller, page))?;
        free(|| pass.unmap_sub(caller, page, 0, 2))?;
        free(|| pass.unmap_sub(caller, page, 2, 2))?;
    }
    Ok(pass)
}

fn free<T>(mut call: impl FnMut() -> Result<T, Fault>) -> Result<T, Fault> {
    loop {
        match call() {
            Err(Fault::Busy) => std::thread::yield_now(),
            answer => return answer,
        }
    }
}

#[test]
fn what_does_not_fit_is_handed_back() -> Result<(), Fault> {
    assert_eq!(NodeCell::new(1, 2, None, 4_097).err(), Some(Fault::BadSize));
    assert_eq!(NodeCell::new(1, 2, Some(512), 1).err(), Some(Fault::BadSize));
    assert_eq!(NodeCell::new(1, 2, Some(u32::MAX), 1).err(), Some(Fault::BadSize));
    assert_eq!(NodeCell::counting(1, 2, Some(u32::MAX), 1).err(), Some(Fault::BadSize));
    let mut one = NodeCell::new(1, 2, None, 2)?.into_pass();
    assert_eq!(one.split(0).err(), Some(Fault::BadCaller));
    assert_eq!(one.alloc(2), Err(Fault::BadCaller));
    let mut two = one.split(1)?;
    assert_eq!(two.scan(1, 129), Err(Fault::BadCount));
    let stranger = NodeCell::new(1, 2, None, 2)?.into_pass();
    let Err((stranger, Fault::BadPass)) = one.join(stranger) else {
        panic!("a pass of another node was joined");
    };
    drop(stranger);
    let Err((mut one, Fault::BadPass)) = one.finish() else {
        panic!("a node with two passes was taken out");
    };
    one.join(two).map_err(|(_, fault)| fault)?;
    assert!(one.finish().is_ok());
    Ok(())
}

#[test]
fn batches_go_with_their_callers() -> Result<(), Fault> {
    let mut one = NodeCell::new(16, 2, None, 3)?.into_pass();
    for caller in 0..3 {
        let page = one.alloc(caller)?;
        one.split_pmd(caller, page)?;
        one.unmap_sub(caller, page, 0, 2)?;
    }
    assert_eq!((one.take(0, 1)?, one.take(2, 2)?), (1, 2));
    assert_eq!(one.take(2, 1), Err(Fault::BatchOpen));
    let mut two = one.split(1)?;
    assert_eq!((one.callers(), two.callers()), (0..1, 1..3));
    assert_eq!(two.split_next(2)?, Tried::Split(1));
    assert_eq!(two.split_next(1), Err(Fault::NoBatch));
    one.pin(0, 2)?;
    assert_eq!(two.split_next(2)?, Tried::Pinned(2));
    one.join(two).map_err(|(_, fault)| fault)?;
    let Err((mut one, Fault::BatchOpen)) = one.finish() else {
        panic!("a node with open batches was taken out");
    };
    assert_eq!(one.put_back(2)?, Back { back: 1, dropped: 0 });
    one.abandon(0)?;
    assert_eq!(one.take(0, 1), Err(Fault::HasBatch));
    assert!(one.finish().is_ok());
    Ok(())
}

#[test]
fn a_cell_that_counts_has_no_journal() -> Result<(), Fault> {
    let mut passes = NodeCell::counting(4, 2, None, 2)?.into_passes().map_err(|(_, fault)| fault)?;
    let page = passes[0].alloc(0)?;
    passes[1].split_pmd(1, page)?;
    passes[1].unmap_sub(1, page, 0, 2)?;
    assert_eq!(passes[0].scan(0, 8)?.split, 1);
    let node = NodeCell::from_passes(passes).map_err(|(_, fault)| fault)?.finish().map_err(|(_, fault)| fault)?;
    assert_eq!((node.stats().frames_given, node.stats().events), (2, 5));
    assert_eq!(node.journal(), Err(Fault::NoJournal));
    assert_eq!(node.queue(), Ok(vec![]));
    assert_eq!(NodeCell::counting(4, 2, Some(512), 2).err(), Some(Fault::BadSize));
    Ok(())
}

#[test]
fn a_batch_that_is_dropped_is_put_back() -> Result<(), Fault> {
    let mut pass = NodeCell::new(4, 2, None, 2)?.into_pass();
    let page = pass.alloc(0)?;
    pass.split_pmd(0, page)?;
    pass.unmap_sub(0, page, 0, 2)?;
    assert_eq!(pass.batch(1, 128)?.taken(), 1);
    assert_eq!((pass.count(), pass.put_back(1)), (1, Err(Fault::NoBatch)));
    let mut batch = pass.batch(1, 1)?;
    assert_eq!(batch.split_next()?, Tried::Split(page));
    assert_eq!(batch.put_back().map_err(|(_, fault)| fault)?, Back { back: 0, dropped: 0 });
    pass.batch(1, 1)?.abandon()?;
    assert_eq!(pass.put_back(1), Err(Fault::NoBatch));
    Ok(())
}

#[test]
fn a_cell_is_made_of_its_passes_alone() -> Result<(), Fault> {
    let mut passes = NodeCell::new(4, 2, None, 3)?.into_passes().map_err(|(_, fault)| fault)?;
    assert_eq!(passes.len(), 3);
    let last = passes.remove(1);
    let Err((passes, Fault::BadPass)) = NodeCell::from_passes(passes) else {
        panic!("a cell was made of some of its passes");
    };
    assert_eq!(passes.iter().map(|pass| pass.callers()).collect::<Vec<_>>(), [0..1, 2..3]);
    let stranger = NodeCell::new(4, 2, None, 1)?.into_pass();
    assert!(matches!(NodeCell::from_passes(vec![stranger, last]), Err((_, Fault::BadPass))));
    assert!(matches!(NodeCell::from_passes(passes), Err((_, Fault::BadPass))));
    assert!(matches!(NodeCell::from_passes(Vec::new()), Err((_, Fault::BadPass))));
    let mut passes = NodeCell::new(4, 2, None, 6)?.into_passes().map_err(|(_, fault)| fault)?;
    passes.remove(2);
    let Err((passes, Fault::BadPass)) = NodeCell::from_passes(passes) else {
        panic!("a cell was made of some of its passes");
    };
    assert_eq!(passes.iter().map(|pass| pass.callers()).collect::<Vec<_>>(), [0..2, 3..4, 4..5, 5..6]);
    let mut passes = NodeCell::new(4, 2, None, 6)?.into_passes().map_err(|(_, fault)| fault)?;
    passes.remove(2);
    let Err((passes, Fault::BadPass)) = NodeCell::from_passes(passes) else {
        panic!("a cell was made of some of its passes");
    };
    assert_eq!(passes.iter().map(|pass| pass.callers()).collect::<Vec<_>>(), [0..2, 3..4, 4..5, 5..6]);
    let passes = NodeCell::new(4, 2, None, 3)?.into_passes().map_err(|(_, fault)| fault)?;
    let cell = NodeCell::from_passes(passes.into_iter().rev().collect()).map_err(|(_, fault)| fault)?;
    assert!(cell.finish().is_ok());
    Ok(())
}
