//! Scripts run by workers on nodes that they share.
use crate::event::{Outcome, Refusal};
use crate::node::{Node, Tried};
use crate::script::{Command, Op};
use crate::sub_set::SubSet;
use std::sync::atomic::{AtomicU32, Ordering};
use std::sync::{Mutex, MutexGuard, TryLockError};
use std::{hint, thread};

/// A node behind its lock, and beside it the length of its queue, which is read without.
pub struct Shared {
    node: Mutex<Node>,
    queued: AtomicU32,
}

/// The answer to a command that wasn't refused.
#[derive(Clone, Copy)]
pub enum Reply {
    Page(u64),
    Unit,
    Lost(Outcome, SubSet),
    Count(u32),
    Taken(u32),
    Scan(Counted),
    Split(u64),
    Pinned(u64),
    Used(u64),
    Done,
    Back { back: u32, dropped: u32 },
    NoBatch,
}

#[derive(Clone, Copy, Default)]
pub struct Counted {
    pub taken: u32,
    pub split: u32,
    pub pinned: u32,
    pub back: u32,
    pub dropped: u32,
    pub used: u32,
}

/// The answer to a command, and the command's node.
#[derive(Clone, Copy)]
pub struct Answer {
    pub node: u32,
    pub reply: Result<Reply, Refusal>,
}

// pages that were taken together, and how many of them were tried
struct Batch {
    pages: Vec<u64>,
    tried: usize,
}

// a node was busy at each of the tries
struct Busy;

// a caller and its open batches, by node
struct Caller<'a> {
    nodes: &'a [Shared],
    number: u32,
    batches: Vec<Option<Batch>>,
    // what was counted of the scan at hand, once it has taken its pages
    scan: Option<Counted>,
    // how often a call tries a node; else it waits for it
    tries: Option<u32>,
}

// a section's commands that were done, with their answers, and who goes on with those that were postponed
struct Section<'a> {
    caller: Caller<'a>,
    answers: Vec<Answer>,
    done: usize,
    returned: usize,
}

impl Shared {
    fn new(node: Node) -> Shared {
        Shared { queued: AtomicU32::new(node.queue_len()), node: Mutex::new(node) }
    }

    fn lock(&self, tries: Option<u32>) -> Result<MutexGuard<'_, Node>, Busy> {
        let Some(tries) = tries else {
            return Ok(self.node.lock().unwrap());
        };
        for _try in 0..tries {
            match self.node.try_lock() {
                Ok(node) => return Ok(node),
                Err(TryLockError::WouldBlock) => hint::spin_loop(),
                Err(TryLockError::Poisoned(fault)) => panic!("{fault}"),
            }
        }
        Err(Busy)
    }

    fn call<T>(&self, tries: Option<u32>, call: impl FnOnce(&mut Node) -> T) -> Result<T, Busy> {
        let mut node = self.lock(tries)?;
        let answer = call(&mut node);
        self.queued.store(node.queue_len(), Ordering::Release);
        Ok(answer)
    }
}

/// Does the first section as caller 0, and then each other one on a thread of its own. Answers are kept where asked for.
///
/// A worker waits for a node that another has. With `tries` it tries it so often, and else the rest of its section is postponed: it is
/// done when all are through, worker by worker.
pub fn run(
    nodes: Vec<Node>,
    sections: &[Vec<Command>],
    keep: bool,
    tries: Option<u32>,
) -> (Vec<Node>, Vec<Vec<Answer>>) {
    let shared: Vec<Shared> = nodes.into_iter().map(Shared::new).collect();
    let mut done = vec![Section::new(&shared, 0, None)];
    done[0].go_on(&sections[0], keep);
    thread::scope(|scope| {
        let mut workers = Vec::new();
        for (index, commands) in sections[1..].iter().enumerate() {
            let mut section = Section::new(&shared, 1 + index as u32, tries);
            workers.push(scope.spawn(move || {
                section.go_on(commands, keep);
                section
            }));
        }
        done.extend(workers.into_iter().map(|worker| worker.join().unwrap()));
    });
    let mut answers = Vec::new();
    for (mut section, commands) in done.into_iter().zip(sections) {
        section.caller.tries = None;
        section.go_on(commands, keep);
        answers.push(section.answers);
    }
    (shared.into_iter().map(|node| node.node.into_inner().unwrap()).collect(), answers)
}

impl<'a> Section<'a> {
    fn new(nodes: &'a [Shared], number: u32, tries: Option<u32>) -> Section<'a> {
        let batches = nodes.iter().map(|_| None).collect();
        let caller = Caller { nodes, number, batches, scan: None, tries };
        Section { caller, answers: Vec::new(), done: 0, returned: 0 }
    }

    // does the commands that are left, until a node is busy
    fn go_on(&mut self, commands: &[Command], keep: bool) {
        self.answers.reserve(if keep { commands.len() - self.done } else { 0 });
        for &Command { node, op } in &commands[self.done..] {
            let Ok(reply) = self.caller.command(node, op) else {
                return;
            };
            if keep {
                self.answers.push(Answer { node, reply });
            }
            self.done += 1;
        }
        while self.returned < self.caller.nodes.len() {
            if self.caller.put_back(self.returned).is_err() {
                return;
            }
            self.returned += 1;
        }
    }
}

impl Caller<'_> {
    fn command(&mut self, node: u32, op: Op) -> Result<Result<Reply, Refusal>, Busy> {
        let (c, at, tries) = (self.number, node as usize, self.tries);
        let shared = &self.nodes[at];
        Ok(match op {
            Op::Alloc => shared.call(tries, |node| node.alloc(c))?.map(Reply::Page),
            Op::MapWhole { page } => unit(shared.call(tries, |node| node.map_whole(c, page))?),
            Op::UnmapWhole { page } => lost(shared.call(tries, |node| node.unmap_whole(c, page))?),
            Op::Map { first, count, page } => {
                unit(shared.call(tries, |node| node.map_sub(c, page, first.into(), count.into()))?)
            }
            Op::Unmap { first, count, page } => {
                lost(shared.call(tries, |node| node.unmap_sub(c, page, first.into(), count.into()))?)
            }
            Op::Write { first, count, page } => {
                unit(shared.call(tries, |node| node.write(c, page, first.into(), count.into()))?)
            }
            Op::Zero { first, count, page } => {
                unit(shared.call(tries, |node| node.zero(c, page, first.into(), count.into()))?)
            }
            Op::SplitPmd { page } => unit(shared.call(tries, |node| node.split_pmd(c, page))?),
            Op::Pin { page } => unit(shared.call(tries, |node| node.pin(c, page))?),
            Op::Unpin { page } => lost(shared.call(tries, |node| node.unpin(c, page))?),
            Op::Close => unit(shared.call(tries, |node| node.close(c))?),
            Op::Count => Ok(Reply::Count(shared.queued.load(Ordering::Acquire))),
            Op::Scan { count } => self.scan(at, count.into())?.map(Reply::Scan),
            Op::Take { count } => self.take(at, count.into())?.map(Reply::Taken),
            Op::SplitNext => Ok(self.split_next(at)?),
            Op::PutBack => Ok(self.put_back(at)?),
        })
    }

    // the lock is let go between its steps; one that is interrupted goes on where it was
    fn scan(&mut self, at: usize, count: u32) -> Result<Result<Counted, Refusal>, Busy> {
        if self.scan.is_none() {
            match self.take(at, count)? {
                Ok(taken) => self.scan = Some(Counted { taken, ..Counted::default() }),
                Err(refusal) => return Ok(Err(refusal)),
            }
        }
        let mut counted = self.scan.unwrap_or_default();
        loop {
            match self.split_next(at)? {
                Reply::Split(_) => counted.split += 1,
                Reply::Pinned(_) => counted.pinned += 1,
                Reply::Used(_) => counted.used += 1,
                _ => break,
            }
            self.scan = Some(counted);
        }
        if let Reply::Back { back, dropped } = self.put_back(at)? {
            (counted.back, counted.dropped) = (back, dropped);
        }
        self.scan = None;
        Ok(Ok(counted))
    }

    fn take(&mut self, at: usize, count: u32) -> Result<Result<u32, Refusal>, Busy> {
        let caller = self.number;
        if self.batches[at].is_some() {
            return Ok(Err(Refusal::HasBatch));
        }
        let pages: Vec<u64> = self.nodes[at]
            .call(self.tries, |node| (0..count).map_while(|_| node.take_first(caller)).collect())?;
        let taken = pages.len() as u32;
        self.batches[at] = Some(Batch { pages, tried: 0 });
        Ok(Ok(taken))
    }

    fn split_next(&mut self, at: usize) -> Result<Reply, Busy> {
        let caller = self.number;
        let Some(batch) = &mut self.batches[at] else {
            return Ok(Reply::NoBatch);
        };
        self.nodes[at].call(self.tries, |node| {
            while let Some(&page) = batch.pages.get(batch.tried) {
                batch.tried += 1;
                match node.try_page(caller, page) {
                    Some(Tried::Split(_)) => return Reply::Split(page),
                    Some(Tried::Pinned) => return Reply::Pinned(page),
                    Some(Tried::Used) => return Reply::Used(page),
                    None => {}
                }
            }
            Reply::Done
        })
    }

    fn put_back(&mut self, at: usize) -> Result<Reply, Busy> {
        if self.batches[at].is_none() {
            return Ok(Reply::NoBatch);
        }
        let (mut back, mut dropped) = (0, 0);
        self.nodes[at].call(self.tries, |node| {
            while let Some((_, is_back)) = node.return_first(self.number) {
                back += u32::from(is_back);
                dropped += u32::from(!is_back);
            }
        })?;
        self.batches[at] = None;
        Ok(Reply::Back { back, dropped })
    }
}

fn unit(answer: Result<(), Refusal>) -> Result<Reply, Refusal> {
    answer.map(|()| Reply::Unit)
}

fn lost(answer: Result<(Outcome, SubSet), Refusal>) -> Result<Reply, Refusal> {
    answer.map(|(outcome, released)| Reply::Lost(outcome, released))
}
