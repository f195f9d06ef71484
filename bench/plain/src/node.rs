//! A memory node: its pages, its deferred split queue, and the journal of what happened.
use crate::event::{Event, Outcome, Refusal, Shape, What};
use crate::list::{Link, Links, List, NIL};
use crate::page::{Change, Page};
use crate::sub_set::SubSet;

// The block of a page that was freed.
const GONE: u32 = u32::MAX;

#[derive(Clone, Copy, PartialEq, Eq)]
enum Standing {
    Nowhere,
    Queued,
    Flying(u32),
}

struct Slot {
    number: u64,
    link: Link,
    standing: Standing,
    page: Page,
}

struct Slots(Vec<Slot>);

impl Links for Slots {
    fn link(&mut self, block: u32) -> &mut Link {
        &mut self.0[block as usize].link
    }
}

#[derive(Default)]
pub struct Counters {
    pub split_page: u64,
    pub split_page_failed: u64,
    pub deferred_split_page: u64,
    pub split_pmd: u64,
    pub underused_split_page: u64,
}

/// What became of a page that was tried.
#[derive(Clone, Copy, PartialEq, Eq)]
pub enum Tried {
    Split(SubSet),
    Pinned,
    Used,
}

pub struct Node {
    pub shape: Shape,
    pub journal: Vec<Event>,
    slots: Slots,
    // the block of each page that was ever allocated
    blocks: Vec<u32>,
    free: Vec<u32>,
    queue: List,
    flights: [List; 64],
    // the caller of the last event, where that is a take
    taker: Option<u32>,
    closed: bool,
    pub frames_given: u64,
    pub counters: Counters,
}

impl Node {
    pub fn new(shape: Shape) -> Node {
        let empty = || Slot {
            number: 0,
            link: Link { prev: NIL, next: NIL },
            standing: Standing::Nowhere,
            page: Page::fresh(shape.order),
        };
        Node {
            shape,
            journal: Vec::new(),
            slots: Slots((0..shape.blocks).map(|_| empty()).collect()),
            blocks: Vec::new(),
            free: (0..shape.blocks).rev().collect(),
            queue: List::EMPTY,
            flights: [List::EMPTY; 64],
            taker: None,
            closed: false,
            frames_given: 0,
            counters: Counters::default(),
        }
    }

    pub fn pages(&self) -> u64 {
        self.blocks.len() as u64
    }

    pub fn queue_len(&self) -> u32 {
        self.queue.len
    }

    pub fn frames_held(&self) -> u64 {
        (self.pages() << self.shape.order) - self.frames_given
    }

    pub fn alloc(&mut self, caller: u32) -> Result<u64, Refusal> {
        if self.closed {
            return Err(Refusal::Closed);
        }
        let block = self.free.pop().ok_or(Refusal::NoBlock)?;
        let page = self.pages();
        self.blocks.push(block);
        let slot = &mut self.slots.0[block as usize];
        slot.number = page;
        slot.standing = Standing::Nowhere;
        slot.page = Page::fresh(self.shape.order);
        if self.shape.underused.is_some() {
            self.enqueue(block);
        }
        self.record(caller, What::Alloc { page, block });
        Ok(page)
    }

    pub fn map_whole(&mut self, caller: u32, page: u64) -> Result<(), Refusal> {
        self.slot(page)?.page.map_whole()?;
        self.record(caller, What::MapWhole { page });
        Ok(())
    }

    pub fn split_pmd(&mut self, caller: u32, page: u64) -> Result<(), Refusal> {
        self.slot(page)?.page.split_pmd()?;
        self.counters.split_pmd += 1;
        self.record(caller, What::SplitPmd { page });
        Ok(())
    }

    pub fn map_sub(&mut self, caller: u32, page: u64, first: u32, count: u32) -> Result<(), Refusal> {
        self.slot(page)?.page.map_sub(first, count)?;
        self.record(caller, What::MapSub { page, first, count });
        Ok(())
    }

    pub fn pin(&mut self, caller: u32, page: u64) -> Result<(), Refusal> {
        self.slot(page)?.page.pin()?;
        self.record(caller, What::Pin { page });
        Ok(())
    }

    pub fn write(&mut self, caller: u32, page: u64, first: u32, count: u32) -> Result<(), Refusal> {
        self.slot(page)?.page.fill(first, count, false)?;
        self.record(caller, What::Write { page, first, count });
        Ok(())
    }

    pub fn zero(&mut self, caller: u32, page: u64, first: u32, count: u32) -> Result<(), Refusal> {
        self.slot(page)?.page.fill(first, count, true)?;
        self.record(caller, What::Zero { page, first, count });
        Ok(())
    }

    pub fn unmap_whole(&mut self, caller: u32, page: u64) -> Result<(Outcome, SubSet), Refusal> {
        let change = self.slot(page)?.page.unmap_whole()?;
        let (outcome, released) = self.lose(page, change);
        self.record(caller, What::UnmapWhole { page, outcome, released });
        Ok((outcome, released))
    }

    pub fn unmap_sub(
        &mut self,
        caller: u32,
        page: u64,
        first: u32,
        count: u32,
    ) -> Result<(Outcome, SubSet), Refusal> {
        let change = self.slot(page)?.page.unmap_sub(first, count)?;
        let (outcome, released) = self.lose(page, change);
        self.record(caller, What::UnmapSub { page, first, count, outcome, released });
        Ok((outcome, released))
    }

    pub fn unpin(&mut self, caller: u32, page: u64) -> Result<(Outcome, SubSet), Refusal> {
        let change = self.slot(page)?.page.unpin()?;
        let (outcome, released) = self.lose(page, change);
        self.record(caller, What::Unpin { page, outcome, released });
        Ok((outcome, released))
    }

    pub fn close(&mut self, caller: u32) -> Result<(), Refusal> {
        if self.closed {
            return Err(Refusal::Closed);
        }
        self.closed = true;
        self.record(caller, What::Close);
        Ok(())
    }

    /// Takes the oldest page of the queue into the caller's flight, where the caller has none or goes on taking.
    pub fn take_first(&mut self, caller: u32) -> Option<u64> {
        let block = self.queue.head;
        if block == NIL || (self.flights[caller as usize].len > 0 && self.taker != Some(caller)) {
            return None;
        }
        self.queue.remove(&mut self.slots, block);
        self.flights[caller as usize].push(&mut self.slots, block);
        let slot = &mut self.slots.0[block as usize];
        slot.standing = Standing::Flying(caller);
        let page = slot.number;
        self.record(caller, What::Taken { page });
        Some(page)
    }

    /// Tries a page of the caller's flight: lets it go, splits it, or finds it pinned.
    pub fn try_page(&mut self, caller: u32, page: u64) -> Option<Tried> {
        let block = self.block_of(page)?;
        let slot = &mut self.slots.0[block as usize];
        if slot.standing != Standing::Flying(caller) {
            return None;
        }
        if !slot.page.is_worth_split(self.shape.underused) {
            self.leave_list(block);
            self.record(caller, What::Used { page });
            return Some(Tried::Used);
        }
        if slot.page.pins > 0 {
            self.counters.split_page_failed += 1;
            self.record(caller, What::Pinned { page });
            return Some(Tried::Pinned);
        }
        self.counters.split_page += 1;
        self.counters.split_pmd += u64::from(slot.page.whole);
        self.counters.underused_split_page += u64::from(!slot.page.is_partly);
        let released = slot.page.split(self.shape.underused.is_some());
        self.frames_given += u64::from(released.count());
        self.leave_list(block);
        self.record(caller, What::Split { page, released });
        Some(Tried::Split(released))
    }

    /// Puts the first page of the caller's flight back to the queue's tail, or drops it. Answers the page, and whether it
    /// went back.
    pub fn return_first(&mut self, caller: u32) -> Option<(u64, bool)> {
        let block = self.flights[caller as usize].head;
        if block == NIL {
            return None;
        }
        self.leave_list(block);
        let slot = &self.slots.0[block as usize];
        let page = slot.number;
        let is_back = !self.closed && slot.page.is_partly;
        if is_back {
            self.enqueue(block);
            self.record(caller, What::Back { page });
        } else {
            self.record(caller, What::Dropped { page });
        }
        Some((page, is_back))
    }

    fn record(&mut self, caller: u32, what: What) {
        self.taker = matches!(what, What::Taken { .. }).then_some(caller);
        self.journal.push(Event { caller, what });
    }

    fn block_of(&self, page: u64) -> Option<u32> {
        let block = *self.blocks.get(usize::try_from(page).ok()?)?;
        (block != GONE).then_some(block)
    }

    fn slot(&mut self, page: u64) -> Result<&mut Slot, Refusal> {
        let block = self.block_of(page).ok_or(Refusal::NoPage)?;
        Ok(&mut self.slots.0[block as usize])
    }

    // what becomes of a page that lost mappings or a pin, and the frames given back
    fn lose(&mut self, page: u64, change: Change) -> (Outcome, SubSet) {
        let block = self.blocks[page as usize];
        let Slot { page: lost, standing, .. } = &self.slots.0[block as usize];
        let (outcome, released) = if !lost.has_use() && lost.pins == 0 {
            let all = SubSet::below(1 << self.shape.order);
            let released = if lost.is_split { change.released } else { all };
            self.leave_list(block);
            self.blocks[page as usize] = GONE;
            self.free.push(block);
            (Outcome::Freed, released)
        } else {
            let may_queue = !lost.is_split && !self.closed && *standing == Standing::Nowhere;
            if change.unused && lost.has_use() && may_queue {
                self.enqueue(block);
                self.counters.deferred_split_page += 1;
                (Outcome::Queued, change.released)
            } else {
                (Outcome::Stays, change.released)
            }
        };
        self.frames_given += u64::from(released.count());
        (outcome, released)
    }

    fn enqueue(&mut self, block: u32) {
        self.slots.0[block as usize].standing = Standing::Queued;
        self.queue.push(&mut self.slots, block);
    }

    fn leave_list(&mut self, block: u32) {
        let standing = &mut self.slots.0[block as usize].standing;
        match std::mem::replace(standing, Standing::Nowhere) {
            Standing::Nowhere => {}
            Standing::Queued => self.queue.remove(&mut self.slots, block),
            Standing::Flying(caller) => self.flights[caller as usize].remove(&mut self.slots, block),
        }
    }
}
