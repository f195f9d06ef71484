//! A node of pages of order 9: its queue, its frames and its statistics.
use crate::numbers::Numbers;
use crate::page::{Page, Planes, Standing};
use crate::set::Set;

/// No block.
const NIL: u32 = u32::MAX;
const SUBPAGES: u64 = 512;

pub struct Node {
    pages: Vec<Page>,
    planes: Vec<Planes>,
    free: Vec<u32>,
    blocks: Numbers,
    oldest: u32,
    newest: u32,
    queued: u64,
    allocated: u64,
    held: u64,
    given: u64,
    split_page: u64,
    split_page_failed: u64,
    deferred_split_page: u64,
    split_pmd: u64,
}

impl Node {
    pub fn new(blocks: usize) -> Node {
        Node {
            pages: vec![Page::new(0); blocks],
            planes: vec![[Set::NONE; 16]; blocks],
            free: (0..blocks as u32).rev().collect(),
            blocks: Numbers::new(blocks),
            oldest: NIL,
            newest: NIL,
            queued: 0,
            allocated: 0,
            held: 0,
            given: 0,
            split_page: 0,
            split_page_failed: 0,
            deferred_split_page: 0,
            split_pmd: 0,
        }
    }

    pub fn alloc(&mut self) {
        if let Some(block) = self.free.pop() {
            self.pages[block as usize] = Page::new(self.allocated);
            self.blocks.insert(self.allocated, block);
            self.allocated += 1;
            self.held += SUBPAGES;
        }
    }

    /// The page of this number, where it lives, with its counts and its block.
    fn page(&mut self, number: u64) -> Option<(&mut Page, &mut Planes, u32)> {
        let block = self.blocks.find(number)?;
        Some((&mut self.pages[block as usize], &mut self.planes[block as usize], block))
    }

    pub fn map_whole(&mut self, number: u64) {
        if let Some((page, ..)) = self.page(number)
            && !page.split
        {
            page.whole += 1;
        }
    }

    pub fn unmap_whole(&mut self, number: u64) {
        if let Some((page, _, block)) = self.page(number)
            && page.whole > 0
        {
            page.whole -= 1;
            let unused = page.whole == 0 && page.mapped != Set::ALL;
            self.settle(block, unused, &Set::NONE);
        }
    }

    pub fn map(&mut self, number: u64, subpages: Set) {
        if let Some((page, planes, _)) = self.page(number)
            && (!page.split || page.maps(&subpages))
        {
            page.add(planes, &subpages);
        }
    }

    pub fn unmap(&mut self, number: u64, subpages: Set) {
        if let Some((page, planes, block)) = self.page(number)
            && !subpages.is_empty()
            && page.maps(&subpages)
        {
            let gone = page.take(planes, &subpages);
            let unused = page.whole == 0 && !gone.is_empty();
            let released = if page.split { gone } else { Set::NONE };
            self.settle(block, unused, &released);
        }
    }

    pub fn split_pmd(&mut self, number: u64) {
        if let Some((page, planes, _)) = self.page(number)
            && page.whole > 0
        {
            page.whole -= 1;
            page.add(planes, &Set::ALL);
            self.split_pmd += 1;
        }
    }

    pub fn pin(&mut self, number: u64) {
        if let Some((page, ..)) = self.page(number)
            && !page.split
        {
            page.pins += 1;
        }
    }

    pub fn unpin(&mut self, number: u64) {
        if let Some((page, _, block)) = self.page(number)
            && page.pins > 0
        {
            page.pins -= 1;
            self.settle(block, false, &Set::NONE);
        }
    }

    /// What becomes of a page that lost a mapping or a pin: it is freed, or queued where subpages went out of use.
    fn settle(&mut self, block: u32, unused: bool, released: &Set) {
        let page = &self.pages[block as usize];
        let (used, standing, number) = (page.is_used(), page.standing, page.number);
        if used || page.pins > 0 {
            let queues = unused && used && !page.split && standing == Standing::Nowhere;
            self.give_back(released.len());
            if queues {
                self.push(block);
                self.deferred_split_page += 1;
            }
            return;
        }
        let frames = if page.split { released.len() } else { SUBPAGES };
        if standing == Standing::Queued {
            self.unlink(block);
        }
        self.blocks.remove(number);
        self.free.push(block);
        self.give_back(frames);
    }

    fn give_back(&mut self, frames: u64) {
        self.held -= frames;
        self.given += frames;
    }

    /// Splits the oldest pages, so many at most; those that are pinned go back behind the others.
    pub fn scan(&mut self, most: usize) {
        let mut pinned = [NIL; 128];
        let mut left = 0;
        for _ in 0..most {
            let block = self.oldest;
            if block == NIL {
                break;
            }
            self.unlink(block);
            if self.pages[block as usize].pins > 0 {
                self.split_page_failed += 1;
                pinned[left] = block;
                left += 1;
            } else {
                self.split(block);
            }
        }
        for &block in &pinned[..left] {
            self.push(block);
        }
    }

    fn split(&mut self, block: u32) {
        let (page, planes) = (&mut self.pages[block as usize], &mut self.planes[block as usize]);
        for _ in 0..page.whole {
            page.add(planes, &Set::ALL);
        }
        self.split_pmd += u64::from(page.whole);
        page.whole = 0;
        page.split = true;
        self.split_page += 1;
        let unused = SUBPAGES - page.mapped.len();
        self.give_back(unused);
    }

    /// Puts a page at the queue's tail.
    fn push(&mut self, block: u32) {
        let newest = self.newest;
        let page = &mut self.pages[block as usize];
        (page.before, page.behind, page.standing) = (newest, NIL, Standing::Queued);
        match newest {
            NIL => self.oldest = block,
            _ => self.pages[newest as usize].behind = block,
        }
        self.newest = block;
        self.queued += 1;
    }

    /// Takes a page out of the queue.
    fn unlink(&mut self, block: u32) {
        let page = &mut self.pages[block as usize];
        page.standing = Standing::Nowhere;
        let (before, behind) = (page.before, page.behind);
        match before {
            NIL => self.oldest = behind,
            _ => self.pages[before as usize].behind = behind,
        }
        match behind {
            NIL => self.newest = before,
            _ => self.pages[behind as usize].before = before,
        }
        self.queued -= 1;
    }

    /// The lines of the node in a report of totals.
    pub fn totals(&self, number: usize) -> String {
        let lines = [
            ("node", number as u64),
            ("pages", self.allocated),
            ("queue", self.queued),
            ("frames_held", self.held),
            ("frames_given", self.given),
            ("thp_split_page", self.split_page),
            ("thp_split_page_failed", self.split_page_failed),
            ("thp_deferred_split_page", self.deferred_split_page),
            ("thp_split_pmd", self.split_pmd),
        ];
        lines.iter().map(|(name, value)| format!("{name} {value}\n")).collect()
    }
}
