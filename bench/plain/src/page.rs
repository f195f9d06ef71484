//! One page: its map counts, its pins, whether it is split, and which of its subpages are zero-filled.
use crate::event::Refusal;
use crate::sub_set::SubSet;
use std::ops::Range;

pub struct Page {
    // how often a PMD entry maps the page
    pub whole: u16,
    pub pins: u16,
    // how many subpages a PTE entry maps
    mapped: u16,
    subpages: u16,
    pub is_split: bool,
    pub is_partly: bool,
    // the split gave back the frames of zero-filled subpages too
    freed_zero_frames: bool,
    zero: SubSet,
    // how often a PTE entry maps each subpage
    own: [u16; 512],
}

/// What an unmap did to the use of its page.
pub struct Change {
    /// A subpage that was in use isn't any more.
    pub unused: bool,
    pub released: SubSet,
}

fn has(counts: &[u16], n: u16) -> bool {
    // all of them are looked at, since a loop that ends early isn't vectorised
    counts.iter().fold(false, |found, &count| found | (count == n))
}

impl Page {
    pub fn fresh(order: u32) -> Page {
        Page {
            whole: 1,
            pins: 0,
            mapped: 0,
            subpages: 1 << order,
            is_split: false,
            is_partly: false,
            freed_zero_frames: false,
            zero: SubSet::below(1 << order),
            own: [0; 512],
        }
    }

    pub fn has_use(&self) -> bool {
        self.whole > 0 || self.mapped > 0
    }

    pub fn is_worth_split(&self, threshold: Option<u32>) -> bool {
        self.is_partly || threshold.is_some_and(|threshold| self.zero.count() > threshold)
    }

    pub fn map_whole(&mut self) -> Result<(), Refusal> {
        self.not_split()?;
        if has(&self.own[..usize::from(self.subpages)], u16::MAX - self.whole) {
            return Err(Refusal::TooMany);
        }
        self.whole += 1;
        Ok(())
    }

    pub fn unmap_whole(&mut self) -> Result<Change, Refusal> {
        self.mapped_whole()?;
        let unused = self.whole == 1 && self.mapped < self.subpages;
        self.whole -= 1;
        self.is_partly |= unused && self.has_use();
        Ok(Change { unused, released: SubSet::default() })
    }

    pub fn split_pmd(&mut self) -> Result<(), Refusal> {
        self.mapped_whole()?;
        self.whole -= 1;
        self.add_one(0..usize::from(self.subpages));
        Ok(())
    }

    pub fn map_sub(&mut self, first: u32, count: u32) -> Result<(), Refusal> {
        let range = self.range(first, count)?;
        let counts = &self.own[range.clone()];
        if self.is_split && (has(counts, 0) || self.gave_some(&range)) {
            return Err(Refusal::Gone);
        }
        if has(counts, u16::MAX - self.whole) {
            return Err(Refusal::TooMany);
        }
        self.add_one(range);
        Ok(())
    }

    pub fn unmap_sub(&mut self, first: u32, count: u32) -> Result<Change, Refusal> {
        let range = self.range(first, count)?;
        let start = range.start;
        let counts = &mut self.own[range];
        if has(counts, 0) {
            return Err(Refusal::NotMapped);
        }
        let mut gone = 0;
        for count in counts.iter_mut() {
            gone += u16::from(*count == 1);
            *count -= 1;
        }
        let mut released = SubSet::default();
        if self.is_split {
            released = SubSet::of_zeros(counts, start);
            if self.freed_zero_frames {
                released = released.without(self.zero);
            }
        }
        self.mapped -= gone;
        let unused = self.whole == 0 && gone > 0;
        self.is_partly |= unused && self.has_use();
        Ok(Change { unused, released })
    }

    pub fn pin(&mut self) -> Result<(), Refusal> {
        self.not_split()?;
        self.pins = self.pins.checked_add(1).ok_or(Refusal::TooMany)?;
        Ok(())
    }

    pub fn unpin(&mut self) -> Result<Change, Refusal> {
        self.not_split()?;
        self.pins = self.pins.checked_sub(1).ok_or(Refusal::NotPinned)?;
        Ok(Change { unused: false, released: SubSet::default() })
    }

    /// Fills subpages with zeros, or with data.
    pub fn fill(&mut self, first: u32, count: u32, with_zeros: bool) -> Result<(), Refusal> {
        let range = self.range(first, count)?;
        self.not_split()?;
        if self.whole == 0 && has(&self.own[range.clone()], 0) {
            return Err(Refusal::NotMapped);
        }
        let filled = SubSet::range(range.start, range.len());
        self.zero = if with_zeros { self.zero.with(filled) } else { self.zero.without(filled) };
        Ok(())
    }

    /// Splits the page, and answers the subpages whose frames that gives back.
    pub fn split(&mut self, give_zero: bool) -> SubSet {
        let subpages = usize::from(self.subpages);
        let mut released = SubSet::default();
        if self.whole == 0 {
            released = SubSet::of_zeros(&self.own[..subpages], 0);
        } else {
            self.own[..subpages].iter_mut().for_each(|count| *count += self.whole);
            self.mapped = self.subpages;
        }
        if give_zero {
            released = released.with(self.zero);
        }
        self.whole = 0;
        self.is_split = true;
        self.freed_zero_frames = give_zero;
        released
    }

    fn add_one(&mut self, range: Range<usize>) {
        let mut new = 0;
        for count in &mut self.own[range] {
            new += u16::from(*count == 0);
            *count += 1;
        }
        self.mapped += new;
    }

    fn gave_some(&self, range: &Range<usize>) -> bool {
        let kept = SubSet::range(range.start, range.len()).without(self.zero);
        self.freed_zero_frames && kept.count() as usize != range.len()
    }

    fn range(&self, first: u32, count: u32) -> Result<Range<usize>, Refusal> {
        if count == 0 || first + count > u32::from(self.subpages) {
            return Err(Refusal::BadRange);
        }
        Ok(first as usize..(first + count) as usize)
    }

    fn not_split(&self) -> Result<(), Refusal> {
        if self.is_split { Err(Refusal::IsSplit) } else { Ok(()) }
    }

    fn mapped_whole(&self) -> Result<(), Refusal> {
        self.not_split()?;
        if self.whole == 0 { Err(Refusal::NotMapped) } else { Ok(()) }
    }
}
