//! What happens on a node, and why a call is refused.
use crate::sub_set::SubSet;

#[derive(Clone, Copy, PartialEq, Eq, Debug)]
pub struct Shape {
    pub blocks: u32,
    pub order: u32,
    /// More zero-filled subpages than this make a page worth a split; `None` is off.
    pub underused: Option<u32>,
}

#[derive(Clone, Copy, PartialEq, Eq, Debug)]
pub enum Outcome {
    Stays,
    Queued,
    Freed,
}

#[derive(Clone, Copy, PartialEq, Eq, Debug)]
pub enum What {
    Alloc { page: u64, block: u32 },
    MapWhole { page: u64 },
    UnmapWhole { page: u64, outcome: Outcome, released: SubSet },
    MapSub { page: u64, first: u32, count: u32 },
    UnmapSub { page: u64, first: u32, count: u32, outcome: Outcome, released: SubSet },
    SplitPmd { page: u64 },
    Pin { page: u64 },
    Unpin { page: u64, outcome: Outcome, released: SubSet },
    Write { page: u64, first: u32, count: u32 },
    Zero { page: u64, first: u32, count: u32 },
    Taken { page: u64 },
    Split { page: u64, released: SubSet },
    Pinned { page: u64 },
    Used { page: u64 },
    Back { page: u64 },
    Dropped { page: u64 },
    Close,
}

#[derive(Clone, Copy, PartialEq, Eq, Debug)]
pub struct Event {
    pub caller: u32,
    pub what: What,
}

#[derive(Clone, Copy, PartialEq, Eq, Debug)]
pub enum Refusal {
    NoPage,
    BadRange,
    IsSplit,
    NotMapped,
    Gone,
    NotPinned,
    TooMany,
    Closed,
    NoBlock,
    HasBatch,
}

impl Refusal {
    pub fn word(self) -> &'static str {
        match self {
            Refusal::NoPage => "no-page",
            Refusal::BadRange => "bad-range",
            Refusal::IsSplit => "is-split",
            Refusal::NotMapped => "not-mapped",
            Refusal::Gone => "gone",
            Refusal::NotPinned => "not-pinned",
            Refusal::TooMany => "too-many",
            Refusal::Closed => "closed",
            Refusal::NoBlock => "no-block",
            Refusal::HasBatch => "has-batch",
        }
    }
}
