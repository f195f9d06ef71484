//! A page, and how often each of its subpages is mapped.
use crate::set::Set;

/// Where a page stands.
#[derive(Clone, Copy, PartialEq, Eq)]
pub enum Standing {
    Nowhere,
    Queued,
}

#[derive(Clone)]
pub struct Page {
    pub number: u64,
    pub whole: u32,
    pub pins: u32,
    pub split: bool,
    pub standing: Standing,
    /// The pages before and behind it in the queue.
    pub before: u32,
    pub behind: u32,
    /// The subpages with a mapping of their own.
    pub mapped: Set,
    /// How many planes count.
    used: usize,
}

/// Plane k has the subpages whose count has the bit `2^k`.
pub type Planes = [Set; 16];

impl Page {
    pub fn new(number: u64) -> Page {
        Page {
            number,
            whole: 1,
            pins: 0,
            split: false,
            standing: Standing::Nowhere,
            before: 0,
            behind: 0,
            mapped: Set::NONE,
            used: 0,
        }
    }

    pub fn is_used(&self) -> bool {
        self.whole > 0 || !self.mapped.is_empty()
    }

    /// Whether each of these subpages has a mapping of its own.
    pub fn maps(&self, subpages: &Set) -> bool {
        subpages.without(&self.mapped).is_empty()
    }

    /// One mapping of each of these subpages more.
    pub fn add(&mut self, planes: &mut Planes, subpages: &Set) {
        self.mapped = self.mapped.with(subpages, |one, other| one | other);
        let mut carry = *subpages;
        for (at, plane) in planes.iter_mut().enumerate() {
            if carry.is_empty() {
                return;
            }
            if at == self.used {
                *plane = Set::NONE;
                self.used += 1;
            }
            let next = carry.with(plane, |one, other| one & other);
            *plane = plane.with(&carry, |one, other| one ^ other);
            carry = next;
        }
    }

    /// One mapping of each of these subpages less; those that have none left.
    pub fn take(&mut self, planes: &mut Planes, subpages: &Set) -> Set {
        let mut borrow = *subpages;
        for plane in &mut planes[..self.used] {
            if borrow.is_empty() {
                break;
            }
            *plane = plane.with(&borrow, |one, other| one ^ other);
            borrow = borrow.with(plane, |one, other| one & other);
        }
        let counted = planes[..self.used]
            .iter()
            .fold(Set::NONE, |all, plane| all.with(plane, |one, other| one | other));
        let gone = subpages.without(&counted);
        self.mapped = self.mapped.without(&gone);
        gone
    }
}
