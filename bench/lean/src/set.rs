//! Sets of a page's 512 subpages.

#[derive(Clone, Copy, PartialEq, Eq)]
#[repr(align(64))]
pub struct Set(pub [u64; 8]);

impl Set {
    pub const NONE: Set = Set([0; 8]);
    pub const ALL: Set = Set([!0; 8]);

    /// The `count` subpages from `first` on; none where the page hasn't all of them.
    pub fn range(first: u64, count: u64) -> Set {
        let mut set = Set::NONE;
        if count == 0 || first + count > 512 {
            return set;
        }
        let last = first + count - 1;
        let (from, to) = ((first / 64) as usize, (last / 64) as usize);
        set.0[from..=to].fill(!0);
        set.0[from] &= !0 << (first % 64);
        set.0[to] &= !0 >> (63 - last % 64);
        set
    }

    pub fn is_empty(&self) -> bool {
        self.0.iter().fold(0, |all, word| all | word) == 0
    }

    pub fn len(&self) -> u64 {
        self.0.iter().map(|word| u64::from(word.count_ones())).sum()
    }

    /// Word by word.
    pub fn with(&self, other: &Set, word: impl Fn(u64, u64) -> u64) -> Set {
        Set(std::array::from_fn(|at| word(self.0[at], other.0[at])))
    }

    pub fn without(&self, other: &Set) -> Set {
        self.with(other, |one, out| one & !out)
    }
}
