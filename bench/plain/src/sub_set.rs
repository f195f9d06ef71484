//! Sets of subpages of one page.

/// A set of subpages: numbers below 512.
#[derive(Clone, Copy, PartialEq, Eq, Debug, Default)]
pub struct SubSet {
    // subpage i is bit i % 64 of word i / 64
    words: [u64; 8],
}

impl SubSet {
    /// The `count` subpages from `first` on.
    pub fn range(first: usize, count: usize) -> SubSet {
        SubSet::below(first + count).without(SubSet::below(first))
    }

    /// The subpages below `end`.
    pub fn below(end: usize) -> SubSet {
        SubSet {
            words: std::array::from_fn(|at| match end.saturating_sub(64 * at) {
                ones @ 0..64 => (1 << ones) - 1,
                _ => u64::MAX,
            }),
        }
    }

    /// The subpages from `first` on whose count is 0.
    pub fn of_zeros(counts: &[u16], first: usize) -> SubSet {
        let mut set = SubSet::default();
        let mut at = first;
        let mut rest = counts;
        while !rest.is_empty() {
            let (part, more) = rest.split_at(rest.len().min(64 - at % 64));
            set.words[at / 64] |= bits_of_zeros(part) << (at % 64);
            at += part.len();
            rest = more;
        }
        set
    }

    pub fn with(self, other: SubSet) -> SubSet {
        SubSet { words: std::array::from_fn(|at| self.words[at] | other.words[at]) }
    }

    pub fn without(self, other: SubSet) -> SubSet {
        SubSet { words: std::array::from_fn(|at| self.words[at] & !other.words[at]) }
    }

    pub fn count(&self) -> u32 {
        self.words.iter().map(|word| word.count_ones()).sum()
    }

    /// The first run of the set that begins at `from` or behind it, by its first and last subpage.
    pub fn run_from(&self, from: usize) -> Option<(usize, usize)> {
        let first = self.next(from, 0);
        (first < 512).then(|| (first, self.next(first, u64::MAX) - 1))
    }

    // the first number from `from` on whose bit differs from those of `but`, or 512
    fn next(&self, from: usize, but: u64) -> usize {
        let mut at = from;
        while at < 512 {
            let ahead = (self.words[at / 64] ^ but) >> (at % 64);
            if ahead != 0 {
                return at + ahead.trailing_zeros() as usize;
            }
            at += 64 - at % 64;
        }
        512
    }
}

// bit i shows whether count i is 0; most parts are all alike, which vectors find
fn bits_of_zeros(counts: &[u16]) -> u64 {
    let zeros = counts.iter().map(|&count| u16::from(count == 0)).sum::<u16>();
    if zeros == 0 {
        0
    } else if usize::from(zeros) == counts.len() {
        u64::MAX >> (64 - counts.len())
    } else {
        counts.iter().rev().fold(0, |bits, &count| bits << 1 | u64::from(count == 0))
    }
}
