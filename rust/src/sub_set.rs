//! A set of subpages.
use std::iter::FusedIterator;

/// A set of subpages of one page, which are numbered below 512.
///
/// ```
/// use leversorrel::{Fault, Node};
///
/// let mut node = Node::new(1, 2, None)?;
/// let page = node.alloc(0)?;
/// let released = node.unmap_whole(0, page)?.released;
/// assert!(released.contains(3) && !released.contains(4));
/// assert_eq!(released.into_iter().collect::<Vec<_>>(), [0, 1, 2, 3]);
/// # Ok::<(), Fault>(())
/// ```
#[derive(Clone, Copy, PartialEq, Eq, Hash, Debug, Default)]
pub struct SubSet {
    words: [u64; 8],
}

impl SubSet {
    // The set of the library's words: subpage i is bit i % 64 of word i / 64.
    pub(crate) fn of(words: [u64; 8]) -> SubSet {
        SubSet { words }
    }

    /// Returns whether subpage `i` is in the set.
    pub fn contains(&self, i: usize) -> bool {
        self.words.get(i / 64).is_some_and(|word| word >> (i % 64) & 1 == 1)
    }

    /// Returns the number of subpages in the set.
    pub fn len(&self) -> usize {
        self.words.iter().map(|word| word.count_ones() as usize).sum()
    }

    /// Returns whether the set is empty.
    pub fn is_empty(&self) -> bool {
        self.words == [0; 8]
    }

    /// Returns the subpages in ascending order.
    pub fn iter(&self) -> Subpages {
        Subpages { left: *self }
    }
}

impl IntoIterator for SubSet {
    type Item = usize;
    type IntoIter = Subpages;

    fn into_iter(self) -> Subpages {
        self.iter()
    }
}

impl IntoIterator for &SubSet {
    type Item = usize;
    type IntoIter = Subpages;

    fn into_iter(self) -> Subpages {
        self.iter()
    }
}

/// The subpages of a [`SubSet`], in ascending order.
#[derive(Clone, Debug)]
pub struct Subpages {
    left: SubSet,
}

impl Iterator for Subpages {
    type Item = usize;

    fn next(&mut self) -> Option<usize> {
        let (at, word) = self.left.words.iter_mut().enumerate().find(|(_, word)| **word != 0)?;
        let bit = word.trailing_zeros() as usize;
        *word &= *word - 1;
        Some(64 * at + bit)
    }

    fn size_hint(&self) -> (usize, Option<usize>) {
        let left = self.left.len();
        (left, Some(left))
    }
}

impl ExactSizeIterator for Subpages {}
impl FusedIterator for Subpages {}

#[cfg(test)]
mod tests {
    use super::SubSet;

    #[test]
    fn each_subpage_once_in_order() {
        for words in [[0; 8], [u64::MAX; 8], [1 << 63, 0, 5, 0, 0, u64::MAX, 0, 1 << 63]] {
            let set = SubSet::of(words);
            let wanted: Vec<usize> = (0..512).filter(|&i| set.contains(i)).collect();
            assert_eq!((set.iter().len(), set.is_empty()), (wanted.len(), wanted.is_empty()));
            assert_eq!(set.into_iter().collect::<Vec<_>>(), wanted);
            assert!((&set).into_iter().eq(wanted));
            assert!(!set.contains(512));
        }
    }
}
