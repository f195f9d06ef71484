//! The block of each live page by the page's number: a table of open addressing.

/// No page has this number.
const NONE: u64 = u64::MAX;

pub struct Numbers {
    places: Vec<(u64, u32)>,
}

impl Numbers {
    /// For so many pages at a time.
    pub fn new(pages: usize) -> Numbers {
        Numbers { places: vec![(NONE, 0); (4 * pages).next_power_of_two()] }
    }

    fn home(&self, number: u64) -> usize {
        (number.wrapping_mul(0x9E37_79B9_7F4A_7C15) >> 40) as usize & (self.places.len() - 1)
    }

    fn next(&self, place: usize) -> usize {
        (place + 1) & (self.places.len() - 1)
    }

    /// The place of the number, or the free one where it would go.
    fn place(&self, number: u64) -> usize {
        let mut place = self.home(number);
        while self.places[place].0 != number && self.places[place].0 != NONE {
            place = self.next(place);
        }
        place
    }

    pub fn find(&self, number: u64) -> Option<u32> {
        let (found, block) = self.places[self.place(number)];
        (found == number).then_some(block)
    }

    pub fn insert(&mut self, number: u64, block: u32) {
        let place = self.place(number);
        self.places[place] = (number, block);
    }

    /// Takes a number out, and moves up those that were pushed on by it.
    pub fn remove(&mut self, number: u64) {
        let mut hole = self.place(number);
        let mut place = hole;
        loop {
            place = self.next(place);
            let (moved, _) = self.places[place];
            if moved == NONE {
                break;
            }
            let home = self.home(moved);
            let stays =
                if hole <= place { hole < home && home <= place } else { hole < home || home <= place };
            if !stays {
                self.places[hole] = self.places[place];
                hole = place;
            }
        }
        self.places[hole].0 = NONE;
    }
}
