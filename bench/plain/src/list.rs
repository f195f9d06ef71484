//! Lists of blocks, linked both ways through the pages' slots.

pub const NIL: u32 = u32::MAX;

#[derive(Clone, Copy)]
pub struct Link {
    pub prev: u32,
    pub next: u32,
}

/// A list whose links stand elsewhere. A block stands in one list at most.
#[derive(Clone, Copy)]
pub struct List {
    pub head: u32,
    tail: u32,
    pub len: u32,
}

/// Where the link of each block stands.
pub trait Links {
    fn link(&mut self, block: u32) -> &mut Link;
}

impl List {
    pub const EMPTY: List = List { head: NIL, tail: NIL, len: 0 };

    pub fn push(&mut self, links: &mut impl Links, block: u32) {
        *links.link(block) = Link { prev: self.tail, next: NIL };
        match self.tail {
            NIL => self.head = block,
            tail => links.link(tail).next = block,
        }
        self.tail = block;
        self.len += 1;
    }

    pub fn remove(&mut self, links: &mut impl Links, block: u32) {
        let Link { prev, next } = *links.link(block);
        match prev {
            NIL => self.head = next,
            prev => links.link(prev).next = next,
        }
        match next {
            NIL => self.tail = prev,
            next => links.link(next).prev = prev,
        }
        self.len -= 1;
    }
}
