//! Random sequences of calls, made by this crate and by the program. `THP_PROGRAM` names a built `thpsplit`, `THP_CASES` how many
//! sequences there are (100), `THP_SEED` where they begin (1).
//!
//! A sequence is made call by call on nodes of this crate, or by passes of shared ones, and written down as a script. The program's
//! answers to the script are to be the same, so are each node's numbers, and so is the journal where there is one node. The check
//! finds each journal legal, and of journals that are spoilt it reports the same as the check of texts that come in parts.
use std::env;
use std::io::{self, Write};
use std::process::{Command, Stdio};

use leversorrel::{check, Check, Done, Fault, Node, NodeCell, Outcome, Pass, SubSet, Tried, Verdict};

/// Numbers that look random, the same ones for the same seed: SplitMix64.
struct Chance(u64);

impl Chance {
    fn next(&mut self) -> u64 {
        self.0 = self.0.wrapping_add(0x9e37_79b9_7f4a_7c15);
        let mixed = (self.0 ^ (self.0 >> 30)).wrapping_mul(0xbf58_476d_1ce4_e5b9);
        let mixed = (mixed ^ (mixed >> 27)).wrapping_mul(0x94d0_49bb_1331_11eb);
        mixed ^ (mixed >> 31)
    }

    fn below(&mut self, bound: u32) -> u32 {
        (self.next() % u64::from(bound)) as u32
    }

    fn among<T: Copy>(&mut self, some: &[T]) -> T {
        some[self.next() as usize % some.len()]
    }
}

#[derive(Clone, Copy)]
struct Shape {
    blocks: u32,
    order: u32,
    underused: Option<u32>,
}

/// Shapes of one to three nodes, which have as many blocks: plain ones, ones of any orders, or such that may have thresholds, too.
fn shapes(chance: &mut Chance) -> Vec<Shape> {
    let blocks = chance.among(&[1, 2, 3, 5, 16, 16, 64, 4096]);
    let kind = chance.below(5);
    let nodes = chance.among(&[1, 1, 2, 3]);
    let shape = |_| {
        let any = 2 + chance.below(8);
        let order = if kind == 0 { 9 } else { chance.among(&[2, 2, 2, 3, 9, any]) };
        let below = chance.below(1 << order);
        let threshold = chance.among(&[None, None, Some(0), Some(1), Some((1 << order) - 1), Some(below)]);
        Shape { blocks, order, underused: if kind > 1 { threshold } else { None } }
    };
    (0..nodes).map(shape).collect()
}

#[derive(Clone, Copy)]
struct Range {
    first: u32,
    count: u32,
}

#[derive(Clone, Copy)]
enum Call {
    Alloc,
    MapWhole(u64),
    UnmapWhole(u64),
    Map(u64, Range),
    Unmap(u64, Range),
    SplitPmd(u64),
    Pin(u64),
    Unpin(u64),
    Write(u64, Range),
    Zero(u64, Range),
    Close,
    Count,
    Scan(u32),
    Take(u32),
    SplitNext,
    PutBack,
}

impl Call {
    /// The command of a script that asks for this call on a node.
    fn command(self, node: usize) -> String {
        let of_page = |word, page| format!("{word} {node} {page}");
        let of_range = |word, page, Range { first, count }| format!("{word} {node} {page} {first} {count}");
        match self {
            Call::Alloc => format!("alloc {node}"),
            Call::MapWhole(page) => of_page("mapwhole", page),
            Call::UnmapWhole(page) => of_page("unmapwhole", page),
            Call::Map(page, range) => of_range("map", page, range),
            Call::Unmap(page, range) => of_range("unmap", page, range),
            Call::SplitPmd(page) => of_page("splitpmd", page),
            Call::Pin(page) => of_page("pin", page),
            Call::Unpin(page) => of_page("unpin", page),
            Call::Write(page, range) => of_range("write", page, range),
            Call::Zero(page, range) => of_range("zero", page, range),
            Call::Close => format!("close {node}"),
            Call::Count => format!("count {node}"),
            Call::Scan(n) => format!("scan {node} {n}"),
            Call::Take(n) => format!("take {node} {n}"),
            Call::SplitNext => format!("splitnext {node}"),
            Call::PutBack => format!("putback {node}"),
        }
    }
}

const CALLERS: u32 = 64;

/// How calls reach a node.
enum Way {
    Own(Node),
    /// By two passes that are joined and divided elsewhere before each call.
    Shared {
        lower: Pass,
        upper: Option<Pass>,
    },
}

impl Way {
    fn new(shape: Shape, is_shared: bool) -> Way {
        let Shape { blocks, order, underused } = shape;
        if is_shared {
            Way::Shared { lower: NodeCell::new(blocks, order, underused, CALLERS).unwrap().into_pass(), upper: None }
        } else {
            Way::Own(Node::new(blocks, order, underused).unwrap())
        }
    }

    /// The pass of a caller, divided anew. (Only of a shared node.)
    fn pass(&mut self, caller: u32) -> &mut Pass {
        let Way::Shared { lower, upper } = self else {
            panic!("the node isn't shared");
        };
        let at = lower.callers().end % (CALLERS - 1) + 1;
        if let Some(upper) = upper.take() {
            lower.join(upper).unwrap();
        }
        let upper = upper.insert(lower.split(at).unwrap());
        if caller < at {
            lower
        } else {
            upper
        }
    }

    fn count(&mut self, caller: u32) -> u32 {
        match self {
            Way::Own(node) => node.queue_length(),
            Way::Shared { .. } => self.pass(caller).count(),
        }
    }

    /// The node, which is shared no more.
    fn node(&mut self) -> &mut Node {
        if let Way::Shared { lower, upper } = self {
            let mut whole = std::mem::replace(lower, NodeCell::new(1, 2, None, 1).unwrap().into_pass());
            if let Some(upper) = upper.take() {
                whole.join(upper).unwrap();
            }
            *self = Way::Own(whole.finish().unwrap());
        }
        match self {
            Way::Own(node) => node,
            Way::Shared { .. } => panic!("the node is shared still"),
        }
    }
}

/// A call on the node, or on the caller's pass.
macro_rules! ask {
    ($way:expr, $call:ident, $caller:expr $(, $more:expr)*) => {
        match $way {
            Way::Own(node) => node.$call($caller $(, $more)*),
            shared => shared.pass($caller).$call($caller $(, $more)*),
        }
    };
}

/// A node, and what is known of it by its answers.
struct Place {
    node: Way,
    shape: Shape,
    live: Vec<Page>,
    allocated: u64,
    /// How many pages of the section's open batch weren't tried, where it has one here.
    open: Option<u32>,
}

/// A page that wasn't reported to be gone.
#[derive(Clone, Copy)]
struct Page {
    number: u64,
    /// Whether a PMD mapping of it was split.
    has_entries: bool,
}

impl Place {
    fn new(shape: Shape, is_shared: bool) -> Place {
        let node = Way::new(shape, is_shared);
        Place { node, shape, live: Vec::new(), allocated: 0, open: None }
    }

    /// Mostly a page that lives.
    fn page(&self, chance: &mut Chance) -> Page {
        if self.live.is_empty() || chance.below(12) == 0 {
            Page { number: chance.among(&[self.allocated, 0, 1 << 32, u64::MAX]), has_entries: chance.below(2) == 0 }
        } else {
            chance.among(&self.live)
        }
    }

    /// Mostly a range that a page has.
    fn range(&self, chance: &mut Chance) -> Range {
        let size = 1 << self.shape.order;
        let any = chance.below(size + 1);
        let first = chance.among(&[0, 0, size / 2, any]);
        let any = chance.below(size + 2);
        Range { first, count: chance.among(&[size - first, size - first, 1, any]) }
    }

    /// A call that mostly does something.
    fn likely_call(&self, chance: &mut Chance) -> Call {
        let (Page { number: page, has_entries }, range) = (self.page(chance), self.range(chance));
        if self.open.is_some() && chance.below(3) == 0 {
            return if self.open == Some(0) && chance.below(4) > 0 { Call::PutBack } else { Call::SplitNext };
        }
        if self.live.is_empty() && chance.below(4) > 0 {
            return Call::Alloc;
        }
        match chance.below(40) {
            0..=3 => Call::Alloc,
            4 => Call::MapWhole(page),
            5 => Call::UnmapWhole(page),
            6..=7 => Call::Map(page, range),
            8..=20 if has_entries => Call::Unmap(page, range),
            8..=20 => Call::SplitPmd(page),
            21 => Call::SplitPmd(page),
            22 => Call::Unmap(page, range),
            23 => Call::Pin(page),
            24 => Call::Unpin(page),
            // what only version 3 of a journal can state is rare without thresholds
            25..=29 if self.shape.underused.is_none() && chance.below(8) > 0 => Call::Count,
            25..=28 => Call::Write(page, range),
            29 => Call::Zero(page, range),
            30 if chance.below(8) == 0 => Call::Close,
            30..=31 => Call::Count,
            32..=34 => Call::Scan(chance.among(&[0, 1, 2, 8, 128])),
            35..=37 => Call::Take(chance.among(&[0, 1, 2, 8, 128])),
            38 => Call::SplitNext,
            _ => Call::PutBack,
        }
    }

    /// Makes a call, and words its answer as the program does.
    fn answer(&mut self, caller: u32, call: Call) -> String {
        match self.made(caller, call) {
            Ok(words) => words,
            Err(Fault::NoBatch) => "no-batch".into(),
            Err(fault) => format!("refused {}", word_of(fault)),
        }
    }

    fn made(&mut self, caller: u32, call: Call) -> Result<String, Fault> {
        let node = &mut self.node;
        match call {
            Call::Alloc => {
                let page = ask!(node, alloc, caller)?;
                self.live.push(Page { number: page, has_entries: false });
                self.allocated += 1;
                return Ok(format!("page {page}"));
            }
            Call::UnmapWhole(page) => return ask!(node, unmap_whole, caller, page).map(|done| self.lost(page, done)),
            Call::Unmap(page, Range { first, count }) => {
                return ask!(node, unmap_sub, caller, page, first, count).map(|done| self.lost(page, done));
            }
            Call::Unpin(page) => return ask!(node, unpin, caller, page).map(|done| self.lost(page, done)),
            Call::Count => return Ok(format!("count {}", node.count(caller))),
            Call::Scan(_) | Call::Take(_) | Call::SplitNext | Call::PutBack => return self.shrunk(caller, call),
            Call::MapWhole(page) => ask!(node, map_whole, caller, page),
            Call::Map(page, Range { first, count }) => ask!(node, map_sub, caller, page, first, count),
            Call::SplitPmd(page) => {
                ask!(node, split_pmd, caller, page)?;
                self.live.iter_mut().filter(|it| it.number == page).for_each(|it| it.has_entries = true);
                Ok(())
            }
            Call::Pin(page) => ask!(node, pin, caller, page),
            Call::Write(page, Range { first, count }) => ask!(node, write, caller, page, first, count),
            Call::Zero(page, Range { first, count }) => ask!(node, zero, caller, page, first, count),
            Call::Close => ask!(node, close, caller),
        }
        .map(|()| "ok".into())
    }

    /// What an unmap or an unpin reported of its page.
    fn lost(&mut self, page: u64, Done { outcome, released }: Done) -> String {
        let word = match outcome {
            Outcome::Stays => "stays",
            Outcome::Queued => "queued",
            Outcome::Freed => {
                self.live.retain(|it| it.number != page);
                "freed"
            }
            other => panic!("{other:?}"),
        };
        format!("{word} {}", runs(&released))
    }

    /// Makes a call of the shrinker. The program refuses a scan beside an open batch of which no page is left, too.
    fn shrunk(&mut self, caller: u32, call: Call) -> Result<String, Fault> {
        let node = &mut self.node;
        Ok(match call {
            Call::Scan(_) if self.open.is_some() => return Err(Fault::HasBatch),
            Call::Scan(n) => {
                let reported = ask!(node, scan, caller, n)?;
                let used = self.shape.underused.map_or(String::new(), |_| format!(" used {}", reported.used));
                let (taken, split, pinned) = (reported.taken, reported.split, reported.pinned);
                format!("taken {taken} split {split} pinned {pinned} back {} dropped {}{used}", reported.back, reported.dropped)
            }
            Call::Take(n) => {
                let taken = ask!(node, take, caller, n)?;
                self.open = Some(taken);
                format!("taken {taken}")
            }
            Call::SplitNext => {
                let tried = ask!(node, split_next, caller)?;
                self.open = self.open.map(|left| left.saturating_sub(1));
                match tried {
                    Tried::Done => "done".into(),
                    Tried::Split(page) => format!("split {page}"),
                    Tried::Pinned(page) => format!("pinned {page}"),
                    Tried::Used(page) => format!("used {page}"),
                    other => panic!("{other:?}"),
                }
            }
            _ => {
                let reported = ask!(node, put_back, caller)?;
                self.open = None;
                format!("back {} dropped {}", reported.back, reported.dropped)
            }
        })
    }

    /// The lines of the report of totals.
    fn totals(&mut self, number: usize) -> String {
        let reported = self.node.node().stats();
        let mut lines = format!("node {number}\npages {}\nqueue {}\n", reported.allocations, reported.queued);
        lines += &format!("frames_held {}\nframes_given {}\n", reported.frames_held, reported.frames_given);
        lines += &format!("thp_split_page {}\nthp_split_page_failed {}\n", reported.split_page, reported.split_page_failed);
        lines += &format!("thp_deferred_split_page {}\nthp_split_pmd {}\n", reported.deferred_split_page, reported.split_pmd);
        if self.shape.underused.is_some() {
            lines += &format!("thp_underused_split_page {}\n", reported.underused_split_page);
        }
        lines
    }
}

/// The program's word for a refusal.
fn word_of(fault: Fault) -> &'static str {
    match fault {
        Fault::NoPage => "no-page",
        Fault::BadRange => "bad-range",
        Fault::IsSplit => "is-split",
        Fault::NotMapped => "not-mapped",
        Fault::Gone => "gone",
        Fault::NotPinned => "not-pinned",
        Fault::TooMany => "too-many",
        Fault::Closed => "closed",
        Fault::NoBlock => "no-block",
        Fault::HasBatch | Fault::BatchOpen => "has-batch",
        other => panic!("{other}"),
    }
}

/// A set as its maximal runs.
fn runs(set: &SubSet) -> String {
    let mut runs: Vec<(usize, usize)> = Vec::new();
    for i in set.iter() {
        match runs.last_mut() {
            Some((_, last)) if *last + 1 == i => *last = i,
            _ => runs.push((i, i)),
        }
    }
    let word = |&(first, last): &(usize, usize)| if first == last { format!("{first}") } else { format!("{first}-{last}") };
    let words: Vec<String> = runs.iter().map(word).collect();
    if words.is_empty() {
        "-".into()
    } else {
        words.join(",")
    }
}

/// A sequence that was made on nodes: the script, and its answers.
struct Sequence {
    places: Vec<Place>,
    worker: u32,
    script: String,
    answers: String,
    calls: usize,
}

impl Sequence {
    /// Makes up to 60 calls by caller 0, by a worker, or by both one after the other.
    fn new(chance: &mut Chance) -> Sequence {
        let is_shared = chance.below(2) == 0;
        let places = shapes(chance).into_iter().map(|shape| Place::new(shape, is_shared)).collect();
        let worker = chance.among(&[1, 1, 2, 63]);
        let mut made = Sequence { places, worker, script: String::new(), answers: String::new(), calls: 0 };
        for &caller in chance.among(&[&[0][..], &[worker][..], &[0, worker][..], &[0, worker][..]]) {
            made.section(chance, caller);
        }
        made
    }

    fn section(&mut self, chance: &mut Chance, caller: u32) {
        self.script += &if caller == 0 { "setup\n".into() } else { format!("worker {caller}\n") };
        for index in 1..=chance.below(60) {
            let number = chance.next() as usize % self.places.len();
            let place = &mut self.places[number];
            let call = place.likely_call(chance);
            self.script += &format!("{}\n", call.command(number));
            self.answers += &format!("{caller} {index} {}\n", place.answer(caller, call));
            self.calls += 1;
        }
        for place in self.places.iter_mut().filter(|place| place.open.is_some()) {
            ask!(&mut place.node, put_back, caller).unwrap();
            place.open = None;
        }
    }

    /// What the program writes on the script.
    fn report(&self, program: &str, report: &str) -> String {
        let listed = |word: fn(&Shape) -> String| self.places.iter().map(|it| word(&it.shape)).collect::<Vec<_>>().join(",");
        let switch = |shape: &Shape| shape.underused.map_or("off".into(), |threshold| threshold.to_string());
        let mut asked = Command::new(program);
        asked.args(["--nodes", &self.places.len().to_string(), "--blocks", &self.places[0].shape.blocks.to_string()]);
        asked.args(["--workers", &self.worker.to_string(), "--orders", &listed(|shape| shape.order.to_string())]);
        asked.args(["--underused", &listed(switch), "--report", report]);
        let mut child = asked.stdin(Stdio::piped()).stdout(Stdio::piped()).spawn().unwrap();
        // a script is shorter than what a pipe holds
        child.stdin.take().unwrap().write_all(self.script.as_bytes()).unwrap();
        let ended = child.wait_with_output().unwrap();
        assert!(ended.status.success(), "the program ended with {}\n{}", ended.status, self.script);
        String::from_utf8(ended.stdout).unwrap()
    }

    /// What this crate does otherwise than the program, if anything.
    fn wrong(&mut self, program: &str) -> Option<String> {
        let totals: String = self.places.iter_mut().enumerate().map(|(number, place)| place.totals(number)).collect();
        let mut wrong = differing(&self.answers, &self.report(program, "answers"));
        wrong = wrong.or_else(|| differing(&totals, &self.report(program, "totals")));
        for number in 0..self.places.len() {
            let journal = self.places[number].node.node().journal().unwrap();
            if check(&journal) != Ok(Verdict::Legal) {
                return Some(format!("the journal of node {number} isn't legal"));
            }
            wrong = wrong.or_else(|| differing_in_parts(&mut Chance(self.calls as u64), &journal));
            if self.places.len() == 1 {
                let journal = String::from_utf8(journal).unwrap();
                wrong = wrong.or_else(|| differing(&journal, &self.report(program, "journal")));
            }
        }
        wrong
    }
}

/// A journal with a line left out, twice there, or of another place: of it, and of its front, the two checks must report the same.
fn differing_in_parts(chance: &mut Chance, journal: &[u8]) -> Option<String> {
    let lines: Vec<&[u8]> = journal.split_inclusive(|&byte| byte == b'\n').collect();
    let (at, other) = (chance.next() as usize % lines.len(), chance.next() as usize % lines.len());
    let mut spoilt = lines.clone();
    match chance.below(4) {
        0 => drop(spoilt.remove(at)),
        1 => spoilt.insert(other, lines[at]),
        2 => spoilt.swap(at, other),
        _ => {}
    }
    let text = spoilt.concat();
    let text = &text[..if chance.below(4) == 0 { chance.next() as usize % (text.len() + 1) } else { text.len() }];
    let mut by_parts = Check::new().unwrap();
    let mut left = text;
    while !left.is_empty() {
        let (part, more) = left.split_at(left.len().min(1 + chance.below(200) as usize));
        by_parts.read(part).unwrap();
        left = more;
    }
    let (one, other) = (by_parts.finish(), check(text));
    let reason = by_parts.reason();
    let is_reported = match one {
        Ok(Verdict::Illegal { line }) => reason.as_ref().is_ok_and(|text| text.starts_with(&format!("line {line}: "))),
        _ => reason == Err(Fault::NoReason),
    };
    (one != other || !is_reported)
        .then(|| format!("{one:?} in place of {other:?}, and {reason:?}, of {:?}", String::from_utf8_lossy(text)))
}

/// The first line that two texts have otherwise.
fn differing(one: &str, other: &str) -> Option<String> {
    let mut pairs = one.lines().chain(["(end)"]).zip(other.lines().chain(["(end)"]));
    let pair = pairs.find(|(one, other)| one != other);
    pair.map(|(one, other)| format!("{one:?} in place of the program's {other:?}"))
}

fn asked(variable: &str, usual: u64) -> u64 {
    env::var(variable).map_or(usual, |number| number.parse().unwrap())
}

#[test]
fn the_program_answers_the_same() {
    let Ok(program) = env::var("THP_PROGRAM") else {
        writeln!(io::stderr(), "random sequences: skipped: THP_PROGRAM names no program").unwrap();
        return;
    };
    let (cases, seed) = (asked("THP_CASES", 100), asked("THP_SEED", 1));
    let (mut calls, mut refused) = (0, 0);
    for case in 0..cases {
        let mut sequence = Sequence::new(&mut Chance((seed << 32) ^ case));
        if let Some(wrong) = sequence.wrong(&program) {
            panic!("sequence {case} of seed {seed}: {wrong}\n{}", sequence.script);
        }
        calls += sequence.calls;
        refused += sequence.answers.matches(" refused ").count();
    }
    writeln!(io::stderr(), "random sequences: {cases}, of {calls} calls, {refused} refused: 0 differ").unwrap();
}
