//! Reports of a run.
use crate::event::{Event, Outcome, What};
use crate::node::Node;
use crate::run::{Answer, Reply};
use crate::sub_set::SubSet;
use crate::text::{put_number, put_set};

pub fn totals(nodes: &[Node]) -> Vec<u8> {
    let mut text = Vec::new();
    for (number, node) in nodes.iter().enumerate() {
        let counters = &node.counters;
        put_named(&mut text, "node", number as u64, b'\n');
        put_named(&mut text, "pages", node.pages(), b'\n');
        put_named(&mut text, "queue", node.queue_len().into(), b'\n');
        put_named(&mut text, "frames_held", node.frames_held(), b'\n');
        put_named(&mut text, "frames_given", node.frames_given, b'\n');
        put_named(&mut text, "thp_split_page", counters.split_page, b'\n');
        put_named(&mut text, "thp_split_page_failed", counters.split_page_failed, b'\n');
        put_named(&mut text, "thp_deferred_split_page", counters.deferred_split_page, b'\n');
        put_named(&mut text, "thp_split_pmd", counters.split_pmd, b'\n');
        if node.shape.underused.is_some() {
            put_named(&mut text, "thp_underused_split_page", counters.underused_split_page, b'\n');
        }
    }
    text
}

pub fn answers(nodes: &[Node], sections: &[Vec<Answer>]) -> Vec<u8> {
    let mut text = Vec::new();
    for (section, answers) in sections.iter().enumerate() {
        for (index, answer) in answers.iter().enumerate() {
            put_number(&mut text, section as u64, b' ');
            put_number(&mut text, index as u64 + 1, b' ');
            match &answer.reply {
                Ok(reply) => {
                    let looks = nodes[answer.node as usize].shape.underused.is_some();
                    put_reply(&mut text, reply, looks);
                }
                Err(refusal) => put_words(&mut text, &["refused ", refusal.word(), "\n"]),
            }
        }
    }
    text
}

fn put_reply(text: &mut Vec<u8>, reply: &Reply, looks: bool) {
    match reply {
        Reply::Page(page) => put_named(text, "page", *page, b'\n'),
        Reply::Unit => put_words(text, &["ok\n"]),
        Reply::Lost(outcome, released) => put_outcome(text, *outcome, released),
        Reply::Count(queued) => put_named(text, "count", (*queued).into(), b'\n'),
        Reply::Taken(taken) => put_named(text, "taken", (*taken).into(), b'\n'),
        Reply::Split(page) => put_named(text, "split", *page, b'\n'),
        Reply::Pinned(page) => put_named(text, "pinned", *page, b'\n'),
        Reply::Used(page) => put_named(text, "used", *page, b'\n'),
        Reply::Done => put_words(text, &["done\n"]),
        Reply::NoBatch => put_words(text, &["no-batch\n"]),
        Reply::Back { back, dropped } => {
            put_named(text, "back", (*back).into(), b' ');
            put_named(text, "dropped", (*dropped).into(), b'\n');
        }
        Reply::Scan(counted) => {
            put_named(text, "taken", counted.taken.into(), b' ');
            put_named(text, "split", counted.split.into(), b' ');
            put_named(text, "pinned", counted.pinned.into(), b' ');
            put_named(text, "back", counted.back.into(), b' ');
            put_named(text, "dropped", counted.dropped.into(), if looks { b' ' } else { b'\n' });
            if looks {
                put_named(text, "used", counted.used.into(), b'\n');
            }
        }
    }
}

pub fn journals(nodes: &[Node]) -> Vec<u8> {
    let version = version_of(nodes);
    let mut text = Vec::new();
    put_named(&mut text, "thp-journal", version, b'\n');
    for (number, node) in nodes.iter().enumerate() {
        put_named(&mut text, "node", number as u64, b' ');
        put_named(&mut text, "blocks", node.shape.blocks.into(), if version > 1 { b' ' } else { b'\n' });
        if version > 1 {
            put_named(&mut text, "order", node.shape.order.into(), if version > 2 { b' ' } else { b'\n' });
        }
        match node.shape.underused {
            Some(threshold) => put_named(&mut text, "underused", threshold.into(), b'\n'),
            None if version > 2 => put_words(&mut text, &["underused off\n"]),
            None => {}
        }
        for event in &node.journal {
            put_event(&mut text, event);
        }
    }
    put_words(&mut text, &["end\n"]);
    text
}

// the least version that can report these nodes
fn version_of(nodes: &[Node]) -> u64 {
    let is_filling = |event: &Event| matches!(event.what, What::Write { .. } | What::Zero { .. });
    let needs_3 = |node: &Node| node.shape.underused.is_some() || node.journal.iter().any(is_filling);
    if nodes.iter().any(needs_3) {
        3
    } else if nodes.iter().any(|node| node.shape.order != 9) {
        2
    } else {
        1
    }
}

fn put_event(text: &mut Vec<u8>, event: &Event) {
    put_number(text, event.caller.into(), b' ');
    match &event.what {
        What::Alloc { page, .. } => put_named(text, "alloc", *page, b'\n'),
        What::MapWhole { page } => put_named(text, "mapwhole", *page, b'\n'),
        What::SplitPmd { page } => put_named(text, "splitpmd", *page, b'\n'),
        What::Pin { page } => put_named(text, "pin", *page, b'\n'),
        What::Taken { page } => put_named(text, "taken", *page, b'\n'),
        What::Pinned { page } => put_named(text, "pinned", *page, b'\n'),
        What::Used { page } => put_named(text, "used", *page, b'\n'),
        What::Back { page } => put_named(text, "back", *page, b'\n'),
        What::Dropped { page } => put_named(text, "dropped", *page, b'\n'),
        What::Close => put_words(text, &["close\n"]),
        What::MapSub { page, first, count } => put_range(text, "mapsub", *page, *first, *count, b'\n'),
        What::Write { page, first, count } => put_range(text, "write", *page, *first, *count, b'\n'),
        What::Zero { page, first, count } => put_range(text, "zero", *page, *first, *count, b'\n'),
        What::Split { page, released } => {
            put_named(text, "split", *page, b' ');
            put_set(text, released);
        }
        What::UnmapWhole { page, outcome, released } => {
            put_named(text, "unmapwhole", *page, b' ');
            put_outcome(text, *outcome, released);
        }
        What::Unpin { page, outcome, released } => {
            put_named(text, "unpin", *page, b' ');
            put_outcome(text, *outcome, released);
        }
        What::UnmapSub { page, first, count, outcome, released } => {
            put_range(text, "unmapsub", *page, *first, *count, b' ');
            put_outcome(text, *outcome, released);
        }
    }
}

fn put_range(text: &mut Vec<u8>, name: &str, page: u64, first: u32, count: u32, after: u8) {
    put_named(text, name, page, b' ');
    put_number(text, first.into(), b' ');
    put_number(text, count.into(), after);
}

fn put_outcome(text: &mut Vec<u8>, outcome: Outcome, released: &SubSet) {
    let word = match outcome {
        Outcome::Stays => "stays ",
        Outcome::Queued => "queued ",
        Outcome::Freed => "freed ",
    };
    put_words(text, &[word]);
    put_set(text, released);
}

fn put_named(text: &mut Vec<u8>, name: &str, number: u64, after: u8) {
    put_words(text, &[name, " "]);
    put_number(text, number, after);
}

fn put_words(text: &mut Vec<u8>, words: &[&str]) {
    words.iter().for_each(|word| text.extend_from_slice(word.as_bytes()));
}
