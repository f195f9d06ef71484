//! Journals from text, and whether they are legal.
use crate::event::{Event, Outcome, Shape, What};
use crate::node::{Node, Tried};
use crate::text::{Kind, TextFault, Words, last_words, number, read_lines, set_of, small_number, words_of};

enum Line {
    Head(u32),
    Node(u32, Shape),
    Happened(Event),
    End,
}

/// The line of the first event that doesn't fit those before it, if there is one, or the text's first fault. Each event is
/// replayed as its line is read, and none is kept.
pub fn first_illegal(text: &[u8]) -> Result<Option<usize>, TextFault> {
    let (mut version, mut ended, mut nodes) = (None, false, 0);
    let (mut node, mut illegal) = (None, None);
    let lines = read_lines(text, |number, line| {
        let line = line_of(line, version.unwrap_or(1))?;
        let is_begun = version.is_some() && !ended;
        match (line, &mut node) {
            (Line::Head(first), _) if version.is_none() => version = Some(first),
            (Line::Node(at, shape), _) if is_begun && at == nodes => {
                node = Some(Node::new(shape));
                nodes += 1;
            }
            (Line::Happened(event), Some(node)) if is_begun => {
                node.journal.clear();
                if illegal.is_none() && !is_replayed(node, &event) {
                    illegal = Some(number);
                }
            }
            (Line::End, Some(_)) if is_begun => ended = true,
            _ => return Err(Kind::BadOrder),
        }
        Ok(())
    })?;
    if ended { Ok(illegal) } else { Err(TextFault { line: lines + 1, kind: Kind::Cut }) }
}

// does what an event reports, and returns whether that is what happens
fn is_replayed(node: &mut Node, event: &Event) -> bool {
    let c = event.caller;
    match event.what {
        What::Alloc { page, .. } => node.alloc(c) == Ok(page),
        What::MapWhole { page } => node.map_whole(c, page).is_ok(),
        What::MapSub { page, first, count } => node.map_sub(c, page, first, count).is_ok(),
        What::SplitPmd { page } => node.split_pmd(c, page).is_ok(),
        What::Pin { page } => node.pin(c, page).is_ok(),
        What::Write { page, first, count } => node.write(c, page, first, count).is_ok(),
        What::Zero { page, first, count } => node.zero(c, page, first, count).is_ok(),
        What::UnmapWhole { page, outcome, released } => node.unmap_whole(c, page) == Ok((outcome, released)),
        What::UnmapSub { page, first, count, outcome, released } => {
            node.unmap_sub(c, page, first, count) == Ok((outcome, released))
        }
        What::Unpin { page, outcome, released } => node.unpin(c, page) == Ok((outcome, released)),
        What::Taken { page } => node.take_first(c) == Some(page),
        What::Split { page, released } => node.try_page(c, page) == Some(Tried::Split(released)),
        What::Pinned { page } => node.try_page(c, page) == Some(Tried::Pinned),
        What::Used { page } => node.try_page(c, page) == Some(Tried::Used),
        What::Back { page } => node.return_first(c) == Some((page, true)),
        What::Dropped { page } => node.return_first(c) == Some((page, false)),
        What::Close => node.close(c).is_ok(),
    }
}

fn line_of(line: &[u8], version: u32) -> Result<Line, Kind> {
    let mut words = words_of(line);
    match words.next().unwrap_or_default() {
        b"thp-journal" => match last_words(&mut words)? {
            [b"1"] => Ok(Line::Head(1)),
            [b"2"] => Ok(Line::Head(2)),
            [b"3"] => Ok(Line::Head(3)),
            [_] => Err(Kind::BadNumber),
        },
        b"node" => node_line(words, version),
        b"end" => last_words(&mut words).map(|[]| Line::End),
        caller => event_of(caller, words, version).map(Line::Happened),
    }
}

fn node_line(mut words: Words, version: u32) -> Result<Line, Kind> {
    let at = words.next().ok_or(Kind::BadWord)?;
    let blocks = behind(&mut words, b"blocks", version == 1)?;
    let order = if version > 1 { behind(&mut words, b"order", version == 2)? } else { b"9" };
    let switch = if version > 2 { behind(&mut words, b"underused", true)? } else { b"off" };
    let [] = last_words(&mut words)?;
    let order = between(2, 9, order)?;
    let underused = match switch {
        b"off" => None,
        threshold => Some(small_number(threshold, (1 << order) - 1)?),
    };
    let at = small_number(at, 7)?;
    Ok(Line::Node(at, Shape { blocks: between(1, 4096, blocks)?, order, underused }))
}

// the word behind a key
fn behind<'a>(words: &mut Words<'a>, key: &[u8], is_last: bool) -> Result<&'a [u8], Kind> {
    if words.next() != Some(key) {
        return Err(Kind::BadWord);
    }
    words.next().ok_or(if is_last { Kind::BadCount } else { Kind::BadWord })
}

fn between(least: u32, most: u32, word: &[u8]) -> Result<u32, Kind> {
    match small_number(word, most)? {
        value if value < least => Err(Kind::BadNumber),
        value => Ok(value),
    }
}

fn event_of(caller: &[u8], mut words: Words, version: u32) -> Result<Event, Kind> {
    let what = match words.next().ok_or(Kind::BadWord)? {
        b"alloc" => of_page(words, |page| What::Alloc { page, block: 0 }),
        b"mapwhole" => of_page(words, |page| What::MapWhole { page }),
        b"unmapwhole" => {
            of_loss(words, |page, outcome, released| What::UnmapWhole { page, outcome, released })
        }
        b"mapsub" => of_range(words, |page, first, count| What::MapSub { page, first, count }),
        b"unmapsub" => unmap_of(words),
        b"splitpmd" => of_page(words, |page| What::SplitPmd { page }),
        b"pin" => of_page(words, |page| What::Pin { page }),
        b"unpin" => of_loss(words, |page, outcome, released| What::Unpin { page, outcome, released }),
        b"taken" => of_page(words, |page| What::Taken { page }),
        b"split" => split_of(words),
        b"pinned" => of_page(words, |page| What::Pinned { page }),
        b"back" => of_page(words, |page| What::Back { page }),
        b"dropped" => of_page(words, |page| What::Dropped { page }),
        b"close" => last_words(&mut words).map(|[]| What::Close),
        b"write" if version > 2 => of_range(words, |page, first, count| What::Write { page, first, count }),
        b"zero" if version > 2 => of_range(words, |page, first, count| What::Zero { page, first, count }),
        b"used" if version > 2 => of_page(words, |page| What::Used { page }),
        _ => Err(Kind::BadWord),
    };
    // a caller that is no number is reported before a set that is none
    let caller = match what {
        Ok(_) | Err(Kind::BadSet) => small_number(caller, 63)?,
        Err(kind) => return Err(kind),
    };
    Ok(Event { caller, what: what? })
}

fn of_page(mut words: Words, what: impl Fn(u64) -> What) -> Result<What, Kind> {
    let [page] = last_words(&mut words)?;
    Ok(what(number(page, u64::MAX)?))
}

fn of_range(mut words: Words, what: impl Fn(u64, u32, u32) -> What) -> Result<What, Kind> {
    let [page, first, count] = last_words(&mut words)?;
    Ok(what(number(page, u64::MAX)?, small_number(first, 65_535)?, small_number(count, 65_535)?))
}

fn of_loss(
    mut words: Words,
    what: impl Fn(u64, Outcome, crate::sub_set::SubSet) -> What,
) -> Result<What, Kind> {
    let page = words.next().ok_or(Kind::BadCount)?;
    let (outcome, [set]) = (outcome_of(&mut words)?, last_words(&mut words)?);
    Ok(what(number(page, u64::MAX)?, outcome, set_of(set)?))
}

fn unmap_of(mut words: Words) -> Result<What, Kind> {
    let mut next = || words.next().ok_or(Kind::BadCount);
    let (page, first, count) = (next()?, next()?, next()?);
    let (outcome, [set]) = (outcome_of(&mut words)?, last_words(&mut words)?);
    Ok(What::UnmapSub {
        page: number(page, u64::MAX)?,
        first: small_number(first, 65_535)?,
        count: small_number(count, 65_535)?,
        outcome,
        released: set_of(set)?,
    })
}

fn split_of(mut words: Words) -> Result<What, Kind> {
    let [page, set] = last_words(&mut words)?;
    Ok(What::Split { page: number(page, u64::MAX)?, released: set_of(set)? })
}

fn outcome_of(words: &mut Words) -> Result<Outcome, Kind> {
    match words.next().ok_or(Kind::BadCount)? {
        b"stays" => Ok(Outcome::Stays),
        b"queued" => Ok(Outcome::Queued),
        b"freed" => Ok(Outcome::Freed),
        _ => Err(Kind::BadWord),
    }
}
