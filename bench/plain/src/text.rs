//! Words and numbers of a text, and its faults.
use crate::sub_set::SubSet;

/// The most bytes that an input may have.
pub const MAX_INPUT: usize = 1 << 24;

/// The words of a line that are still to be read.
pub struct Words<'a>(Option<&'a [u8]>);

impl<'a> Iterator for Words<'a> {
    type Item = &'a [u8];

    fn next(&mut self) -> Option<&'a [u8]> {
        let rest = self.0?;
        let Some(at) = rest.iter().position(|&byte| byte == b' ') else {
            return self.0.take();
        };
        self.0 = Some(&rest[at + 1..]);
        Some(&rest[..at])
    }
}

/// The kinds of fault of a line, in the order in which they are reported.
#[derive(Clone, Copy, PartialEq, Eq, Debug)]
pub enum Kind {
    TooLong,
    BadByte,
    Cut,
    BadWord,
    BadCount,
    BadNumber,
    BadSet,
    BadOrder,
}

#[derive(Clone, Copy, Debug)]
pub struct TextFault {
    pub line: usize,
    pub kind: Kind,
}

impl Kind {
    pub fn word(self) -> &'static str {
        match self {
            Kind::TooLong => "too-long",
            Kind::BadByte => "bad-byte",
            Kind::Cut => "cut",
            Kind::BadWord => "bad-word",
            Kind::BadCount => "bad-count",
            Kind::BadNumber => "bad-number",
            Kind::BadSet => "bad-set",
            Kind::BadOrder => "bad-order",
        }
    }
}

/// Gives each line of a text to `read`, by its number from 1 on, up to the first fault.
pub fn read_lines(
    text: &[u8],
    mut read: impl FnMut(usize, &[u8]) -> Result<(), Kind>,
) -> Result<usize, TextFault> {
    if text.len() > MAX_INPUT {
        return Err(TextFault { line: 0, kind: Kind::TooLong });
    }
    let mut number = 0;
    for line in text.split_inclusive(|&byte| byte == b'\n') {
        number += 1;
        let reported = match line.split_last() {
            Some((b'\n', line)) => read(number, line).map_err(|kind| fault_of(line, kind)),
            _ => Err(fault_of(line, Kind::Cut)),
        };
        reported.map_err(|kind| TextFault { line: number, kind })?;
    }
    Ok(number)
}

// the first fault of a line that can't be read for the reason given
fn fault_of(line: &[u8], kind: Kind) -> Kind {
    let is_printable = line.iter().all(|byte| (b' '..=b'~').contains(byte));
    match kind {
        _ if !is_printable => Kind::BadByte,
        Kind::Cut => Kind::Cut,
        _ if !line.starts_with(b"#") && words_of(line).any(<[u8]>::is_empty) => Kind::BadWord,
        kind => kind,
    }
}

pub fn words_of(line: &[u8]) -> Words<'_> {
    Words(Some(line))
}

/// The next `N` words, which are to be the last.
pub fn last_words<'a, const N: usize>(words: &mut Words<'a>) -> Result<[&'a [u8]; N], Kind> {
    let mut all = [&[] as &[u8]; N];
    for word in &mut all {
        *word = words.next().ok_or(Kind::BadCount)?;
    }
    if words.next().is_some() { Err(Kind::BadCount) } else { Ok(all) }
}

/// The number, of at most `most`, that a word writes without a sign or a leading zero.
pub fn number(word: &[u8], most: u64) -> Result<u64, Kind> {
    if word.is_empty() || (word[0] == b'0' && word.len() > 1) {
        return Err(Kind::BadNumber);
    }
    let mut value: u64 = 0;
    for &byte in word {
        let digit = byte.wrapping_sub(b'0');
        if digit > 9 {
            return Err(Kind::BadNumber);
        }
        let more = value.checked_mul(10).and_then(|tens| tens.checked_add(u64::from(digit)));
        value = more.ok_or(Kind::BadNumber)?;
    }
    if value > most { Err(Kind::BadNumber) } else { Ok(value) }
}

pub fn small_number(word: &[u8], most: u32) -> Result<u32, Kind> {
    number(word, u64::from(most)).map(|value| value as u32)
}

/// The set that a word writes: its maximal runs, ascending, with commas between them, or `-`.
pub fn set_of(word: &[u8]) -> Result<SubSet, Kind> {
    let mut set = SubSet::default();
    if word == b"-" {
        return Ok(set);
    }
    let mut least = 0;
    for run in word.split(|&byte| byte == b',') {
        let (first, last) = run_of(run).map_err(|_| Kind::BadSet)?;
        if first < least {
            return Err(Kind::BadSet);
        }
        set = set.with(SubSet::range(first, last - first + 1));
        least = last + 2;
    }
    Ok(set)
}

fn run_of(text: &[u8]) -> Result<(usize, usize), Kind> {
    let Some(at) = text.iter().position(|&byte| byte == b'-') else {
        let only = number(text, 511)? as usize;
        return Ok((only, only));
    };
    let (first, last) = (number(&text[..at], 511)?, number(&text[at + 1..], 511)?);
    if last <= first { Err(Kind::BadSet) } else { Ok((first as usize, last as usize)) }
}

/// Writes a number in decimal, and the byte `after`.
pub fn put_number(text: &mut Vec<u8>, number: u64, after: u8) {
    let mut digits = [after; 21];
    let mut at = 20;
    let mut rest = number;
    loop {
        at -= 1;
        digits[at] = b'0' + (rest % 10) as u8;
        rest /= 10;
        if rest == 0 {
            break;
        }
    }
    text.extend_from_slice(&digits[at..]);
}

/// Writes a set, and a line feed.
pub fn put_set(text: &mut Vec<u8>, set: &SubSet) {
    let Some(mut run) = set.run_from(0) else {
        return text.extend_from_slice(b"-\n");
    };
    while let Some(next) = set.run_from(run.1 + 1) {
        put_run(text, run, b',');
        run = next;
    }
    put_run(text, run, b'\n');
}

fn put_run(text: &mut Vec<u8>, (first, last): (usize, usize), after: u8) {
    if first != last {
        put_number(text, first as u64, b'-');
    }
    put_number(text, last as u64, after);
}
