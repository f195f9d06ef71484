//! Scripts from text.
use crate::text::{Kind, TextFault, Words, last_words, number, read_lines, small_number, words_of};

#[derive(Clone, Copy)]
pub enum Op {
    Alloc,
    MapWhole { page: u64 },
    UnmapWhole { page: u64 },
    Map { first: u16, count: u16, page: u64 },
    Unmap { first: u16, count: u16, page: u64 },
    Write { first: u16, count: u16, page: u64 },
    Zero { first: u16, count: u16, page: u64 },
    SplitPmd { page: u64 },
    Pin { page: u64 },
    Unpin { page: u64 },
    Close,
    Count,
    Scan { count: u16 },
    Take { count: u16 },
    SplitNext,
    PutBack,
}

#[derive(Clone, Copy)]
pub struct Command {
    pub node: u32,
    pub op: Op,
}

enum Statement {
    Nothing,
    Section(usize),
    Call(Command),
}

/// The commands of `setup` and then of each worker.
pub fn read_script(text: &[u8], nodes: u32, workers: u32) -> Result<Vec<Vec<Command>>, TextFault> {
    let mut sections: Vec<Vec<Command>> = (0..=workers).map(|_| Vec::new()).collect();
    let mut section = None;
    read_lines(text, |_, line| {
        match statement_of(line, nodes, workers)? {
            Statement::Nothing => {}
            Statement::Section(next) if section.is_none_or(|last| last < next) => section = Some(next),
            Statement::Section(_) => return Err(Kind::BadOrder),
            Statement::Call(command) => sections[section.ok_or(Kind::BadOrder)?].push(command),
        }
        Ok(())
    })?;
    Ok(sections)
}

fn statement_of(line: &[u8], nodes: u32, workers: u32) -> Result<Statement, Kind> {
    if line.is_empty() || line[0] == b'#' {
        let is_printable = line.iter().all(|byte| (b' '..=b'~').contains(byte));
        return if is_printable { Ok(Statement::Nothing) } else { Err(Kind::BadByte) };
    }
    let mut words = words_of(line);
    match words.next().unwrap_or_default() {
        b"setup" => last_words(&mut words).map(|[]| Statement::Section(0)),
        b"worker" => {
            let [word] = last_words(&mut words)?;
            match small_number(word, workers)? {
                0 => Err(Kind::BadNumber),
                worker => Ok(Statement::Section(worker as usize)),
            }
        }
        name => command_of(name, words, nodes).map(Statement::Call),
    }
}

fn command_of(name: &[u8], words: Words, nodes: u32) -> Result<Command, Kind> {
    match name {
        b"alloc" => on_node(words, nodes, Op::Alloc),
        b"mapwhole" => on_page(words, nodes, |page| Op::MapWhole { page }),
        b"unmapwhole" => on_page(words, nodes, |page| Op::UnmapWhole { page }),
        b"map" => on_range(words, nodes, |page, first, count| Op::Map { first, count, page }),
        b"unmap" => on_range(words, nodes, |page, first, count| Op::Unmap { first, count, page }),
        b"write" => on_range(words, nodes, |page, first, count| Op::Write { first, count, page }),
        b"zero" => on_range(words, nodes, |page, first, count| Op::Zero { first, count, page }),
        b"splitpmd" => on_page(words, nodes, |page| Op::SplitPmd { page }),
        b"pin" => on_page(words, nodes, |page| Op::Pin { page }),
        b"unpin" => on_page(words, nodes, |page| Op::Unpin { page }),
        b"close" => on_node(words, nodes, Op::Close),
        b"count" => on_node(words, nodes, Op::Count),
        b"scan" => on_batch(words, nodes, |count| Op::Scan { count }),
        b"take" => on_batch(words, nodes, |count| Op::Take { count }),
        b"splitnext" => on_node(words, nodes, Op::SplitNext),
        b"putback" => on_node(words, nodes, Op::PutBack),
        _ => Err(Kind::BadWord),
    }
}

fn on_node(mut words: Words, nodes: u32, op: Op) -> Result<Command, Kind> {
    let [node] = last_words(&mut words)?;
    Ok(Command { node: small_number(node, nodes - 1)?, op })
}

fn on_page(mut words: Words, nodes: u32, op: impl Fn(u64) -> Op) -> Result<Command, Kind> {
    let [node, page] = last_words(&mut words)?;
    Ok(Command { node: small_number(node, nodes - 1)?, op: op(number(page, u64::MAX)?) })
}

fn on_range(mut words: Words, nodes: u32, op: impl Fn(u64, u16, u16) -> Op) -> Result<Command, Kind> {
    let [node, page, first, count] = last_words(&mut words)?;
    let node = small_number(node, nodes - 1)?;
    let page = number(page, u64::MAX)?;
    let first = small_number(first, 65_535)? as u16;
    let count = small_number(count, 65_535)? as u16;
    Ok(Command { node, op: op(page, first, count) })
}

fn on_batch(mut words: Words, nodes: u32, op: impl Fn(u16) -> Op) -> Result<Command, Kind> {
    let [node, count] = last_words(&mut words)?;
    Ok(Command { node: small_number(node, nodes - 1)?, op: op(small_number(count, 128)? as u16) })
}
