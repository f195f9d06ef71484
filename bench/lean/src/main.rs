//! The totals of a script, and nothing else: commands are done as they are read, by one thread, on counts kept as bit planes. No
//! journal, no answers, no limits, no refusals reported, no faults but a crash.
//!
//!     lean [--nodes N] [--blocks N] < script
mod node;
mod numbers;
mod page;
mod set;

use std::fs::File;
use std::io::{Read, Result, Write, stdout};

use node::Node;
use set::Set;

/// How much is read at a time; no line is longer.
const PART: usize = 1 << 16;

fn main() -> Result<()> {
    let mut nodes: Vec<Node> = (0..option("--nodes", 1)).map(|_| Node::new(option("--blocks", 16))).collect();
    let mut input = File::open("/dev/stdin")?;
    let mut part = vec![0; PART];
    let mut begun = 0;
    loop {
        let read = input.read(&mut part[begun..])?;
        if read == 0 {
            break;
        }
        let end = begun + read;
        let lines = part[..end].iter().rposition(|&byte| byte == b'\n').map_or(0, |last| last + 1);
        do_lines(&part[..lines], &mut nodes);
        part.copy_within(lines..end, 0);
        begun = end - lines;
    }
    let reported: String = nodes.iter().enumerate().map(|(number, node)| node.totals(number)).collect();
    stdout().write_all(reported.as_bytes())
}

/// The number behind a word of the command line.
fn option(name: &str, otherwise: usize) -> usize {
    let mut words = std::env::args().skip_while(|word| word != name);
    words.nth(1).map_or(otherwise, |word| word.parse().expect("a number"))
}

/// Does the commands of whole lines.
fn do_lines(lines: &[u8], nodes: &mut [Node]) {
    let mut at = 0;
    while at < lines.len() {
        let begin = at;
        while lines[at] > b' ' {
            at += 1;
        }
        let name = &lines[begin..at];
        let mut operands = [0; 4];
        let mut count = 0;
        while lines[at] == b' ' {
            (operands[count], at) = number(lines, at + 1);
            count += 1;
        }
        at += 1;
        if count > 0 && name != b"worker" {
            do_command(&mut nodes[operands[0] as usize], name, operands);
        }
    }
}

/// The number that begins here, and where it ends.
fn number(lines: &[u8], mut at: usize) -> (u64, usize) {
    let mut value = 0;
    while lines[at].is_ascii_digit() {
        value = value * 10 + u64::from(lines[at] - b'0');
        at += 1;
    }
    (value, at)
}

/// Does one command.
fn do_command(node: &mut Node, name: &[u8], [_, page, first, count]: [u64; 4]) {
    let range = || Set::range(first, count);
    match name {
        b"alloc" => node.alloc(),
        b"mapwhole" => node.map_whole(page),
        b"unmapwhole" => node.unmap_whole(page),
        b"map" => node.map(page, range()),
        b"unmap" => node.unmap(page, range()),
        b"splitpmd" => node.split_pmd(page),
        b"pin" => node.pin(page),
        b"unpin" => node.unpin(page),
        b"scan" => node.scan(page as usize),
        b"count" => {}
        _ => panic!("{}", String::from_utf8_lossy(name)),
    }
}
