//! What thpsplit does, in plain Rust: the measure for its times.
mod check;
mod event;
mod list;
mod node;
mod page;
mod report;
mod run;
mod script;
mod sub_set;
mod text;

use event::Shape;
use node::Node;
use std::io::{self, Read, Write};
use std::process::ExitCode;
use text::{MAX_INPUT, TextFault};

#[derive(Clone, Copy, PartialEq, Eq)]
enum Report {
    Totals,
    Journal,
    Answers,
}

struct Options {
    nodes: u32,
    blocks: u32,
    workers: u32,
    report: Report,
    orders: Vec<u32>,
    underused: Vec<Option<u32>>,
    tries: Option<u32>,
    check: bool,
}

enum Fault {
    Usage,
    Text(TextFault),
    Device(&'static str),
}

impl From<TextFault> for Fault {
    fn from(fault: TextFault) -> Fault {
        Fault::Text(fault)
    }
}

fn main() -> ExitCode {
    match serve() {
        Ok(true) => ExitCode::SUCCESS,
        Ok(false) => ExitCode::from(1),
        Err(Fault::Usage) => {
            eprintln!("plain: bad usage");
            ExitCode::from(2)
        }
        Err(Fault::Text(TextFault { line, kind })) => {
            eprintln!("plain: line {line}: {}", kind.word());
            ExitCode::from(2)
        }
        Err(Fault::Device(what)) => {
            eprintln!("plain: {what} failed");
            ExitCode::from(3)
        }
    }
}

// does what the command line asks for; answers false where a journal isn't legal
fn serve() -> Result<bool, Fault> {
    let options = options().ok_or(Fault::Usage)?;
    if options.check {
        return check();
    }
    let sections = {
        let input = read_input()?;
        script::read_script(&input, options.nodes, options.workers)?
    };
    let shape = |at: u32| Shape {
        blocks: options.blocks,
        order: options.orders[at as usize],
        underused: options.underused[at as usize],
    };
    let nodes = (0..options.nodes).map(|at| Node::new(shape(at))).collect();
    let (nodes, answers) = run::run(nodes, &sections, options.report == Report::Answers, options.tries);
    let text = match options.report {
        Report::Totals => report::totals(&nodes),
        Report::Journal => report::journals(&nodes),
        Report::Answers => report::answers(&nodes, &answers),
    };
    write_output(&text)?;
    Ok(true)
}

fn check() -> Result<bool, Fault> {
    let illegal = check::first_illegal(&read_input()?)?;
    let verdict = illegal.map_or("legal\n".into(), |line| format!("illegal line {line}\n"));
    write_output(verdict.as_bytes())?;
    Ok(illegal.is_none())
}

fn read_input() -> Result<Vec<u8>, Fault> {
    let mut input = Vec::new();
    let most = MAX_INPUT as u64 + 1;
    io::stdin().lock().take(most).read_to_end(&mut input).map_err(|_| Fault::Device("read"))?;
    Ok(input)
}

fn write_output(text: &[u8]) -> Result<(), Fault> {
    let mut output = io::stdout().lock();
    output.write_all(text).and_then(|()| output.flush()).map_err(|_| Fault::Device("write"))
}

fn options() -> Option<Options> {
    let (mut nodes, mut blocks, mut workers, mut report) = (1, 16, 1, Report::Totals);
    let (mut orders, mut underused, mut tries, mut check) = (None, None, None, false);
    let mut words = std::env::args().skip(1);
    while let Some(word) = words.next() {
        match word.as_str() {
            "--nodes" => nodes = words.next()?.parse().ok()?,
            "--blocks" => blocks = words.next()?.parse().ok()?,
            "--workers" => workers = words.next()?.parse().ok()?,
            "--orders" => orders = Some(list(&words.next()?, |item| item.parse().ok())?),
            "--underused" => {
                let switch = |item: &str| (item == "off").then_some(None).or(item.parse().ok().map(Some));
                underused = Some(list(&words.next()?, switch)?);
            }
            "--report" => {
                report = match words.next()?.as_str() {
                    "totals" => Report::Totals,
                    "journal" => Report::Journal,
                    "answers" => Report::Answers,
                    _ => return None,
                }
            }
            "--tries" => tries = Some(words.next()?.parse().ok()?),
            "--check" => check = true,
            _ => return None,
        }
    }
    let orders = orders.unwrap_or(vec![9; nodes as usize]);
    let underused = underused.unwrap_or(vec![None; nodes as usize]);
    let options = Options { nodes, blocks, workers, report, orders, underused, tries, check };
    are_within_limits(&options).then_some(options)
}

fn list<T>(text: &str, item: impl Fn(&str) -> Option<T>) -> Option<Vec<T>> {
    text.split(',').map(item).collect()
}

fn are_within_limits(options: &Options) -> bool {
    let Options { nodes, blocks, workers, orders, underused, .. } = options;
    let is_each_given = orders.len() == *nodes as usize && underused.len() == *nodes as usize;
    let is_low = |(order, threshold): (&u32, &Option<u32>)| {
        (2..=9).contains(order) && threshold.is_none_or(|threshold| threshold < 1 << order)
    };
    let are_low = orders.iter().zip(underused).all(is_low);
    is_each_given
        && are_low
        && (1..=8).contains(nodes)
        && (1..=4096).contains(blocks)
        && (1..=63).contains(workers)
        && options.tries != Some(0)
}
