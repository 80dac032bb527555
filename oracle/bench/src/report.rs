//! The report, in Markdown.
use crate::{
    cases::Case,
    lines::LINES,
    stack::Stack,
    tables::{Table, CHAIN, DEEPEST},
    time::{Pair, COPIES, ROUND},
};

/// A case with what was measured of it.
pub struct Measured {
    pub case: Case,
    pub time: Pair,
    pub stack: Stack,
}

/// The kind of processor. Under an emulator the system does not tell it.
fn processor() -> String {
    let text = std::fs::read_to_string("/proc/cpuinfo").unwrap_or_default();
    let model = text
        .lines()
        .find_map(|l| l.strip_prefix("model name")?.split_once(": "));
    let unknown = (
        "",
        "unknown (if the program runs under an emulator, the times say nothing)",
    );
    model.unwrap_or(unknown).1.trim().to_string()
}

/// How the figures come about.
pub fn head(rounds: usize, empty: &Pair) {
    let cores = std::thread::available_parallelism().map_or(1, |n| n.get());
    println!("Processor: {}. Cores: {cores}.\n", processor());
    println!("Nanoseconds for one call: the lowest and the median of {rounds} rounds of each side, in turn.");
    println!(
        "A round takes {} µs or more on the faster side. A ratio is ours to the Rust's.",
        ROUND.as_micros()
    );
    println!("A figure is the mean over the arguments; `answers` tells how many of them gave which answer.");
    println!("Where a call changes the table, each call has a copy of its own, made while the clock stands:");
    println!("{COPIES} or more at a time. The loop around a call is in the figures, and takes");
    println!(
        "{:.1} ns with an empty call.\n",
        empty.ours.median.min(empty.theirs.median)
    );
}

pub fn tables(tables: &[Table]) {
    for table in tables {
        println!("- `{}`: {}", table.name, table.about);
    }
    println!();
}

pub fn times(all: &[Measured]) {
    let columns = ["ours", "Rust", "ratio"].map(|who| format!("{who}, lowest | {who}, median"));
    println!("| call | table | answers | {} |", columns.join(" | "));
    println!("|---|---|---|--:|--:|--:|--:|--:|--:|");
    for Measured { case, time, .. } in all {
        let (a, b) = (&time.ours, &time.theirs);
        println!(
            "| {} | {} | {} | {:.1} | {:.1} | {:.1} | {:.1} | {:.2} | {:.2} |",
            case.line,
            case.table,
            case.answers,
            a.lowest,
            a.median,
            b.lowest,
            b.median,
            a.lowest / b.lowest,
            a.median / b.median
        );
    }
    println!();
}

/// What was measured of a line on a table.
pub fn on<'a>(all: &'a [Measured], line: &str, table: &str) -> &'a Measured {
    let there = |m: &&Measured| m.case.line == line && m.case.table == table;
    all.iter().find(there).expect("every line has this table")
}

/// The most stack of a line on any table.
fn most(all: &[Measured], line: &str) -> Stack {
    let stacks = || all.iter().filter(|m| m.case.line == line).map(|m| m.stack);
    Stack {
        ours: stacks().map(|s| s.ours).max().unwrap_or(0),
        theirs: stacks().map(|s| s.theirs).max().unwrap_or(0),
    }
}

pub fn stacks(all: &[Measured]) {
    println!("Peak stack in bytes, the most over the arguments, beyond an empty call.\n");
    println!("| call | {CHAIN}, ours | Rust | {DEEPEST}, ours | Rust | most on any table, ours | Rust |");
    println!("|---|--:|--:|--:|--:|--:|--:|");
    for line in LINES.map(|line| line.name) {
        let (chain, deepest) = (on(all, line, CHAIN).stack, on(all, line, DEEPEST).stack);
        let most = most(all, line);
        println!(
            "| {line} | {} | {} | {} | {} | {} | {} |",
            chain.ours, chain.theirs, deepest.ours, deepest.theirs, most.ours, most.theirs
        );
    }
}
