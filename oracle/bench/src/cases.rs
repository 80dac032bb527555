//! Each line on each table, once both sides have answered its calls alike.
use crate::{
    calls::{unwritten, Ours, Side, Theirs},
    lines::{Line, LINES},
    tables::{Table, CHAIN_FREE, FOREST_FREE, ROOTS_FREE},
};
use compare::{
    calls::{Answer, Call, WALK_LOOPS},
    image::Image,
};
use duottarok::Refusal;

/// A line on a table: the calls, which both sides answer the same, and whether any changes the table.
pub struct Case {
    pub line: &'static str,
    pub table: &'static str,
    pub image: Image,
    pub calls: Vec<Call<'static>>,
    pub changes: bool,
    pub answers: String,
}

/// The answer of one side, and its table afterwards.
fn answer<S: Side>(call: &Call, image: &Image) -> (Answer, Vec<u8>) {
    let (mut table, mut a) = (S::table(image), unwritten());
    S::face(call)(call, &mut table, &mut a);
    (a, S::bytes(&table).to_vec())
}

/// The name of an answer.
fn name(word: u64) -> String {
    match Refusal::from_word(word) {
        Ok(()) => "success".into(),
        Err(Refusal::Internal(e)) => format!("{e:?}"),
        Err(Refusal::Validation(e)) => format!("{e:?}"),
        Err(e) => format!("{e:?}"),
    }
}

/// The names of the answers, each with how many calls gave it.
fn names(words: &[u64]) -> String {
    let mut distinct = words.to_vec();
    distinct.sort();
    distinct.dedup();
    let times = |w| words.iter().filter(|&&x| x == w).count();
    let named: Vec<String> = distinct
        .into_iter()
        .map(|w| format!("{} {}", times(w), name(w)))
        .collect();
    named.join(", ")
}

/// The case of a line on a table. Both sides must answer every call alike, with the same bytes afterwards.
fn case(line: &Line, table: &Table) -> Result<Case, String> {
    let image = table.image;
    let calls = (line.calls)(&image);
    let what = format!("{} on {}", line.name, table.name);
    let (mut words, mut changes) = (Vec::new(), false);
    for call in &calls {
        let ours = answer::<Ours>(call, &image);
        if ours.0.word == WALK_LOOPS {
            return Err(format!("{what}: the Rust never returns from {call:x?}"));
        }
        if ours != answer::<Theirs>(call, &image) {
            return Err(format!("{what}: the two sides differ at {call:x?}"));
        }
        words.push(ours.0.word);
        changes |= ours.1 != image;
    }
    Ok(Case {
        line: line.name,
        table: table.name,
        image,
        calls,
        changes,
        answers: names(&words),
    })
}

/// Every line on every table. The tables with a free slot are there for initialise alone.
pub fn all(tables: &[Table]) -> Result<Vec<Case>, String> {
    let mut cases = Vec::new();
    for line in &LINES {
        for table in tables {
            if line.initializes() || ![FOREST_FREE, CHAIN_FREE, ROOTS_FREE].contains(&table.name) {
                cases.push(case(line, table)?);
            }
        }
    }
    Ok(cases)
}
