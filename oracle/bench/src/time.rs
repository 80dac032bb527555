//! Time of a call, both sides in turn.
use crate::{
    calls::{nothing, unwritten, Face, Ours, Side, Theirs},
    cases::Case,
};
use compare::calls::Answer;
use std::{
    hint::black_box,
    time::{Duration, Instant},
};

/// At least so many fresh copies of the table, one for each call, where a call changes it.
pub const COPIES: usize = 64;
/// A round of the faster side takes at least so long.
pub const ROUND: Duration = Duration::from_micros(200);

/// The lowest and the median of the rounds, in nanoseconds for one call.
pub struct Time {
    pub lowest: f64,
    pub median: f64,
}

impl Time {
    fn of(mut rounds: Vec<f64>) -> Time {
        rounds.sort_by(f64::total_cmp);
        Time {
            lowest: rounds[0],
            median: rounds[rounds.len() / 2],
        }
    }
}

/// The two sides of a case.
pub struct Pair {
    pub ours: Time,
    pub theirs: Time,
}

/// One side of a case, ready to be timed.
struct Course<'a, S: Side> {
    case: &'a Case,
    face: Face<S::Table>,
    tables: Vec<S::Table>,
    answer: Answer,
}

impl<'a, S: Side> Course<'a, S> {
    fn new(case: &'a Case, face: Face<S::Table>) -> Self {
        let copies = if case.changes {
            COPIES.next_multiple_of(case.calls.len())
        } else {
            1
        };
        Course {
            case,
            face: black_box(face),
            tables: (0..copies).map(|_| S::table(&case.image)).collect(),
            answer: unwritten(),
        }
    }

    /// Every call of the case on the one table, again and again.
    fn on_one(&mut self, turns: usize) -> Duration {
        let (face, table) = (self.face, &mut self.tables[0]);
        let start = Instant::now();
        for _ in 0..turns {
            for call in &self.case.calls {
                face(black_box(call), black_box(table), black_box(&mut self.answer));
            }
        }
        start.elapsed()
    }

    /// Every call of the case on fresh copies, each on its own; the copies are made while the clock stands.
    fn on_copies(&mut self, turns: usize) -> Duration {
        let mut spent = Duration::ZERO;
        for _ in 0..turns {
            self.tables
                .iter_mut()
                .for_each(|table| *table = S::table(&self.case.image));
            let start = Instant::now();
            for some in self.tables.chunks_exact_mut(self.case.calls.len()) {
                for (table, call) in some.iter_mut().zip(&self.case.calls) {
                    (self.face)(black_box(call), black_box(table), black_box(&mut self.answer));
                }
            }
            spent += start.elapsed();
        }
        spent
    }

    /// How long a round takes.
    fn round(&mut self, turns: usize) -> Duration {
        if self.case.changes {
            self.on_copies(turns)
        } else {
            self.on_one(turns)
        }
    }

    /// The nanoseconds of one call in a round.
    fn per_call(&mut self, turns: usize) -> f64 {
        let calls = if self.case.changes {
            self.tables.len()
        } else {
            self.case.calls.len()
        };
        self.round(turns).as_nanos() as f64 / (turns * calls) as f64
    }

    /// How many turns make a round long enough.
    fn turns(&mut self) -> usize {
        let mut turns = 1;
        while self.round(turns) < ROUND {
            turns *= 2;
        }
        turns
    }
}

/// Rounds of both courses in turn, the same number of turns in each.
fn in_turn(mut ours: Course<Ours>, mut theirs: Course<Theirs>, rounds: usize) -> Pair {
    let turns = ours.turns().max(theirs.turns());
    let (mut a, mut b) = (Vec::new(), Vec::new());
    for _ in 0..rounds {
        a.push(ours.per_call(turns));
        b.push(theirs.per_call(turns));
    }
    Pair {
        ours: Time::of(a),
        theirs: Time::of(b),
    }
}

pub fn time(case: &Case, rounds: usize) -> Pair {
    let call = &case.calls[0];
    in_turn(
        Course::new(case, Ours::face(call)),
        Course::new(case, Theirs::face(call)),
        rounds,
    )
}

/// The same loops around the call that does nothing.
pub fn empty(case: &Case, rounds: usize) -> Pair {
    in_turn(Course::new(case, nothing), Course::new(case, nothing), rounds)
}
