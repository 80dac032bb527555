//! How often each call gave each answer, and which answers document 01 allows.
use crate::calls::Call;
use std::collections::BTreeMap;

/// The answers of reading, which every call can give.
const READING: [(u32, u32); 3] = [(0x0400_0000, 1), (0x0300_0000, 4), (0x0300_0000, 5)];

/// The answers of each call beyond those of reading.
const ALLOWED: [(&str, &[(u32, u32)]); 8] = [
    ("validate", &[]),
    ("lookup", &[(0, 0), (0x80, 0), (0x81, 0)]),
    (
        "initialize",
        &[(0, 0), (0x83, 0), (3, 0), (0x91, 0), (1, 22), (0x0400_0000, 3)],
    ),
    (
        "rotate",
        &[(0, 0), (2, 0), (0x80, 0), (0x81, 0), (3, 0), (1, 22), (0x0400_0000, 3)],
    ),
    ("destroy", &[(0, 0), (0x80, 0), (0x81, 0), (1, 35), (0x0400_0000, 2)]),
    ("descendants", &[(0, 0), (1, 30), (0x80, 0), (0x0400_0000, 2)]),
    ("path", &[(0, 0), (1, 30), (0x80, 0), (1, 34)]),
    ("count", &[(0, 0), (3, 0)]),
];

/// The faults that the validator never gives; two of them come from reading.
const NEVER: [u32; 4] = [0x04, 0x05, 0x12, 0x14];

fn allowed(call: &str) -> Vec<(u32, u32)> {
    let mut all: Vec<_> = READING.to_vec();
    all.extend(ALLOWED.iter().find(|(name, _)| *name == call).expect("a call").1);
    if call == "validate" {
        all.push((0, 0));
        all.extend((0..=0x1a).filter(|n| !NEVER.contains(n)).map(|n| (0x0300_0000, n)));
    }
    all
}

#[derive(Default)]
pub struct Tally {
    pub tables: u64,
    pub calls: u64,
    pub differences: u64,
    pub looped: u64,
    pub looped_run: u64,
    seen: BTreeMap<(&'static str, u32, u32), u64>,
}

impl Tally {
    pub fn answered(&mut self, call: &Call, word: u64) {
        self.calls += 1;
        *self
            .seen
            .entry((call.name(), (word >> 32) as u32, word as u32))
            .or_default() += 1;
    }

    /// Prints every answer with its count. Whether each allowed answer occurred, and no other.
    pub fn complete(&self) -> bool {
        let mut good = true;
        for (call, _) in ALLOWED {
            let allowed = allowed(call);
            for &(outer, inner) in &allowed {
                let n = self.seen.get(&(call, outer, inner)).copied().unwrap_or(0);
                println!("{call} {outer:#x} {inner}: {n}");
                if n == 0 {
                    println!("  never occurred");
                    good = false;
                }
            }
            for ((_, outer, inner), n) in self.seen.iter().filter(|((c, ..), _)| *c == call) {
                if !allowed.contains(&(*outer, *inner)) {
                    println!("{call} {outer:#x} {inner}: {n}\n  is no answer of this call");
                    good = false;
                }
            }
        }
        good
    }
}
