//! Writes the list of the Rust's answers that crates/replay replays: `record > crates/replay/stdin`.
//!
//! A case is a header of 104 bytes, the bytes in which the table differs from a new one, the bytes in which the table
//! afterwards differs from that, and the candidates; crates/replay/src/main.rs says where each number stands.
use compare::{
    calls::{ours, theirs, Call, WALK_LOOPS},
    image::{self, Image, Slot},
    pick::any,
    rng::Rng,
    tables,
};
use std::io::Write;

/// How many random cases there are, and how many bytes one may have.
const CASES: usize = 420;
const MOST: usize = 900;

/// The bytes in which two images differ: offset and new byte.
fn patches(from: &Image, to: &Image) -> Vec<u8> {
    let mut out = Vec::new();
    for k in 0..image::SIZE {
        if from[k] != to[k] {
            out.extend((k as u16).to_le_bytes());
            out.push(to[k]);
        }
    }
    out
}

/// One case: the call by the Rust on the table.
fn case(image: &Image, call: Call) -> Vec<u8> {
    let mut after = *image;
    let answer = theirs(&call, &mut after);
    let (before, changes) = (patches(&image::new(0), image), patches(image, &after));
    let mut head = [0u8; 104];
    let mut put = |at: usize, bytes: &[u8]| head[at..at + bytes.len()].copy_from_slice(bytes);
    let mut lent: &[u8] = &[];
    match call {
        Call::Validate => put(0, &[0]),
        Call::Lookup { handle, locality } => {
            put(0, &[1]);
            put(8, &locality.to_le_bytes());
            put(24, &handle);
        }
        Call::Initialize {
            flags,
            locality,
            candidates,
        } => {
            put(0, &[2]);
            put(8, &locality.to_le_bytes());
            put(12, &flags.to_le_bytes());
            lent = candidates;
        }
        Call::Rotate {
            handle,
            locality,
            flags,
            candidates,
        } => {
            put(0, &[3]);
            put(8, &locality.to_le_bytes());
            put(12, &flags.to_le_bytes());
            put(24, &handle);
            lent = candidates;
        }
        Call::Destroy { handle, locality } => {
            put(0, &[4]);
            put(8, &locality.to_le_bytes());
            put(24, &handle);
        }
        Call::Descendants { slot } => {
            put(0, &[5]);
            put(16, &(slot as u64).to_le_bytes());
        }
        Call::Path { slot } => {
            put(0, &[6]);
            put(16, &(slot as u64).to_le_bytes());
        }
        Call::Count { state } => put(0, &[7, state]),
    }
    put(2, &((before.len() / 3) as u16).to_le_bytes());
    put(4, &((changes.len() / 3) as u16).to_le_bytes());
    put(6, &(lent.len() as u16).to_le_bytes());
    put(40, &answer.word.to_le_bytes());
    put(48, &answer.number.to_le_bytes());
    put(56, &answer.handle);
    put(72, &answer.slots);
    [&head[..], &before, &changes, lent].concat()
}

/// The examples of document 01 that are run and not proved.
fn examples() -> Vec<Vec<u8>> {
    let mut chain = image::new(image::ALL_SUPPORT);
    for i in 0..32u8 {
        let children = if i == 31 { 0 } else { 1u64 << (i + 1) };
        let parent = if i == 0 { 0xff } else { i - 1 };
        let slot = Slot {
            handle: [i + 1; 16],
            locality: 7,
            children,
            parent,
            simulation: true,
            state: 1,
        };
        image::set(&mut chain, i as usize, slot);
    }
    let new = image::new(image::ALL_SUPPORT);
    let simulation = |candidates| Call::Initialize {
        flags: 1 << 31,
        locality: 7,
        candidates,
    };
    let mut used = new;
    theirs(&simulation(&[1; 16]), &mut used);
    let mut cleared = used;
    theirs(
        &Call::Destroy {
            handle: [1; 16],
            locality: 7,
        },
        &mut cleared,
    );
    vec![
        case(&chain, Call::Path { slot: 31 }),
        case(&chain, Call::Path { slot: 32 }),
        case(&chain, Call::Descendants { slot: 0 }),
        case(&chain, Call::Descendants { slot: 32 }),
        case(&new, simulation(&[0xff; 16])),
        case(
            &used,
            Call::Destroy {
                handle: [1; 16],
                locality: 7,
            },
        ),
        case(&cleared, simulation(&[0xff; 16])),
        case(&cleared, simulation(&[0xff; 8 * 16])),
    ]
}

fn main() -> std::io::Result<()> {
    let mut rng = Rng(20);
    let mut cases = examples();
    let mut buffer = Vec::new();
    let mut kind = 0;
    while cases.len() < CASES {
        kind += 1;
        let image = tables::any(&mut rng, kind % 8);
        let call = any(&mut rng, &image, &mut buffer);
        if ours(&call, &mut image.clone()).word == WALK_LOOPS {
            continue;
        }
        let case = case(&image, call);
        if case.len() <= MOST {
            cases.push(case);
        }
    }
    std::io::stdout().write_all(&cases.concat())
}
