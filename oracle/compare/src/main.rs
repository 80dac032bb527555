//! Holds every exported call against the published Rust, on the same tables and arguments: the word, the lent places,
//! every byte of the image. `compare [TABLES] [SEED]`: how many random tables; the small ones are thinned to match
//! unless there are ten million or more.
use compare::{
    calls::{ours, reading, refused, theirs, Call, WALK_LOOPS},
    child,
    image::{self, Image, SIZE, SLOTS},
    pick::any,
    rng::Rng,
    tables,
    tally::Tally,
};

/// How many calls that loop are run in a child process.
const LOOPS_RUN: u64 = 60;
/// How many differences are printed.
const PRINTED: u64 = 20;

/// One call on both sides. The table of ours, which a sequence goes on with.
fn hold(tally: &mut Tally, image: &Image, call: Call) -> Image {
    let mut mine = *image;
    let a = ours(&call, &mut mine);
    tally.answered(&call, a.word);
    let mut yours = *image;
    let b = if reading(image) != dpe::oracle::OK {
        refused(reading(image))
    } else if a.word == WALK_LOOPS {
        tally.looped += 1;
        if tally.looped_run < LOOPS_RUN && tally.looped % 7 == 1 {
            tally.looped_run += 1;
            if child::returns(&call, image) {
                differs(tally, &call, "the Rust returns where WalkLoops is answered");
            }
        }
        a.clone()
    } else {
        theirs(&call, &mut yours)
    };
    if a != b {
        differs(tally, &call, &format!("{a:x?} here, {b:x?} there"));
    }
    if mine != yours {
        let at = (0..SIZE).find(|&k| mine[k] != yours[k]).expect("a byte");
        differs(
            tally,
            &call,
            &format!("byte {at} of the image: {:#x} here, {:#x} there", mine[at], yours[at]),
        );
    }
    mine
}

fn differs(tally: &mut Tally, call: &Call, what: &str) {
    tally.differences += 1;
    if tally.differences <= PRINTED {
        println!("DIFFERENCE at {call:x?}: {what}");
    }
}

/// Every call that asks about links, on a small table.
fn small(tally: &mut Tally, image: &Image) {
    tally.tables += 1;
    hold(tally, image, Call::Validate);
    for slot in 0..3 {
        hold(tally, image, Call::Descendants { slot });
        hold(tally, image, Call::Path { slot });
        if image::state(image, slot) == 1 {
            hold(
                tally,
                image,
                Call::Destroy {
                    handle: image::handle(image, slot),
                    locality: 7,
                },
            );
        }
    }
}

/// A verdict, and some random calls, each on the table as it was.
fn some_calls(tally: &mut Tally, rng: &mut Rng, image: &Image) {
    tally.tables += 1;
    let mut buffer = Vec::new();
    hold(tally, image, Call::Validate);
    for _ in 0..6 {
        let call = any(rng, image, &mut buffer);
        hold(tally, image, call);
    }
}

/// A sequence of calls on one table.
fn sequence(tally: &mut Tally, rng: &mut Rng) {
    tally.tables += 1;
    let mut buffer = Vec::new();
    let mut image = if rng.once_in(2) {
        image::new(rng.next() as u32 | image::ROTATE)
    } else {
        tables::forest(rng)
    };
    for _ in 0..30 {
        let call = any(rng, &image, &mut buffer);
        image = hold(tally, &image, call);
    }
}

/// Images that do not read: another length, or a bad state or type byte.
fn unreadable(tally: &mut Tally, rng: &mut Rng) {
    tally.tables += 1;
    let mut buffer = Vec::new();
    let mut image = tables::forest(rng);
    let call = any(rng, &image, &mut buffer);
    for _ in 0..1 + rng.below(2) {
        image[image::at(rng.below(SLOTS)) + 137 + rng.below(2)] = rng.pick(&[2, 3, 0xff]);
    }
    hold(tally, &image, call);
    let mut other = image.to_vec();
    other.resize(rng.pick(&[0, 1, 144, SIZE - 1, SIZE + 1, 2 * SIZE]), 0);
    let before = other.clone();
    let a = ours(&call, &mut other);
    tally.answered(&call, a.word);
    if a != refused(reading(&before)) || other != before {
        differs(tally, &call, "an image of another length");
    }
}

fn main() {
    let mut args = std::env::args().skip(1).map(|a| a.parse::<u64>().expect("a number"));
    let random = args.next().unwrap_or(200_000);
    let mut rng = Rng(args.next().unwrap_or(1));
    let mut tally = Tally::default();
    let step = if random >= 10_000_000 {
        1
    } else {
        (tables::SMALL / random.max(1)).max(1) | 1
    };
    for n in (0..tables::SMALL).step_by(step as usize) {
        small(&mut tally, &tables::small(n));
    }
    for n in 0..random {
        match n % 10 {
            8 if n % 20 == 8 => sequence(&mut tally, &mut rng),
            9 => unreadable(&mut tally, &mut rng),
            kind => {
                let image = tables::any(&mut rng, kind);
                some_calls(&mut tally, &mut rng, &image);
            }
        }
    }
    let complete = tally.complete();
    println!(
        "{} tables, {} calls, {} differences; {} calls loop, and {} of those were run in a child that did not return",
        tally.tables, tally.calls, tally.differences, tally.looped, tally.looped_run
    );
    if !complete || tally.differences > 0 || tally.looped_run == 0 {
        std::process::exit(1);
    }
}
