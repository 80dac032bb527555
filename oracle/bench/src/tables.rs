//! The tables that are timed.
use compare::{
    image::{self, Image, Slot, ALL_SUPPORT, SLOTS},
    rng::Rng,
};
use dpe::oracle;

pub struct Table {
    pub name: &'static str,
    pub about: &'static str,
    pub image: Image,
}

pub const NEW: &str = "new";
pub const FOREST: &str = "full forest";
pub const CHAIN: &str = "chain of 32";
pub const ROOTS: &str = "32 roots";
pub const FOREST_FREE: &str = "forest, one slot free";
pub const CHAIN_FREE: &str = "chain, one slot free";
pub const ROOTS_FREE: &str = "roots, one slot free";
pub const STRAY_PARENTS: &str = "damaged: stray parents";
pub const STRAY_MARKS: &str = "damaged: stray marks";
pub const SHARED: &str = "damaged: shared children";
pub const RING: &str = "damaged: ring of parents";
pub const DEEPEST: &str = "damaged: deepest";
pub const LAST_SHARED: &str = "damaged: last slot shared";

const ROOT: u8 = 0xff;
/// The last slot, which is a leaf in every table and is freed where one is to be free.
const LAST: usize = SLOTS - 1;

/// The parents in a forest of five trees, up to eight levels deep. Context k is in slot `spread(k)`.
#[rustfmt::skip]
const PARENTS: [u8; SLOTS] = [
    ROOT, 0, 0, 1, 1, 3, 5, 2,
    ROOT, 8, 9, 10, 11, 12, 13, 14,
    ROOT, 16, 16, 16, 16, 17, 17, 18,
    ROOT, ROOT, 25, 26, 26, 27, 29, 0,
];
/// How many contexts of the forest are in its first tree, the normal one, beside the last context.
const FIRST_TREE: usize = 8;
/// The contexts of the forest that are retired; each has a child.
const RETIRED: [usize; 4] = [3, 10, 17, 26];

/// The slot of a context of the forest: parents are on both sides of their children, and the last stays the last.
fn spread(k: usize) -> usize {
    (11 * k + 10) % SLOTS
}

/// Four contexts to a locality, and two that are alone in theirs.
fn locality(k: usize) -> u32 {
    match k {
        24 | 31 => k as u32,
        _ => k as u32 / 4,
    }
}

/// A table of 32 live contexts from the parents of the slots, with handles and measurements that look random.
fn linked(parents: [u8; SLOTS], context: impl Fn(usize) -> Slot) -> Image {
    let mut rng = Rng(1);
    let mut image = image::new(ALL_SUPPORT);
    for (i, parent) in parents.into_iter().enumerate() {
        let marks = (0..SLOTS).filter(|&k| parents[k] as usize == i).map(|k| 1 << k);
        let slot = Slot {
            handle: rng.bytes(),
            children: marks.sum(),
            parent,
            ..context(i)
        };
        image::set(&mut image, i, slot);
        image::put(&mut image, image::at(i) + 20, &rng.bytes::<96>());
        if !slot.simulation {
            image[image::HAS_INITIALIZED] = 1;
        }
    }
    image
}

/// A context before its links are known.
fn context(locality: u32, simulation: bool, state: u8) -> Slot {
    Slot {
        handle: [0; 16],
        locality,
        children: 0,
        parent: ROOT,
        simulation,
        state,
    }
}

/// A forest of five trees, the first of them normal where one is asked for.
fn forest(normal: bool) -> Image {
    let mut parents = [ROOT; SLOTS];
    let mut order = [0; SLOTS];
    for k in 0..SLOTS {
        order[spread(k)] = k;
        if PARENTS[k] != ROOT {
            parents[spread(k)] = spread(PARENTS[k] as usize) as u8;
        }
    }
    linked(parents, |i| {
        let k = order[i];
        let simulation = !normal || (FIRST_TREE..LAST).contains(&k);
        context(locality(k), simulation, if RETIRED.contains(&k) { 2 } else { 1 })
    })
}

/// Each slot below the one before it, all of one type.
fn chain(simulation: bool) -> Image {
    let parents = core::array::from_fn(|i| if i == 0 { ROOT } else { i as u8 - 1 });
    linked(parents, |i| context(locality(i), simulation, 1))
}

fn roots() -> Image {
    linked([ROOT; SLOTS], |i| context(locality(i), true, 1))
}

/// The table after its last slot is destroyed.
fn freed(image: Image) -> Image {
    let mut state = oracle::load(&image);
    let (handle, locality) = (image::handle(&image, LAST), image::locality(&image, LAST));
    assert_eq!(oracle::destroy(&mut state, handle, locality), oracle::OK);
    oracle::bytes(&state).try_into().expect("an image")
}

/// Three contexts of the forest name a parent that no slot has.
fn stray_parents() -> Image {
    let mut image = forest(true);
    for (k, parent) in [(9, 32), (21, 100), (29, 254)] {
        image[image::at(spread(k)) + 136] = parent;
    }
    image
}

/// Marks above slot 31, and the mark of a context that is not there.
fn stray_marks() -> Image {
    let mut image = freed(forest(true));
    for (k, mark) in [(7, 40), (15, 63), (30, 32), (20, LAST)] {
        image[image::at(spread(k)) + 124 + mark / 8] |= 1 << (mark % 8);
    }
    image
}

/// A chain whose upper half marks the child and the grandchild: every walk down ends, by way of many paths.
fn shared_children() -> Image {
    let mut image = chain(false);
    for i in 0..SLOTS / 2 {
        let marks: u64 = 0b11 << (i + 1);
        image::put(&mut image, image::at(i) + 124, &marks.to_le_bytes());
    }
    for i in [SLOTS / 2, SLOTS / 2 + 1] {
        image::put(&mut image, image::at(i) + 124, &[0; 8]);
    }
    image
}

/// A chain whose root names the last context as its parent: a walk up meets 33 slots.
fn ring_of_parents() -> Image {
    let mut image = chain(false);
    image[image::at(0) + 136] = LAST as u8;
    image
}

/// A chain whose last context has the other type: no walk that returns is deeper, and the validator sees it last.
fn deepest() -> Image {
    let mut image = chain(false);
    image[image::at(LAST) + 137] ^= 1;
    image
}

/// A chain whose every slot marks the last one too: the next slot down is never the last child, and no walk that returns needs more stack.
fn last_shared() -> Image {
    let mut image = chain(false);
    for i in 0..LAST {
        let marks: u64 = 1 << (i + 1) | 1 << LAST;
        image::put(&mut image, image::at(i) + 124, &marks.to_le_bytes());
    }
    image
}

fn table(name: &'static str, about: &'static str, image: Image) -> Table {
    Table { name, about, image }
}

/// The tables that meet the forest rule.
fn valid() -> Vec<Table> {
    let free = "the last slot destroyed, and all of it simulation, so that both ways to initialise succeed";
    vec![
        table(NEW, "no context", image::new(ALL_SUPPORT)),
        table(
            FOREST,
            "32 contexts in five trees, up to eight levels deep, four contexts retired, ten localities",
            forest(true),
        ),
        table(CHAIN, "each slot below the one before it", chain(false)),
        table(ROOTS, "no links, all of it simulation", roots()),
        table(FOREST_FREE, free, freed(forest(false))),
        table(CHAIN_FREE, free, freed(chain(true))),
        table(ROOTS_FREE, free, freed(roots())),
    ]
}

/// Tables that break the rule, on which the Rust still returns from every call.
fn damaged() -> Vec<Table> {
    vec![
        table(
            STRAY_PARENTS,
            "the forest; three contexts name a parent that no slot has",
            stray_parents(),
        ),
        table(
            STRAY_MARKS,
            "the forest, its last slot destroyed; marks above slot 31, and a mark of the destroyed slot",
            stray_marks(),
        ),
        table(
            SHARED,
            "the chain; its upper half marks child and grandchild, so that a walk down goes many ways",
            shared_children(),
        ),
        table(
            RING,
            "the chain; its root names the last slot as its parent",
            ring_of_parents(),
        ),
        table(
            DEEPEST,
            "the chain; its last slot has the other type. No walk that returns is deeper",
            deepest(),
        ),
        table(
            LAST_SHARED,
            "the chain; every slot marks the last one too, so that each level of a walk down is a call",
            last_shared(),
        ),
    ]
}

/// Every table, those that meet the forest rule first.
pub fn all() -> Vec<Table> {
    let (valid, damaged) = (valid(), damaged());
    let meets = |t: &Table| oracle::validate(&mut oracle::load(&t.image)) == oracle::OK;
    for t in &valid {
        assert!(meets(t), "{} breaks the rule", t.name);
    }
    for t in &damaged {
        assert!(!meets(t), "{} meets the rule", t.name);
    }
    valid.into_iter().chain(damaged).collect()
}
