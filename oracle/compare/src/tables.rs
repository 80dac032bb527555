//! The tables that both sides are held against.
use crate::{
    image::{self, Image, Slot, ALL_SUPPORT, SLOTS},
    rng::Rng,
};

/// Parents and marks that three slots can have among themselves.
const PARENTS: [u8; 4] = [0, 1, 2, 0xff];
/// Each of three slots: 3 states, 2 types, 4 parents, 8 sets of marks.
const PER_SLOT: u64 = 3 * 2 * 4 * 8;
pub const SMALL: u64 = PER_SLOT * PER_SLOT * PER_SLOT;

/// Small table number n: every link structure of three slots, with every state and type.
pub fn small(n: u64) -> Image {
    let mut image = image::new(ALL_SUPPORT);
    image[image::HAS_INITIALIZED] = 1;
    let mut rest = n;
    let mut digit = |base: u64| {
        let d = rest % base;
        rest /= base;
        d
    };
    for i in 0..3 {
        let slot = Slot {
            handle: [i as u8 + 1; 16],
            locality: 7,
            children: digit(8),
            parent: PARENTS[digit(4) as usize],
            simulation: digit(2) == 1,
            state: digit(3) as u8,
        };
        image::set(&mut image, i, slot);
    }
    image
}

/// A table that meets the forest rule: a random forest in random slots, retired inside, a default here and there.
pub fn forest(rng: &mut Rng) -> Image {
    let mut image = image::new(ALL_SUPPORT);
    image[image::HAS_INITIALIZED] = rng.below(3) as u8;
    let normal_may = image[image::HAS_INITIALIZED] != 0;
    let count = if rng.once_in(8) { SLOTS } else { rng.below(SLOTS + 1) };
    let mut order: Vec<usize> = (0..SLOTS).collect();
    for i in 0..SLOTS {
        order.swap(i, i + rng.below(SLOTS - i));
    }
    let chain = rng.once_in(6);
    let mut slots: Vec<(usize, Slot)> = Vec::new();
    let mut normal_root = false;
    for &i in &order[..count] {
        let parent = match slots.len() {
            0 => None,
            n if chain => Some(n - 1),
            _ if rng.once_in(4) => None,
            n => Some(rng.below(n)),
        };
        let simulation = match parent {
            Some(p) => slots[p].1.simulation,
            None => normal_root || !normal_may || rng.once_in(2),
        };
        normal_root |= parent.is_none() && !simulation;
        if let Some(p) = parent {
            slots[p].1.children |= 1 << i;
        }
        let slot = Slot {
            handle: rng.bytes(),
            locality: rng.below(6) as u32,
            children: 0,
            parent: parent.map_or(0xff, |p| slots[p].0 as u8),
            simulation,
            state: 1,
        };
        slots.push((i, slot));
    }
    let retire = rng.below(4);
    for (i, mut slot) in slots {
        if slot.children != 0 && rng.below(3) < retire {
            slot.state = 2;
        }
        image::set(&mut image, i, slot);
    }
    for l in 0..6 {
        lone_default(rng, &mut image, l);
    }
    image
}

/// Where a locality has just one active context, it is sometimes a default.
fn lone_default(rng: &mut Rng, image: &mut Image, locality: u32) {
    let mut here = (0..SLOTS).filter(|&i| image::state(image, i) == 1 && image::locality(image, i) == locality);
    if let (Some(i), None) = (here.next(), here.next()) {
        if rng.once_in(2) {
            image::put(image, image::at(i), &[0; 16]);
        }
    }
}

/// A copy with some fields hit: one of a context, or the header, the support word or the initialised byte.
pub fn damaged(rng: &mut Rng, mut image: Image) -> Image {
    for _ in 0..1 + rng.below(3) {
        let slot = rng.below(SLOTS);
        let (field, len) = rng.pick(&image::FIELDS);
        let at = image::at(slot) + field;
        match (rng.below(12), field) {
            (0, _) => {
                let header = rng.pick(&[0, 4]);
                image::put(&mut image, header, &(rng.next() as u32).to_le_bytes());
            }
            (1, _) => image::put(&mut image, image::SUPPORT, &(rng.next() as u32).to_le_bytes()),
            (2, _) => image[image::HAS_INITIALIZED] = rng.pick(&[0, 0, 1, 0xff]),
            (_, 124) => {
                let bit = rng.below(64);
                image[at + bit / 8] ^= 1 << (bit % 8);
            }
            (_, 136) => {
                let other = rng.below(SLOTS) as u8;
                image[at] = rng.pick(&[0, slot as u8, 31, 32, 33, 254, 255, other, other]);
            }
            (_, 137) => image[at] ^= 1,
            (_, 138) => image[at] = rng.below(3) as u8,
            (_, 0) => image::put(&mut image, at, &[rng.pick(&[0, 0xff, 1]); 16]),
            (_, 116 | 132) => image::put(&mut image, at, &(rng.below(6) as u32).to_le_bytes()),
            _ => image[at + rng.below(len)] = rng.pick(&[0, 1, 2, 0xff]),
        }
    }
    image
}

/// A few slots that mark and name each other at random: cycles, shared children, marks above 31, stray parents.
pub fn tangle(rng: &mut Rng) -> Image {
    let mut image = image::new(ALL_SUPPORT);
    image[image::HAS_INITIALIZED] = 1;
    let n = 1 + rng.below(10);
    let (dense, inactive, retired) = (rng.below(4), rng.below(8), rng.below(4));
    for i in 0..n {
        let mut children = 0;
        for k in 0..n {
            if rng.below(n) < dense {
                children |= 1u64 << k;
            }
        }
        if rng.once_in(8) {
            children |= 1 << (32 + rng.below(32));
        }
        let parent = match rng.below(8) {
            0 => 0xff,
            1 => rng.pick(&[31, 32, 100, 254]),
            _ => rng.below(n) as u8,
        };
        let state = match rng.below(8) {
            x if x < inactive / 4 => 0,
            x if x < 2 * retired => 2,
            _ => 1,
        };
        let slot = Slot {
            handle: [i as u8 + 1; 16],
            locality: 7,
            children,
            parent,
            simulation: rng.once_in(6),
            state,
        };
        image::set(&mut image, i, slot);
    }
    image
}

/// A retired run of random length over an active slot, upward to a root, to a stray parent, into a ring or back to the start.
pub fn run(rng: &mut Rng) -> Image {
    let mut image = image::new(ALL_SUPPORT);
    image[image::HAS_INITIALIZED] = 1;
    let n = 1 + rng.below(SLOTS);
    for i in 0..n {
        let top = i + 1 == n;
        let parent = match (top, rng.below(5)) {
            (false, _) => i as u8 + 1,
            (true, 0) => rng.below(n) as u8,
            (true, 1) => 0,
            (true, 2) => rng.pick(&[32, 200, 254]),
            (true, _) => 0xff,
        };
        let mut children = if i == 0 { 0 } else { 1u64 << (i - 1) };
        if rng.once_in(40) {
            children |= 1 << rng.below(64);
        }
        let state = if i == 0 || rng.once_in(40) { 1 } else { 2 };
        let slot = Slot {
            handle: [i as u8 + 1; 16],
            locality: 7,
            children,
            parent,
            simulation: false,
            state,
        };
        image::set(&mut image, i, slot);
    }
    image
}

/// Noise in every byte but the state and type bytes, which read.
pub fn noise(rng: &mut Rng) -> Image {
    let mut image: Image = rng.bytes();
    for i in 0..SLOTS {
        image[image::at(i) + 137] %= 2;
        image[image::at(i) + 138] %= 3;
    }
    image
}

/// A random table of a kind: forests, damaged ones, tangles, runs, noise.
pub fn any(rng: &mut Rng, kind: u64) -> Image {
    match kind {
        0 | 1 => forest(rng),
        2..=4 => {
            let whole = forest(rng);
            damaged(rng, whole)
        }
        5 | 6 => tangle(rng),
        7 => run(rng),
        _ => noise(rng),
    }
}
