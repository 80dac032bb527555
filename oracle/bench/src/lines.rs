//! The lines of the report: the calls, some in more than one way, with every argument that fits a table.
use compare::{
    calls::Call,
    image::{self, Image, SLOTS},
};
use duottarok::{INIT_DEFAULT, INIT_SIMULATION, ROTATE_TARGET_IS_DEFAULT};

/// A call, or one way that a call goes, and the calls on a table.
pub struct Line {
    pub name: &'static str,
    pub calls: fn(&Image) -> Vec<Call<'static>>,
}

const INITIALIZE_SIMULATION: &str = "initialize, simulation";
const INITIALIZE_DEFAULT: &str = "initialize, default";

pub const LINES: [Line; 11] = [
    line("validate", |_| vec![Call::Validate]),
    line("lookup", |image| lookup(image, image::handle)),
    line("lookup, unknown handle", |image| lookup(image, |_, _| [0x77; 16])),
    line(INITIALIZE_SIMULATION, |_| initialize(INIT_SIMULATION)),
    line(INITIALIZE_DEFAULT, |_| initialize(INIT_DEFAULT)),
    line("rotate, candidate", |image| rotate(image, slots(image, &[1]), 0)),
    line("rotate, default", |image| {
        rotate(image, alone(image), ROTATE_TARGET_IS_DEFAULT)
    }),
    line("destroy", destroy),
    line("descendants", |image| {
        slots(image, &[1, 2])
            .into_iter()
            .map(|slot| Call::Descendants { slot })
            .collect()
    }),
    line("path", |image| {
        slots(image, &[1, 2])
            .into_iter()
            .map(|slot| Call::Path { slot })
            .collect()
    }),
    line("count", |_| (0..3).map(|state| Call::Count { state }).collect()),
];

const fn line(name: &'static str, calls: fn(&Image) -> Vec<Call<'static>>) -> Line {
    Line { name, calls }
}

impl Line {
    /// Whether it is the call that wants a free slot.
    pub fn initializes(&self) -> bool {
        [INITIALIZE_SIMULATION, INITIALIZE_DEFAULT].contains(&self.name)
    }
}

/// Eight candidates, the same for both sides; the first is taken by no context.
static CANDIDATES: [u8; 128] = {
    let mut bytes = [0; 128];
    let mut i = 0;
    while i < 128 {
        bytes[i] = 2 * i as u8 + 1;
        i += 1;
    }
    bytes
};

/// The slots in one of the states; all slots where no context is.
fn slots(image: &Image, states: &[u8]) -> Vec<usize> {
    let there: Vec<usize> = (0..SLOTS)
        .filter(|&i| states.contains(&image::state(image, i)))
        .collect();
    if there.is_empty() {
        (0..SLOTS).collect()
    } else {
        there
    }
}

/// The active contexts that are alone in their locality; all active ones where none is alone.
fn alone(image: &Image) -> Vec<usize> {
    let active = slots(image, &[1]);
    let here = |l| active.iter().filter(|&&i| image::locality(image, i) == l).count();
    let alone: Vec<usize> = active
        .iter()
        .copied()
        .filter(|&i| here(image::locality(image, i)) == 1)
        .collect();
    if alone.is_empty() {
        active
    } else {
        alone
    }
}

fn lookup(image: &Image, handle: fn(&Image, usize) -> [u8; 16]) -> Vec<Call<'static>> {
    let call = |i| Call::Lookup {
        handle: handle(image, i),
        locality: image::locality(image, i),
    };
    slots(image, &[1]).into_iter().map(call).collect()
}

fn initialize(flags: u32) -> Vec<Call<'static>> {
    vec![Call::Initialize {
        flags,
        locality: 40,
        candidates: &CANDIDATES,
    }]
}

fn rotate(image: &Image, slots: Vec<usize>, flags: u32) -> Vec<Call<'static>> {
    let call = |i| Call::Rotate {
        handle: image::handle(image, i),
        locality: image::locality(image, i),
        flags,
        candidates: &CANDIDATES,
    };
    slots.into_iter().map(call).collect()
}

fn destroy(image: &Image) -> Vec<Call<'static>> {
    let call = |i| Call::Destroy {
        handle: image::handle(image, i),
        locality: image::locality(image, i),
    };
    slots(image, &[1]).into_iter().map(call).collect()
}
