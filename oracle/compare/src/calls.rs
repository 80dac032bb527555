//! One call on one table, by the proved library and by the published Rust.
use crate::image::{Image, SIZE};
use dpe::oracle::{self, Code};
use duottarok::ffi;

#[derive(Clone, Copy, Debug)]
pub enum Call<'a> {
    Validate,
    Lookup {
        handle: [u8; 16],
        locality: u32,
    },
    Initialize {
        flags: u32,
        locality: u32,
        candidates: &'a [u8],
    },
    Rotate {
        handle: [u8; 16],
        locality: u32,
        flags: u32,
        candidates: &'a [u8],
    },
    Destroy {
        handle: [u8; 16],
        locality: u32,
    },
    Descendants {
        slot: usize,
    },
    Path {
        slot: usize,
    },
    Count {
        state: u8,
    },
}

impl Call<'_> {
    pub fn name(&self) -> &'static str {
        match self {
            Call::Validate => "validate",
            Call::Lookup { .. } => "lookup",
            Call::Initialize { .. } => "initialize",
            Call::Rotate { .. } => "rotate",
            Call::Destroy { .. } => "destroy",
            Call::Descendants { .. } => "descendants",
            Call::Path { .. } => "path",
            Call::Count { .. } => "count",
        }
    }
}

/// The word, and every lent place after the call. A place that the call does not write keeps its first bytes.
#[derive(Clone, Debug, PartialEq, Eq)]
pub struct Answer {
    pub word: u64,
    pub number: u64,
    pub handle: [u8; 16],
    pub slots: [u8; 32],
}

const UNTOUCHED: Answer = Answer {
    word: 0,
    number: 0xa5a5_a5a5_5a5a_5a5a,
    handle: [0xc3; 16],
    slots: [0x96; 32],
};

pub const WALK_LOOPS: u64 = word(oracle::WALK_LOOPS);

pub const fn word(c: Code) -> u64 {
    (c.0 as u64) << 32 | c.1 as u64
}

/// The call on the lent bytes.
pub fn ours(call: &Call, image: &mut [u8]) -> Answer {
    let mut a = UNTOUCHED;
    let (at, len) = (image.as_mut_ptr(), image.len());
    // SAFETY: every pointer is that of a live value of the size that the call asks for, and nothing overlaps.
    a.word = unsafe {
        match *call {
            Call::Validate => ffi::dpe_validate(at, len),
            Call::Lookup { handle, locality } => ffi::dpe_lookup(at, len, handle.as_ptr(), locality, &mut a.number),
            Call::Initialize {
                flags,
                locality,
                candidates: c,
            } => ffi::dpe_initialize_context(at, len, flags, locality, c.as_ptr(), c.len(), a.handle.as_mut_ptr()),
            Call::Rotate {
                handle,
                locality,
                flags,
                candidates: c,
            } => ffi::dpe_rotate_context(
                at,
                len,
                handle.as_ptr(),
                locality,
                flags,
                c.as_ptr(),
                c.len(),
                a.handle.as_mut_ptr(),
            ),
            Call::Destroy { handle, locality } => ffi::dpe_destroy_context(at, len, handle.as_ptr(), locality),
            Call::Descendants { slot } => ffi::dpe_descendants(at, len, slot, &mut a.number),
            Call::Path { slot } => ffi::dpe_path(at, len, slot, a.slots.as_mut_ptr(), &mut a.number),
            Call::Count { state } => ffi::dpe_count(at, len, state, &mut a.number),
        }
    };
    a
}

/// The same call by the Rust, on a table that reads. It may never return.
pub fn theirs(call: &Call, image: &mut Image) -> Answer {
    let mut state = oracle::load(&image[..]);
    let mut a = UNTOUCHED;
    let answer = match *call {
        Call::Validate => oracle::validate(&mut state),
        Call::Lookup { handle, locality } => place(
            &mut a.number,
            oracle::lookup(&state, handle, locality).map(|i| i as u64),
        ),
        Call::Initialize {
            flags,
            locality,
            candidates,
        } => place(
            &mut a.handle,
            oracle::initialize(&mut state, flags, locality, candidates),
        ),
        Call::Rotate {
            handle,
            locality,
            flags,
            candidates,
        } => place(
            &mut a.handle,
            oracle::rotate(&mut state, handle, locality, flags, candidates),
        ),
        Call::Destroy { handle, locality } => oracle::destroy(&mut state, handle, locality),
        Call::Descendants { slot } => place(&mut a.number, oracle::descendants(&state, slot)),
        Call::Path { slot } => match oracle::path(&state, slot) {
            Ok(p) => {
                a.slots = [0; 32];
                a.slots[..p.len()].copy_from_slice(&p);
                a.number = p.len() as u64;
                oracle::OK
            }
            Err(e) => e,
        },
        Call::Count { state: s } if s > 2 => Code(3, 0),
        Call::Count { state: s } => place(&mut a.number, Ok(oracle::count(&state, s) as u64)),
    };
    a.word = word(answer);
    image.copy_from_slice(oracle::bytes(&state));
    a
}

/// A value goes to its place; a refusal leaves the place alone.
pub fn place<T>(to: &mut T, answer: Result<T, Code>) -> Code {
    match answer {
        Ok(v) => {
            *to = v;
            oracle::OK
        }
        Err(e) => e,
    }
}

/// What reading the bytes answers, by document 01: the Rust has no reader.
pub fn reading(image: &[u8]) -> Code {
    if image.len() != SIZE {
        return Code(0x0400_0000, 1);
    }
    oracle::readable(image)
}

/// What a call answers that reading refuses: the refusal, and every place untouched.
pub fn refused(c: Code) -> Answer {
    Answer {
        word: word(c),
        ..UNTOUCHED
    }
}
