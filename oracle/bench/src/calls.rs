//! One call by one side, straight on that side's own table: nothing is read or written around it.
use crate::{ours, theirs};
use compare::{
    calls::{refused, Answer, Call},
    image::Image,
};
use dpe::{oracle, State};

/// A call on a table; what it answers goes to the lent places of the answer.
pub type Face<T> = fn(&Call, &mut T, &mut Answer);

pub trait Side {
    type Table;
    fn table(image: &Image) -> Self::Table;
    fn bytes(table: &Self::Table) -> &[u8];
    fn face(call: &Call) -> Face<Self::Table>;
}

/// The proved library, on the image.
pub struct Ours;

impl Side for Ours {
    type Table = Image;

    fn table(image: &Image) -> Image {
        *image
    }

    fn bytes(table: &Image) -> &[u8] {
        table
    }

    fn face(call: &Call) -> Face<Image> {
        match call {
            Call::Validate => ours::validate,
            Call::Lookup { .. } => ours::lookup,
            Call::Initialize { .. } => ours::initialize_context,
            Call::Rotate { .. } => ours::rotate_context,
            Call::Destroy { .. } => ours::destroy_context,
            Call::Descendants { .. } => ours::descendants,
            Call::Path { .. } => ours::path,
            Call::Count { .. } => ours::count,
        }
    }
}

/// The published Rust, on its `State`.
pub struct Theirs;

impl Side for Theirs {
    type Table = State;

    fn table(image: &Image) -> State {
        oracle::load(image)
    }

    fn bytes(table: &State) -> &[u8] {
        oracle::bytes(table)
    }

    fn face(call: &Call) -> Face<State> {
        match call {
            Call::Validate => theirs::validate,
            Call::Lookup { .. } => theirs::lookup,
            Call::Initialize { .. } => theirs::initialize_context,
            Call::Rotate { .. } => theirs::rotate_context,
            Call::Destroy { .. } => theirs::destroy_context,
            Call::Descendants { .. } => theirs::descendants,
            Call::Path { .. } => theirs::path,
            Call::Count { .. } => theirs::count,
        }
    }
}

/// The call that does nothing: what the loop and the way into a call cost by themselves.
#[inline(never)]
pub fn nothing<T>(_: &Call, _: &mut T, a: &mut Answer) {
    a.word = 0;
}

/// An answer that no call has written yet. The slots are zeros, since the Rust has no slots after a path's own.
pub fn unwritten() -> Answer {
    Answer {
        slots: [0; 32],
        ..refused(oracle::OK)
    }
}
