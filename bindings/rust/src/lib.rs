//! The context table of the DPE, over a lent image of 4,624 bytes. A thin safe face of the proved library:
//! every call ends on every image, a refusal is one of [`Refusal`] and changes nothing.
//!
//! ```
//! // A new table that supports simulation and rotate.
//! let mut image = *include_bytes!("../../../samples/new.img");
//! let handle = duottarok::initialize_context(&mut image, duottarok::INIT_DEFAULT, 7, &[]).unwrap();
//! assert_eq!(handle, [0; 16]);
//! assert_eq!(duottarok::lookup(&image, &handle, 7), Ok(0));
//! assert_eq!(duottarok::validate(&image), Ok(()));
//! ```
#![no_std]
#![warn(missing_docs)]

pub mod ffi;
mod refusal;

pub use refusal::{AddedError, InternalError, Refusal, ValidationError};

/// How many bytes an image has.
pub const IMAGE_SIZE: usize = 4624;
/// How many slots a table has.
pub const SLOTS: usize = 32;
/// The handle of a context.
pub type Handle = [u8; 16];

/// Flag of [`initialize_context`]: a simulation context.
pub const INIT_SIMULATION: u32 = 1 << 31;
/// Flag of [`initialize_context`]: the default context.
pub const INIT_DEFAULT: u32 = 1 << 30;
/// Flag of [`rotate_context`]: the new handle is the default one.
pub const ROTATE_TARGET_IS_DEFAULT: u32 = 1 << 31;

/// The state of a context.
#[derive(Clone, Copy, Debug, PartialEq, Eq)]
#[repr(u8)]
#[allow(missing_docs)]
pub enum State {
    Inactive = 0,
    Active = 1,
    Retired = 2,
}

/// The slots from a root down to a slot.
#[derive(Clone, Copy, Debug, PartialEq, Eq)]
pub struct Path {
    slots: [u8; SLOTS],
    length: usize,
}

impl Path {
    /// The slots, the root first.
    pub fn slots(&self) -> &[u8] {
        &self.slots[..self.length]
    }
}

/// Whether the table meets the forest rule; else its first fault.
///
/// ```
/// use duottarok::{validate, AddedError, Refusal};
/// assert_eq!(validate(b"too short"), Err(Refusal::Added(AddedError::BadLength)));
/// ```
pub fn validate(image: &[u8]) -> Result<(), Refusal> {
    // SAFETY: the pointer and the length are those of one slice.
    Refusal::from_word(unsafe { ffi::dpe_validate(image.as_ptr(), image.len()) })
}

/// The lowest active slot of the locality with the handle.
pub fn lookup(image: &[u8], handle: &Handle, locality: u32) -> Result<usize, Refusal> {
    let mut slot = 0;
    // SAFETY: each pointer is that of a live reference of the size that the call asks for.
    let word = unsafe { ffi::dpe_lookup(image.as_ptr(), image.len(), handle.as_ptr(), locality, &mut slot) };
    Refusal::from_word(word).map(|()| slot as usize)
}

/// Initialises the default context, or a simulation context with one of the candidates for its handle.
pub fn initialize_context(image: &mut [u8], flags: u32, locality: u32, candidates: &[u8]) -> Result<Handle, Refusal> {
    let mut handle = [0; 16];
    // SAFETY: as in `lookup`; the borrows tell that nothing overlaps.
    let word = unsafe {
        ffi::dpe_initialize_context(
            image.as_mut_ptr(),
            image.len(),
            flags,
            locality,
            candidates.as_ptr(),
            candidates.len(),
            handle.as_mut_ptr(),
        )
    };
    Refusal::from_word(word).map(|()| handle)
}

/// Gives the context with the handle in the locality a new handle: the default one, or one of the candidates.
pub fn rotate_context(
    image: &mut [u8],
    handle: &Handle,
    locality: u32,
    flags: u32,
    candidates: &[u8],
) -> Result<Handle, Refusal> {
    let mut new = [0; 16];
    // SAFETY: as in `initialize_context`.
    let word = unsafe {
        ffi::dpe_rotate_context(
            image.as_mut_ptr(),
            image.len(),
            handle.as_ptr(),
            locality,
            flags,
            candidates.as_ptr(),
            candidates.len(),
            new.as_mut_ptr(),
        )
    };
    Refusal::from_word(word).map(|()| new)
}

/// Clears the context with the handle in the locality, all below it, and the run of retired contexts above it.
pub fn destroy_context(image: &mut [u8], handle: &Handle, locality: u32) -> Result<(), Refusal> {
    // SAFETY: as in `initialize_context`.
    Refusal::from_word(unsafe { ffi::dpe_destroy_context(image.as_mut_ptr(), image.len(), handle.as_ptr(), locality) })
}

/// All that is below a slot, as marks: bit k is slot k.
pub fn descendants(image: &[u8], slot: usize) -> Result<u64, Refusal> {
    let mut marks = 0;
    // SAFETY: as in `lookup`.
    let word = unsafe { ffi::dpe_descendants(image.as_ptr(), image.len(), slot, &mut marks) };
    Refusal::from_word(word).map(|()| marks)
}

/// The slots from the root down to a slot.
pub fn path(image: &[u8], slot: usize) -> Result<Path, Refusal> {
    let (mut slots, mut length) = ([0; SLOTS], 0);
    // SAFETY: as in `lookup`.
    let word = unsafe { ffi::dpe_path(image.as_ptr(), image.len(), slot, slots.as_mut_ptr(), &mut length) };
    Refusal::from_word(word).map(|()| Path {
        slots,
        length: length as usize,
    })
}

/// How many contexts are in a state.
pub fn count(image: &[u8], state: State) -> Result<usize, Refusal> {
    let mut count = 0;
    // SAFETY: as in `lookup`.
    let word = unsafe { ffi::dpe_count(image.as_ptr(), image.len(), state as u8, &mut count) };
    Refusal::from_word(word).map(|()| count as usize)
}
