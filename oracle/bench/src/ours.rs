//! The exported calls of the proved library, each behind a function that is not inlined.
//! Every pointer is that of a live value of the size that the call asks for, and nothing overlaps.
use compare::{
    calls::{Answer, Call},
    image::Image,
};
use duottarok::ffi;

#[inline(never)]
pub fn validate(_: &Call, image: &mut Image, a: &mut Answer) {
    // SAFETY: see above.
    a.word = unsafe { ffi::dpe_validate(image.as_ptr(), image.len()) };
}

#[inline(never)]
pub fn lookup(call: &Call, image: &mut Image, a: &mut Answer) {
    let Call::Lookup { handle, locality } = call else {
        unreachable!()
    };
    // SAFETY: see above.
    a.word = unsafe { ffi::dpe_lookup(image.as_ptr(), image.len(), handle.as_ptr(), *locality, &mut a.number) };
}

#[inline(never)]
pub fn initialize_context(call: &Call, image: &mut Image, a: &mut Answer) {
    let Call::Initialize {
        flags,
        locality,
        candidates: c,
    } = call
    else {
        unreachable!()
    };
    let (at, len, new) = (image.as_mut_ptr(), image.len(), a.handle.as_mut_ptr());
    // SAFETY: see above.
    a.word = unsafe { ffi::dpe_initialize_context(at, len, *flags, *locality, c.as_ptr(), c.len(), new) };
}

#[inline(never)]
pub fn rotate_context(call: &Call, image: &mut Image, a: &mut Answer) {
    let Call::Rotate {
        handle,
        locality,
        flags,
        candidates: c,
    } = call
    else {
        unreachable!()
    };
    let (at, len, new) = (image.as_mut_ptr(), image.len(), a.handle.as_mut_ptr());
    // SAFETY: see above.
    a.word = unsafe { ffi::dpe_rotate_context(at, len, handle.as_ptr(), *locality, *flags, c.as_ptr(), c.len(), new) };
}

#[inline(never)]
pub fn destroy_context(call: &Call, image: &mut Image, a: &mut Answer) {
    let Call::Destroy { handle, locality } = call else {
        unreachable!()
    };
    // SAFETY: see above.
    a.word = unsafe { ffi::dpe_destroy_context(image.as_mut_ptr(), image.len(), handle.as_ptr(), *locality) };
}

#[inline(never)]
pub fn descendants(call: &Call, image: &mut Image, a: &mut Answer) {
    let Call::Descendants { slot } = call else {
        unreachable!()
    };
    // SAFETY: see above.
    a.word = unsafe { ffi::dpe_descendants(image.as_ptr(), image.len(), *slot, &mut a.number) };
}

#[inline(never)]
pub fn path(call: &Call, image: &mut Image, a: &mut Answer) {
    let Call::Path { slot } = call else { unreachable!() };
    // SAFETY: see above.
    a.word = unsafe { ffi::dpe_path(image.as_ptr(), image.len(), *slot, a.slots.as_mut_ptr(), &mut a.number) };
}

#[inline(never)]
pub fn count(call: &Call, image: &mut Image, a: &mut Answer) {
    let Call::Count { state } = call else { unreachable!() };
    // SAFETY: see above.
    a.word = unsafe { ffi::dpe_count(image.as_ptr(), image.len(), *state, &mut a.number) };
}
