//! The same calls by the published Rust, each behind a function that is not inlined.
use compare::calls::{place, word, Answer, Call};
use dpe::{oracle, State};

#[inline(never)]
pub fn validate(_: &Call, state: &mut State, a: &mut Answer) {
    a.word = word(oracle::validate(state));
}

#[inline(never)]
pub fn lookup(call: &Call, state: &mut State, a: &mut Answer) {
    let Call::Lookup { handle, locality } = call else {
        unreachable!()
    };
    let found = oracle::lookup(state, *handle, *locality).map(|i| i as u64);
    a.word = word(place(&mut a.number, found));
}

#[inline(never)]
pub fn initialize_context(call: &Call, state: &mut State, a: &mut Answer) {
    let Call::Initialize {
        flags,
        locality,
        candidates,
    } = call
    else {
        unreachable!()
    };
    let new = oracle::initialize(state, *flags, *locality, candidates);
    a.word = word(place(&mut a.handle, new));
}

#[inline(never)]
pub fn rotate_context(call: &Call, state: &mut State, a: &mut Answer) {
    let Call::Rotate {
        handle,
        locality,
        flags,
        candidates,
    } = call
    else {
        unreachable!()
    };
    let new = oracle::rotate(state, *handle, *locality, *flags, candidates);
    a.word = word(place(&mut a.handle, new));
}

#[inline(never)]
pub fn destroy_context(call: &Call, state: &mut State, a: &mut Answer) {
    let Call::Destroy { handle, locality } = call else {
        unreachable!()
    };
    a.word = word(oracle::destroy(state, *handle, *locality));
}

#[inline(never)]
pub fn descendants(call: &Call, state: &mut State, a: &mut Answer) {
    let Call::Descendants { slot } = call else {
        unreachable!()
    };
    a.word = word(place(&mut a.number, oracle::descendants(state, *slot)));
}

#[inline(never)]
pub fn path(call: &Call, state: &mut State, a: &mut Answer) {
    let Call::Path { slot } = call else { unreachable!() };
    let length = oracle::path_to(state, *slot, &mut a.slots).map(|n| n as u64);
    a.word = word(place(&mut a.number, length));
}

#[inline(never)]
pub fn count(call: &Call, state: &mut State, a: &mut Answer) {
    let Call::Count { state: s } = call else { unreachable!() };
    a.word = word(place(&mut a.number, Ok(oracle::count(state, *s) as u64)));
}
