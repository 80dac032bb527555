//! Peak stack of a call: it runs on a painted stack of its own. The library is for x86-64; a build of it for another machine
//! can be measured on aarch64 too.
use crate::{
    calls::{nothing, unwritten, Face, Ours, Side, Theirs},
    cases::Case,
};
use compare::calls::{Answer, Call};
use core::arch::asm;

/// Words of the painted stack, and how many at its end must stay painted.
const WORDS: usize = 1 << 17;
const SPARE: usize = 1 << 10;
/// Each call runs on both paints, since a call may write the colour of one.
const PAINTS: [u64; 2] = [0xa5a5_a5a5_a5a5_a5a5, 0x5a5a_5a5a_5a5a_5a5a];

/// Bytes of stack on each side.
#[derive(Clone, Copy)]
pub struct Stack {
    pub ours: usize,
    pub theirs: usize,
}

/// A call to be run on another stack.
struct Errand<'a, T> {
    face: Face<T>,
    call: &'a Call<'a>,
    table: T,
    answer: Answer,
}

extern "C" fn run<T>(errand: &mut Errand<T>) {
    (errand.face)(errand.call, &mut errand.table, &mut errand.answer);
}

/// Runs the errand with the stack that ends at `top`.
#[inline(never)]
fn run_on<T>(top: *mut u64, errand: &mut Errand<T>) {
    // SAFETY: `top` is the aligned end of memory that nothing else uses, and the old stack pointer comes back.
    #[cfg(target_arch = "x86_64")]
    unsafe {
        asm!(
            "mov r12, rsp",
            "mov rsp, {top}",
            "call {run}",
            "mov rsp, r12",
            top = in(reg) top,
            run = in(reg) run::<T> as extern "C" fn(&mut Errand<T>),
            in("rdi") errand,
            out("r12") _,
            clobber_abi("C"),
        );
    }
    // SAFETY: the same.
    #[cfg(target_arch = "aarch64")]
    unsafe {
        asm!(
            "mov x20, sp",
            "mov sp, {top}",
            "blr {run}",
            "mov sp, x20",
            top = in(reg) top,
            run = in(reg) run::<T> as extern "C" fn(&mut Errand<T>),
            in("x0") errand,
            out("x20") _,
            clobber_abi("C"),
        );
    }
}

/// How many bytes below the top a call writes, on one paint.
fn depth<S: Side>(face: Face<S::Table>, call: &Call, case: &Case, paint: u64) -> usize {
    let mut words = vec![paint; WORDS];
    let base = words.as_mut_ptr();
    // The stack pointer must be aligned at a call.
    let top = WORDS - base as usize / 8 % 8;
    let mut errand = Errand {
        face,
        call,
        table: S::table(&case.image),
        answer: unwritten(),
    };
    run_on(base.wrapping_add(top), &mut errand);
    let lowest = words.iter().position(|&w| w != paint).expect("the way in writes");
    assert!(lowest > SPARE, "the painted stack is too small");
    8 * (top - lowest)
}

/// The most that any call of the case takes, beyond the call that does nothing.
fn peak<S: Side>(case: &Case) -> usize {
    let most = |face: Face<S::Table>| {
        let each = case
            .calls
            .iter()
            .flat_map(|call| PAINTS.map(|paint| depth::<S>(face, call, case, paint)));
        each.max().expect("a call")
    };
    most(S::face(&case.calls[0])) - most(nothing)
}

pub fn stack(case: &Case) -> Stack {
    Stack {
        ours: peak::<Ours>(case),
        theirs: peak::<Theirs>(case),
    }
}
