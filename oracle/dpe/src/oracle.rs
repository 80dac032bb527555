//! The published table code behind one face: every call on a `State`, answered as the value or the two numbers.
use crate::{
    commands::{CommandExecution, DestroyCtxCmd, InitCtxCmd, RotateCtxCmd, RotateCtxFlags},
    context::{Children, Context, ContextHandle, ContextState, RootToChildIter},
    dpe_instance::{DpeEnv, DpeEnvImpl, DpeInstance},
    error::DpeErrorCode,
    validation::DpeValidator,
    DpeProfile, State, MAX_HANDLES,
};
use caliptra_dpe_crypto::{CryptoError, CryptoSuite};
use caliptra_dpe_platform::Platform;
use caliptra_dpe_response_buffer::SliceResponseBuffer;

pub const IMAGE: usize = core::mem::size_of::<State>();
pub const SLOTS: usize = MAX_HANDLES;

/// Outer and inner number; 0, 0 is success.
#[derive(Clone, Copy, PartialEq, Eq, Debug, Hash)]
pub struct Code(pub u32, pub u32);
pub const OK: Code = Code(0, 0);
pub const WALK_LOOPS: Code = Code(0x0400_0000, 2);
pub const CANDIDATES_SHORT: Code = Code(0x0400_0000, 3);

pub fn code(e: DpeErrorCode) -> Code {
    match e {
        DpeErrorCode::InternalError(i) => Code(1, i.discriminant() as u32),
        DpeErrorCode::Validation(v) => Code(0x0300_0000, v.discriminant() as u32),
        DpeErrorCode::Crypto(_) => CANDIDATES_SHORT,
        e => Code(e.discriminant(), 0),
    }
}

/// Hands out the lent candidates, 16 bytes at a time; none left is a crypto error.
struct Lent<'a> {
    bytes: &'a [u8],
    at: usize,
}
impl CryptoSuite for Lent<'_> {
    fn rand_bytes(&mut self, dst: &mut [u8]) -> Result<(), CryptoError> {
        let part = self.bytes.get(self.at..self.at + dst.len()).ok_or(CryptoError(7))?;
        dst.copy_from_slice(part);
        self.at += dst.len();
        Ok(())
    }
}
struct NoPlatform;
impl Platform for NoPlatform {}

/// The state bytes 0..2 and type bytes 0..1 must be in range: reading refuses the others.
pub fn readable(image: &[u8]) -> Code {
    for i in 0..SLOTS {
        let at = 8 + 144 * i;
        if image[at + 138] > 2 {
            return Code(0x0300_0000, 4);
        }
        if image[at + 137] > 1 {
            return Code(0x0300_0000, 5);
        }
    }
    OK
}
pub fn load(image: &[u8]) -> State {
    assert!(image.len() == IMAGE && readable(image) == OK);
    unsafe { core::ptr::read_unaligned(image.as_ptr() as *const State) }
}
/// The bytes of a table: its layout is the image, with no padding.
pub fn bytes(s: &State) -> &[u8] {
    unsafe { core::slice::from_raw_parts(s as *const State as *const u8, IMAGE) }
}

pub fn validate(s: &mut State) -> Code {
    match (DpeValidator { dpe: s }).validate_dpe() {
        Ok(()) => OK,
        Err(e) => code(e),
    }
}
pub fn lookup(s: &State, h: [u8; 16], loc: u32) -> Result<usize, Code> {
    s.get_active_context_pos(&ContextHandle(h), loc).map_err(code)
}
fn exec(c: &dyn CommandExecution, s: &mut State, loc: u32, cands: &[u8]) -> Result<[u8; 16], Code> {
    let mut crypto = Lent { bytes: cands, at: 0 };
    let mut platform = NoPlatform;
    let mut env = DpeEnvImpl {
        crypto: &mut crypto,
        platform: &mut platform,
        state: s,
    };
    let mut dpe = DpeInstance::initialized(DpeProfile::P384Sha384);
    let mut buf = [0u8; 64];
    let mut out = SliceResponseBuffer::new(&mut buf);
    c.execute_serialized(&mut dpe, &mut env as &mut dyn DpeEnv, loc, &mut out)
        .map_err(code)?;
    Ok(buf[12..28].try_into().unwrap())
}
pub fn initialize(s: &mut State, flags: u32, loc: u32, cands: &[u8]) -> Result<[u8; 16], Code> {
    exec(&InitCtxCmd(flags), s, loc, cands)
}
pub fn rotate(s: &mut State, h: [u8; 16], loc: u32, flags: u32, cands: &[u8]) -> Result<[u8; 16], Code> {
    exec(
        &RotateCtxCmd {
            handle: ContextHandle(h),
            flags: RotateCtxFlags(flags),
        },
        s,
        loc,
        cands,
    )
}
pub fn destroy(s: &mut State, h: [u8; 16], loc: u32) -> Code {
    match exec(
        &DestroyCtxCmd {
            handle: ContextHandle(h),
        },
        s,
        loc,
        &[],
    ) {
        Ok(_) => OK,
        Err(c) => c,
    }
}
pub fn descendants(s: &State, slot: usize) -> Result<u64, Code> {
    let c: &Context = s.contexts.get(slot).ok_or(Code(1, 30))?;
    s.get_descendants(c).map(|c: Children| c.bits()).map_err(code)
}
/// The path to a lent place, and its length.
pub fn path_to(s: &State, slot: usize, slots: &mut [u8; SLOTS]) -> Result<usize, Code> {
    let base = s.contexts.as_ptr();
    let it = RootToChildIter::new(slot, &s.contexts).map_err(code)?;
    Ok(slots
        .iter_mut()
        .zip(it)
        .map(|(to, c)| *to = unsafe { (c as *const Context).offset_from(base) as u8 })
        .count())
}
pub fn path(s: &State, slot: usize) -> Result<Vec<u8>, Code> {
    let mut slots = [0; SLOTS];
    let length = path_to(s, slot, &mut slots)?;
    Ok(slots[..length].to_vec())
}
pub fn count(s: &State, state: u8) -> usize {
    s.count_contexts(|c| {
        c.state
            == match state {
                0 => ContextState::Inactive,
                1 => ContextState::Active,
                _ => ContextState::Retired,
            }
    })
    .unwrap()
}
