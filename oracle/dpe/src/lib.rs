// Stand-in for lib.rs: the table files beside it are the published ones, unchanged.
#![allow(dead_code, unused_imports)]
pub use dpe_instance::DpeInstance;
pub use state::{DpeFlags, State};
use zeroize::Zeroize;
pub mod commands;
pub mod context;
pub mod dpe_instance;
pub mod error;
pub mod oracle;
pub mod response;
mod state;
pub mod support;
pub mod tci;
pub mod validation;
use core::mem::size_of;
use response::GetProfileResp;
use zerocopy::{FromBytes, Immutable, IntoBytes, KnownLayout, TryFromBytes};
pub const MAX_HANDLES: usize = 32;
pub const TCI_SIZE: usize = 48;
const INTERNAL_INPUT_INFO_SIZE: usize = size_of::<GetProfileResp>() + size_of::<u32>();
#[derive(Default, IntoBytes, FromBytes, Copy, Clone, PartialEq, Eq, Zeroize, Immutable, KnownLayout)]
#[repr(C, align(1))]
pub struct U8Bool {
    pub val: u8,
}
impl U8Bool {
    pub const fn new(val: bool) -> Self {
        Self { val: val as u8 }
    }
    pub fn get(&self) -> bool {
        self.val != 0
    }
}
impl From<bool> for U8Bool {
    fn from(item: bool) -> Self {
        Self { val: item as u8 }
    }
}
#[derive(Copy, Clone, Debug, PartialEq, Eq, IntoBytes, TryFromBytes, KnownLayout, Immutable, Zeroize)]
#[repr(u32)]
pub enum DpeProfile {
    P384Sha384 = 4,
}
impl From<DpeProfile> for u32 {
    fn from(item: DpeProfile) -> Self {
        item as u32
    }
}
#[repr(C, align(4))]
pub(crate) struct AlignedBuf<const N: usize> {
    buf: [u8; N],
}
impl<const N: usize> AlignedBuf<N> {
    pub fn new() -> Self {
        Self { buf: [0u8; N] }
    }
    pub fn as_bytes(&self) -> &[u8] {
        &self.buf
    }
    pub fn as_mut_bytes(&mut self) -> &mut [u8] {
        &mut self.buf
    }
}
