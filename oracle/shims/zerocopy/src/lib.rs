//! A stand-in: the bytes of a value, and a little-endian u64.
pub use zerocopy_derive::{FromBytes, FromZeros, Immutable, IntoBytes, KnownLayout, TryFromBytes};
pub trait IntoBytes {
    fn as_bytes(&self) -> &[u8]
    where
        Self: Sized,
    {
        unsafe { core::slice::from_raw_parts(self as *const Self as *const u8, core::mem::size_of::<Self>()) }
    }
}
impl IntoBytes for bool {}
pub mod little_endian {
    #[derive(Clone, Copy, PartialEq, Eq, Default, Debug)]
    #[repr(transparent)]
    pub struct U64([u8; 8]);
    impl U64 {
        pub const ZERO: U64 = U64([0; 8]);
        pub fn get(&self) -> u64 {
            u64::from_le_bytes(self.0)
        }
        pub fn set(&mut self, v: u64) {
            self.0 = v.to_le_bytes()
        }
    }
    impl From<u64> for U64 {
        fn from(v: u64) -> U64 {
            U64(v.to_le_bytes())
        }
    }
    impl core::ops::BitOrAssign<u64> for U64 {
        fn bitor_assign(&mut self, v: u64) {
            self.set(self.get() | v)
        }
    }
    impl super::IntoBytes for U64 {}
}
