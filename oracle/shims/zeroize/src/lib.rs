//! A stand-in: nothing is wiped.
pub use zeroize_derive::Zeroize;
pub trait Zeroize {
    fn zeroize(&mut self);
}
