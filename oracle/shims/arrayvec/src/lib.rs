//! A stand-in: a vector of at most N elements, kept in place as the real one keeps them.
use core::mem::MaybeUninit;

pub struct ArrayVec<T: Copy, const N: usize> {
    elements: [MaybeUninit<T>; N],
    length: u32,
}

impl<T: Copy, const N: usize> ArrayVec<T, N> {
    pub fn new() -> Self {
        ArrayVec {
            elements: [MaybeUninit::uninit(); N],
            length: 0,
        }
    }
    pub fn try_push(&mut self, t: T) -> Result<(), ()> {
        self.elements.get_mut(self.length as usize).ok_or(())?.write(t);
        self.length += 1;
        Ok(())
    }
    pub fn pop(&mut self) -> Option<T> {
        self.length = self.length.checked_sub(1)?;
        // SAFETY: every place below the old length was written when it was pushed.
        Some(unsafe { self.elements.get_unchecked(self.length as usize).assume_init() })
    }
}
