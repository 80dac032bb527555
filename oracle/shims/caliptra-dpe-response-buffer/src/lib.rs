//! A stand-in: a response goes into a slice.
pub trait ResponseBuffer {
    fn write_at(&mut self, at: usize, b: &[u8]) -> Result<(), ()>;
}
pub struct SliceResponseBuffer<'a>(&'a mut [u8]);
impl<'a> SliceResponseBuffer<'a> {
    pub fn new(b: &'a mut [u8]) -> Self {
        SliceResponseBuffer(b)
    }
}
impl ResponseBuffer for SliceResponseBuffer<'_> {
    fn write_at(&mut self, at: usize, b: &[u8]) -> Result<(), ()> {
        let d = self.0.get_mut(at..at + b.len()).ok_or(())?;
        d.copy_from_slice(b);
        Ok(())
    }
}
