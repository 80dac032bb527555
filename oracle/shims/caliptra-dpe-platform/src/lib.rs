//! A stand-in: no call of the table asks the platform.
#[derive(Debug, PartialEq, Eq, Clone, Copy)]
pub struct PlatformError(pub u16);
impl PlatformError {
    pub fn discriminant(&self) -> u16 {
        self.0
    }
}
impl core::fmt::Display for PlatformError {
    fn fmt(&self, f: &mut core::fmt::Formatter<'_>) -> core::fmt::Result {
        f.write_str("platform")
    }
}
impl std::error::Error for PlatformError {}
pub const MAX_CHUNK_SIZE: usize = 2048;
pub trait Platform {
    fn get_auto_init_locality(&mut self) -> Result<u32, PlatformError> {
        Ok(0)
    }
    fn get_vendor_id(&mut self) -> Result<u32, PlatformError> {
        Ok(0)
    }
    fn get_vendor_sku(&mut self) -> Result<u32, PlatformError> {
        Ok(0)
    }
    fn get_certificate_chain(&mut self, _o: u32, _n: u32, _b: &mut [u8; MAX_CHUNK_SIZE]) -> Result<u32, PlatformError> {
        Err(PlatformError(1))
    }
}
