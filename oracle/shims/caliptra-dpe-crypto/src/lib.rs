//! A stand-in: only random bytes are ever asked for.
#[derive(Debug, PartialEq, Eq, Clone, Copy)]
pub struct CryptoError(pub u16);
impl CryptoError {
    pub fn discriminant(&self) -> u16 {
        self.0
    }
}
impl core::fmt::Display for CryptoError {
    fn fmt(&self, f: &mut core::fmt::Formatter<'_>) -> core::fmt::Result {
        f.write_str("crypto")
    }
}
impl std::error::Error for CryptoError {}
pub struct Digest(Vec<u8>);
impl Digest {
    pub fn as_slice(&self) -> &[u8] {
        &self.0
    }
}
pub trait Hasher {
    fn initialize(&mut self) -> Result<(), CryptoError>;
    fn update(&mut self, b: &[u8]) -> Result<(), CryptoError>;
    fn finish(&mut self) -> Result<Digest, CryptoError>;
}
pub trait CryptoSuite {
    fn rand_bytes(&mut self, dst: &mut [u8]) -> Result<(), CryptoError>;
    fn hash_all(&mut self, _: &[&[u8]]) -> Result<Digest, CryptoError> {
        Err(CryptoError(1))
    }
    fn hasher(&mut self) -> Result<&mut dyn Hasher, CryptoError> {
        Err(CryptoError(1))
    }
}
