// A stand-in for the command parser: only the three table commands run.
use crate::{
    dpe_instance::{DpeEnv, DpeInstance},
    error::DpeErrorCode,
    response::Response,
    DpeProfile,
};
use caliptra_dpe_response_buffer::ResponseBuffer;
pub mod destroy_context;
pub mod initialize_context;
pub mod rotate_context;
pub use destroy_context::DestroyCtxCmd;
pub use initialize_context::InitCtxCmd;
pub use rotate_context::{RotateCtxCmd, RotateCtxFlags};
pub struct Stub;
impl Stub {
    pub fn execute(&self, _: &mut DpeInstance, _: &mut dyn DpeEnv, _: u32) -> Result<Response, DpeErrorCode> {
        Err(DpeErrorCode::InvalidCommand)
    }
}
pub enum Command<'a> {
    GetProfile(&'a Stub),
    InitCtx(&'a InitCtxCmd),
    DeriveContext(&'a Stub),
    CertifyKey(&'a Stub),
    Sign(&'a Stub),
    RotateCtx(&'a RotateCtxCmd),
    DestroyCtx(&'a DestroyCtxCmd),
    GetCertificateChain(&'a Stub),
    UpdateContextMeasurement(&'a Stub),
}
impl Command<'_> {
    pub fn deserialize(_: DpeProfile, _: &[u8]) -> Result<Command<'_>, DpeErrorCode> {
        Err(DpeErrorCode::InvalidCommand)
    }
}
pub trait CommandExecution {
    fn execute(&self, _: &mut DpeInstance, _: &mut dyn DpeEnv, _: u32) -> Result<Response, DpeErrorCode> {
        Err(DpeErrorCode::InvalidCommand)
    }
    fn execute_serialized(
        &self,
        dpe: &mut DpeInstance,
        env: &mut dyn DpeEnv,
        locality: u32,
        out: &mut dyn ResponseBuffer,
    ) -> Result<usize, DpeErrorCode>;
}
pub struct CommandHdr;
impl CommandHdr {
    pub fn new(_: DpeProfile, _: u32) -> CommandHdr {
        CommandHdr
    }
}
