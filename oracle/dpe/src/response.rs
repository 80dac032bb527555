// A stand-in for response.rs: the header and the response with a new handle.
use crate::{context::ContextHandle, error::DpeErrorCode, DpeProfile};
use zerocopy::IntoBytes;
#[repr(C, align(4))]
#[derive(IntoBytes)]
pub struct ResponseHdr {
    pub magic: u32,
    pub status: u32,
    pub profile: DpeProfile,
}
impl ResponseHdr {
    pub fn new(profile: DpeProfile, e: DpeErrorCode) -> ResponseHdr {
        ResponseHdr {
            magic: u32::from_be_bytes(*b"DPER"),
            status: e.get_error_code(),
            profile,
        }
    }
}
#[repr(C, align(4))]
#[derive(IntoBytes)]
pub struct GetProfileResp {
    pub resp_hdr: ResponseHdr,
    pub flags: u32,
}
impl GetProfileResp {
    pub const fn new(profile: DpeProfile, flags: u32, _: u32, _: u32) -> Self {
        GetProfileResp {
            resp_hdr: ResponseHdr {
                magic: 0,
                status: 0,
                profile,
            },
            flags,
        }
    }
}
#[repr(C, align(4))]
#[derive(IntoBytes)]
pub struct NewHandleResp {
    pub resp_hdr: ResponseHdr,
    pub handle: ContextHandle,
}
pub enum Response {
    Error(ResponseHdr),
}
