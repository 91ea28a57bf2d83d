//! The types and numbers of RFC 2744 and of MIT krb5's extensions, as `gssapi.h` and `gssapi_ext.h` have them on 64-bit Linux.

use std::ffi::{c_char, c_int, c_void};

#[repr(C)]
#[derive(Clone, Copy)]
pub struct OidDesc {
    pub length: u32,
    pub elements: *const c_void,
}
pub type Oid = *const OidDesc;

// SAFETY: the descriptions that are static point to static octets.
unsafe impl Sync for OidDesc {}

#[repr(C)]
pub struct OidSetDesc {
    pub count: usize,
    pub elements: *mut OidDesc,
}
pub type OidSet = *mut OidSetDesc;

#[repr(C)]
pub struct BufferDesc {
    pub length: usize,
    pub value: *mut c_void,
}
pub type Buffer = *mut BufferDesc;
pub type BufferSet = *mut c_void;

#[repr(C)]
pub struct BindingsDesc {
    pub initiator_type: u32,
    pub initiator: BufferDesc,
    pub acceptor_type: u32,
    pub acceptor: BufferDesc,
    pub data: BufferDesc,
}
pub type Bindings = *const BindingsDesc;

#[repr(C)]
pub struct StoreElement {
    pub key: *const c_char,
    pub value: *const c_char,
}

#[repr(C)]
pub struct StoreDesc {
    pub count: u32,
    pub elements: *mut StoreElement,
}
pub type CredStore = *const StoreDesc;
pub type Iov = *mut c_void;

/// A name, a credential or a context of the mechglue, or of MIT's mechanism.
pub type Name = *mut c_void;
pub type Cred = *mut c_void;
pub type Ctx = *mut c_void;

pub const COMPLETE: u32 = 0;
pub const CONTINUE_NEEDED: u32 = 1;
pub const BAD_BINDINGS: u32 = 4 << 16;
pub const BAD_MIC: u32 = 6 << 16;
pub const NO_CRED: u32 = 7 << 16;
pub const NO_CONTEXT: u32 = 8 << 16;
pub const DEFECTIVE_TOKEN: u32 = 9 << 16;
pub const CREDENTIALS_EXPIRED: u32 = 11 << 16;
pub const CONTEXT_EXPIRED: u32 = 12 << 16;
pub const FAILURE: u32 = 13 << 16;
pub const BAD_QOP: u32 = 14 << 16;
pub const UNAVAILABLE: u32 = 16 << 16;

pub const DELEG_FLAG: u32 = 1;
pub const MUTUAL_FLAG: u32 = 2;
pub const REPLAY_FLAG: u32 = 4;
pub const SEQUENCE_FLAG: u32 = 8;
pub const CONF_FLAG: u32 = 16;
pub const INTEG_FLAG: u32 = 32;
pub const ANON_FLAG: u32 = 64;
pub const PROT_READY_FLAG: u32 = 128;
pub const CHANNEL_BOUND_FLAG: u32 = 2048;
pub const DCE_STYLE: u32 = 0x1000;
pub const DELEG_POLICY_FLAG: u32 = 0x8000;

pub const INITIATE: c_int = 1;
pub const ACCEPT: c_int = 2;
pub const MECH_CODE: c_int = 2;
pub const INDEFINITE: u32 = u32::MAX;
