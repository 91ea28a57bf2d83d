//! The ticket that a client hands on (RFC 4121, section 4.1.1). After the library admitted the client MIT's mechanism opens the same token
//! by the same keytab, and has the ticket in a credential of its own. Who is admitted is decided before, and without it.

use crate::abi::*;
use crate::behind::*;
use crate::oids::Specials;
use crate::say;
use std::ffi::{CString, c_char};
use std::ptr::null_mut;

/// A credential store of one keytab, and of no replay cache.
struct Store {
    keytab: CString,
}

impl Store {
    fn elements(&self) -> [StoreElement; 2] {
        let element = |key: *const c_char, value: *const c_char| StoreElement { key, value };
        [
            element(c"keytab".as_ptr(), self.keytab.as_ptr()),
            element(c"rcache".as_ptr(), c"none:".as_ptr()),
        ]
    }
}

/// A credential of MIT's mechanism that accepts by this keytab.
unsafe fn acceptor(keytab: &str) -> Option<Cred> {
    let store = Store {
        keytab: CString::new(keytab).ok()?,
    };
    let (mut minor, mut cred) = (0, null_mut());
    let mut elements = store.elements();
    let store = StoreDesc {
        count: elements.len() as u32,
        elements: elements.as_mut_ptr(),
    };
    // SAFETY: the store and the set live as long as the call.
    let status = unsafe {
        let mut specials = Specials::of(null_mut());
        gss_acquire_cred_from(
            &mut minor,
            null_mut(),
            INDEFINITE,
            &mut specials.set(),
            ACCEPT,
            &store,
            &mut cred,
            null_mut(),
            null_mut(),
        )
    };
    (status == COMPLETE).then_some(cred)
}

/// The credential that the client of this token delegates, as MIT's mechanism has it.
pub unsafe fn of(keytab: &str, token: Buffer, bindings: Bindings) -> Option<Cred> {
    let (mut minor, mut ctx, mut delegated, mut flags) = (0, null_mut(), null_mut(), 0);
    let mut output = BufferDesc::EMPTY;
    // SAFETY: of the caller; what is made here is given back.
    unsafe {
        let mut cred = acceptor(keytab)?;
        let status = gss_accept_sec_context(
            &mut minor,
            &mut ctx,
            cred,
            token,
            bindings,
            null_mut(),
            null_mut(),
            &mut output,
            &mut flags,
            null_mut(),
            &mut delegated,
        );
        let mut scratch = 0;
        gss_release_buffer(&mut scratch, &mut output);
        gss_delete_sec_context(&mut scratch, &mut ctx, null_mut());
        gss_release_cred(&mut scratch, &mut cred);
        if status != COMPLETE {
            say!("MIT's mechanism does not take the delegated ticket: {status:#x} {minor:#x}");
        }
    }
    (!delegated.is_null()).then_some(delegated)
}
