//! The GSS-API of MIT krb5 (RFC 2744), as far as it is measured.

use std::ffi::{c_int, c_void};
use std::ops::Deref;
use std::{error, fmt, ptr, slice};

/// The client asks for an answer.
pub const MUTUAL: u32 = 2;

const INDEFINITE: u32 = u32::MAX;
const ACCEPT: c_int = 2;
/// The bits of a status that are an error.
const ERRORS: u32 = 0xffff_0000;

/// A handle of the library.
type Handle = *mut c_void;

/// `gss_buffer_desc`.
#[repr(C)]
struct Buffer {
    length: usize,
    value: *mut c_void,
}

#[link(name = "gssapi_krb5")]
unsafe extern "C" {
    static GSS_KRB5_NT_PRINCIPAL_NAME: Handle;

    fn gss_import_name(
        minor: *mut u32,
        text: *const Buffer,
        kind: Handle,
        name: *mut Handle,
    ) -> u32;
    fn gss_release_name(minor: *mut u32, name: *mut Handle) -> u32;
    fn gss_acquire_cred(
        minor: *mut u32,
        name: Handle,
        time: u32,
        mechanisms: Handle,
        usage: c_int,
        credential: *mut Handle,
        actual_mechanisms: *mut Handle,
        actual_time: *mut u32,
    ) -> u32;
    fn gss_release_cred(minor: *mut u32, credential: *mut Handle) -> u32;
    fn gss_init_sec_context(
        minor: *mut u32,
        credential: Handle,
        context: *mut Handle,
        target: Handle,
        mechanism: Handle,
        flags: u32,
        time: u32,
        bindings: Handle,
        input: *const Buffer,
        actual_mechanism: *mut Handle,
        output: *mut Buffer,
        actual_flags: *mut u32,
        actual_time: *mut u32,
    ) -> u32;
    fn gss_accept_sec_context(
        minor: *mut u32,
        context: *mut Handle,
        credential: Handle,
        input: *const Buffer,
        bindings: Handle,
        source: *mut Handle,
        mechanism: *mut Handle,
        output: *mut Buffer,
        flags: *mut u32,
        time: *mut u32,
        delegated: *mut Handle,
    ) -> u32;
    fn gss_delete_sec_context(minor: *mut u32, context: *mut Handle, output: *mut Buffer) -> u32;
    fn gss_wrap(
        minor: *mut u32,
        context: Handle,
        sealed: c_int,
        quality: u32,
        input: *const Buffer,
        actual_sealed: *mut c_int,
        output: *mut Buffer,
    ) -> u32;
    fn gss_unwrap(
        minor: *mut u32,
        context: Handle,
        input: *const Buffer,
        output: *mut Buffer,
        sealed: *mut c_int,
        quality: *mut u32,
    ) -> u32;
    fn gss_get_mic(
        minor: *mut u32,
        context: Handle,
        quality: u32,
        message: *const Buffer,
        token: *mut Buffer,
    ) -> u32;
    fn gss_verify_mic(
        minor: *mut u32,
        context: Handle,
        message: *const Buffer,
        token: *const Buffer,
        quality: *mut u32,
    ) -> u32;
    fn gss_release_buffer(minor: *mut u32, buffer: *mut Buffer) -> u32;
}

/// A call that the library refuses.
#[derive(Clone, Copy, Debug)]
pub struct Refused {
    call: &'static str,
    major: u32,
    minor: u32,
}

impl fmt::Display for Refused {
    fn fmt(&self, f: &mut fmt::Formatter) -> fmt::Result {
        let Refused { call, major, minor } = self;
        write!(f, "{call} refuses: {major:#x}, {minor}")
    }
}

impl error::Error for Refused {}

/// Makes a call, which is given where its minor status goes.
fn done(call: &'static str, make: impl FnOnce(&mut u32) -> u32) -> Result<(), Refused> {
    let mut minor = 0;
    match make(&mut minor) {
        major if major & ERRORS == 0 => Ok(()),
        major => Err(Refused { call, major, minor }),
    }
}

/// The octets of a slice, which a call reads alone.
fn input(octets: &[u8]) -> Buffer {
    Buffer {
        length: octets.len(),
        value: octets.as_ptr().cast_mut().cast(),
    }
}

/// Octets that the library made.
pub struct Octets(Buffer);

// SAFETY: the octets are memory that nobody else has and that nobody writes to.
unsafe impl Send for Octets {}
// SAFETY: as above.
unsafe impl Sync for Octets {}

impl Octets {
    const NONE: Octets = Octets(Buffer {
        length: 0,
        value: ptr::null_mut(),
    });
}

impl Deref for Octets {
    type Target = [u8];

    fn deref(&self) -> &[u8] {
        if self.0.value.is_null() {
            return &[];
        }
        // SAFETY: the library made this many octets there, and they stay until they are dropped.
        unsafe { slice::from_raw_parts(self.0.value.cast(), self.0.length) }
    }
}

impl Drop for Octets {
    fn drop(&mut self) {
        // SAFETY: the buffer is empty, or one that the library made.
        unsafe { gss_release_buffer(&mut 0, &mut self.0) };
    }
}

/// A name.
pub struct Name(Handle);

// SAFETY: calls read a name, and none changes it.
unsafe impl Sync for Name {}

impl Name {
    /// The name of a principal.
    pub fn new(text: &str) -> Result<Name, Refused> {
        let mut name = Name(ptr::null_mut());
        // SAFETY: the text is a slice, and the name is empty.
        done("gss_import_name", |minor| unsafe {
            let text = input(text.as_bytes());
            gss_import_name(minor, &text, GSS_KRB5_NT_PRINCIPAL_NAME, &mut name.0)
        })?;
        Ok(name)
    }
}

impl Drop for Name {
    fn drop(&mut self) {
        // SAFETY: the name is ours.
        unsafe { gss_release_name(&mut 0, &mut self.0) };
    }
}

/// A service's credential.
pub struct Credential(Handle);

impl Credential {
    pub fn acquire(service: &Name) -> Result<Credential, Refused> {
        let mut credential = Credential(ptr::null_mut());
        let none = ptr::null_mut();
        // SAFETY: the name is one that was imported, and the credential is empty.
        done("gss_acquire_cred", |minor| unsafe {
            gss_acquire_cred(
                minor,
                service.0,
                INDEFINITE,
                none,
                ACCEPT,
                &mut credential.0,
                ptr::null_mut(),
                ptr::null_mut(),
            )
        })?;
        Ok(credential)
    }
}

impl Drop for Credential {
    fn drop(&mut self) {
        // SAFETY: the credential is ours.
        unsafe { gss_release_cred(&mut 0, &mut self.0) };
    }
}

/// An end of a connection.
pub struct Context(Handle);

impl Drop for Context {
    fn drop(&mut self) {
        // SAFETY: the context is ours.
        unsafe { gss_delete_sec_context(&mut 0, &mut self.0, ptr::null_mut()) };
    }
}

/// A client's end, and its token for the service.
pub fn begin(service: &Name, flags: u32) -> Result<(Context, Octets), Refused> {
    let (mut context, mut token) = (Context(ptr::null_mut()), Octets::NONE);
    let none = ptr::null_mut();
    // SAFETY: the name is one that was imported, and the context and the token are empty.
    done("gss_init_sec_context", |minor| unsafe {
        gss_init_sec_context(
            minor,
            none,
            &mut context.0,
            service.0,
            none,
            flags,
            0,
            none,
            ptr::null(),
            ptr::null_mut(),
            &mut token.0,
            ptr::null_mut(),
            ptr::null_mut(),
        )
    })?;
    Ok((context, token))
}

/// The service's end with a client that is admitted. Its name and the answer to it are made, too.
pub fn accept(credential: &Credential, token: &[u8]) -> Result<Context, Refused> {
    let (mut context, mut client) = (Context(ptr::null_mut()), Name(ptr::null_mut()));
    let mut answer = Octets::NONE;
    // SAFETY: the credential is one that was acquired, the token is a slice, and the others are empty.
    done("gss_accept_sec_context", |minor| unsafe {
        gss_accept_sec_context(
            minor,
            &mut context.0,
            credential.0,
            &input(token),
            ptr::null_mut(),
            &mut client.0,
            ptr::null_mut(),
            &mut answer.0,
            ptr::null_mut(),
            ptr::null_mut(),
            ptr::null_mut(),
        )
    })?;
    Ok(context)
}

impl Context {
    /// Octets that a call makes of others.
    fn make(
        call: &'static str,
        make: impl FnOnce(&mut u32, *mut Buffer) -> u32,
    ) -> Result<Octets, Refused> {
        let mut made = Octets::NONE;
        done(call, |minor| make(minor, &mut made.0))?;
        Ok(made)
    }

    /// Seals a text.
    pub fn wrap(&mut self, text: &[u8]) -> Result<Octets, Refused> {
        // SAFETY: the context is ours, and the text is a slice.
        Context::make("gss_wrap", |minor, out| unsafe {
            gss_wrap(minor, self.0, 1, 0, &input(text), ptr::null_mut(), out)
        })
    }

    /// Opens a message of the other end.
    pub fn unwrap(&mut self, message: &[u8]) -> Result<Octets, Refused> {
        // SAFETY: the context is ours, and the message is a slice.
        Context::make("gss_unwrap", |minor, out| unsafe {
            let message = input(message);
            gss_unwrap(
                minor,
                self.0,
                &message,
                out,
                ptr::null_mut(),
                ptr::null_mut(),
            )
        })
    }

    /// A MIC over a text.
    pub fn mic(&mut self, text: &[u8]) -> Result<Octets, Refused> {
        // SAFETY: the context is ours, and the text is a slice.
        Context::make("gss_get_mic", |minor, out| unsafe {
            gss_get_mic(minor, self.0, 0, &input(text), out)
        })
    }

    /// Verifies the other end's MIC over a text.
    pub fn verify(&mut self, mic: &[u8], text: &[u8]) -> Result<(), Refused> {
        // SAFETY: the context is ours, and the others are slices.
        done("gss_verify_mic", |minor| unsafe {
            gss_verify_mic(minor, self.0, &input(text), &input(mic), ptr::null_mut())
        })
    }
}
