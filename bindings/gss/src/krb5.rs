//! The calls of MIT krb5's library: the default names of files, the addresses of KDCs in krb5.conf, and the words of its error codes.

use std::ffi::{CStr, CString, c_char, c_int, c_long, c_void};
use std::ptr::{null, null_mut};

/// The error code of a KRB-ERROR with the code 0 (RFC 4120, section 7.5.9): ERROR_TABLE_BASE_krb5 of krb5.h.
const BASE: i32 = -1_765_328_384;
/// How many codes of KRB-ERRORs there are in its table.
const CODES: u32 = 128;

type Texts = *mut *mut c_char;

unsafe extern "C" {
    fn krb5_init_context(to: *mut *mut c_void) -> c_int;
    fn krb5_free_context(context: *mut c_void);
    fn krb5_kt_default_name(context: *mut c_void, to: *mut c_char, room: c_int) -> c_int;
    fn krb5_cc_default_name(context: *mut c_void) -> *const c_char;
    fn krb5_get_error_message(context: *mut c_void, code: c_int) -> *const c_char;
    fn krb5_free_error_message(context: *mut c_void, text: *const c_char);
    fn krb5_get_profile(context: *mut c_void, to: *mut *mut c_void) -> c_int;
    fn profile_release(profile: *mut c_void);
    fn profile_get_values(
        profile: *mut c_void,
        names: *const *const c_char,
        to: *mut Texts,
    ) -> c_long;
    fn profile_get_subsection_names(
        profile: *mut c_void,
        names: *const *const c_char,
        to: *mut Texts,
    ) -> c_long;
    fn profile_free_list(texts: Texts);
}

/// A context of the library, which has read krb5.conf.
pub struct Krb5(*mut c_void);

/// A text of the library's, copied.
unsafe fn copied(text: *const c_char) -> Option<String> {
    if text.is_null() {
        return None;
    }
    // SAFETY: of the caller: the text ends with 0.
    Some(
        unsafe { CStr::from_ptr(text) }
            .to_string_lossy()
            .into_owned(),
    )
}

impl Krb5 {
    /// Returns a context, or nothing if krb5.conf cannot be read.
    pub fn new() -> Option<Krb5> {
        let mut context = null_mut();
        // SAFETY: the context is the library's, and is freed.
        let status = unsafe { krb5_init_context(&mut context) };
        (status == 0).then_some(Krb5(context))
    }

    pub fn default_keytab(&self) -> Option<String> {
        let mut name: [c_char; 1024] = [0; 1024];
        // SAFETY: the name is ours, and ends with 0 if the call returns 0.
        unsafe {
            let status = krb5_kt_default_name(self.0, name.as_mut_ptr(), 1024);
            if status == 0 {
                copied(name.as_ptr())
            } else {
                None
            }
        }
    }

    /// The name of the default credential cache: KRB5CCNAME, which a setuid program does not have, or that of krb5.conf, or
    /// FILE:/tmp/krb5cc_UID.
    pub fn default_cache(&self) -> Option<String> {
        // SAFETY: the text is the context's, and is copied at once.
        unsafe { copied(krb5_cc_default_name(self.0)) }
    }

    /// The realms of krb5.conf, and the values of `kdc` of each, in their order.
    pub fn kdcs(&self) -> Vec<(String, Vec<String>)> {
        let mut profile = null_mut();
        // SAFETY: the profile is the library's, and is released.
        unsafe {
            if krb5_get_profile(self.0, &mut profile) != 0 {
                return Vec::new();
            }
            let realms = texts(profile, profile_get_subsection_names, &["realms"]);
            let kdcs =
                |realm: &String| texts(profile, profile_get_values, &["realms", realm, "kdc"]);
            let all = realms.into_iter().map(|it| (kdcs(&it), it));
            let all = all
                .filter(|it| !it.0.is_empty())
                .map(|(kdcs, realm)| (realm, kdcs));
            let all = all.collect();
            profile_release(profile);
            all
        }
    }
}

impl Drop for Krb5 {
    fn drop(&mut self) {
        // SAFETY: the context is ours.
        unsafe { krb5_free_context(self.0) }
    }
}

type Ask = unsafe extern "C" fn(*mut c_void, *const *const c_char, *mut Texts) -> c_long;

/// The texts that a profile has at a path.
unsafe fn texts(profile: *mut c_void, ask: Ask, path: &[&str]) -> Vec<String> {
    let path: Vec<CString> = path
        .iter()
        .filter_map(|it| CString::new(*it).ok())
        .collect();
    let names: Vec<*const c_char> = path.iter().map(|it| it.as_ptr()).chain([null()]).collect();
    let mut found: Texts = null_mut();
    // SAFETY: the path ends with a null pointer, and so does the list of the library's, which is freed.
    unsafe {
        if ask(profile, names.as_ptr(), &mut found) != 0 || found.is_null() {
            return Vec::new();
        }
        let all = (0..).map_while(|it| copied(*found.add(it))).collect();
        profile_free_list(found);
        all
    }
}

/// The minor status for a KRB-ERROR of this code: the one that MIT's mechanism has for it.
pub fn minor_of(code: u32) -> Option<u32> {
    (code < CODES).then(|| (BASE + code as i32) as u32)
}

/// The code of the KRB-ERROR for which a minor status is.
pub fn code_of(minor: u32) -> Option<u32> {
    let code = (minor as i32).wrapping_sub(BASE) as u32;
    (code < CODES).then_some(code)
}

/// The words of MIT krb5 for a KRB-ERROR, as 'Clock skew too great'.
pub fn words(minor: u32) -> String {
    let code = minor as i32;
    let unknown = || format!("KRB-ERROR {}", code.wrapping_sub(BASE));
    let Some(context) = Krb5::new() else {
        return unknown();
    };
    // SAFETY: the text is the library's, and is freed after it was copied.
    unsafe {
        let text = krb5_get_error_message(context.0, code);
        let words = copied(text);
        krb5_free_error_message(context.0, text);
        words.unwrap_or_else(unknown)
    }
}

#[cfg(test)]
mod tests {
    use super::*;

    #[test]
    fn a_krb_error_has_the_words_of_mit() {
        let minor = minor_of(37).unwrap();
        assert_eq!(words(minor), "Clock skew too great");
        assert_eq!(code_of(minor), Some(37));
        assert_eq!(
            words(minor_of(7).unwrap()),
            "Server not found in Kerberos database"
        );
        assert_eq!(minor_of(128), None);
        assert_eq!(code_of(crate::status::STORE_AWAY), None);
    }
}
