//! The name of an acceptor's keytab.

use crate::config::variable;
use crate::krb5::Krb5;
use std::sync::{Mutex, OnceLock, PoisonError};

/// The name that gsskrb5_register_acceptor_identity gave.
static REGISTERED: Mutex<Option<String>> = Mutex::new(None);
static DEFAULT: OnceLock<String> = OnceLock::new();

/// Takes the name that a program registers; none if it is empty.
pub fn register(name: &str) {
    let name = (!name.is_empty()).then(|| name.to_owned());
    *REGISTERED.lock().unwrap_or_else(PoisonError::into_inner) = name;
}

/// The name in krb5.conf, or MIT krb5's own default, once for the process.
fn default_of_mit() -> String {
    let name = Krb5::new().and_then(|it| it.default_keytab());
    name.unwrap_or_else(|| "/etc/krb5.keytab".into())
}

/// The name of the keytab, the first that there is: of the credential's store, of the settings, the one that the program registered, of
/// KRB5_KTNAME, which a setuid program does not have, of krb5.conf, /etc/krb5.keytab.
pub fn name(stored: Option<&str>, settings: Option<&str>) -> String {
    let given = stored.or(settings).map(str::to_owned);
    given
        .or_else(|| {
            REGISTERED
                .lock()
                .unwrap_or_else(PoisonError::into_inner)
                .clone()
        })
        .or_else(|| variable("KRB5_KTNAME"))
        .unwrap_or_else(|| DEFAULT.get_or_init(default_of_mit).clone())
}

/// The path of a keytab's name. A keytab that is not a file has none, and so nobody is admitted.
pub fn path(name: &str) -> &str {
    let bare = name
        .strip_prefix("FILE:")
        .or_else(|| name.strip_prefix("WRFILE:"));
    bare.unwrap_or(name)
}

#[cfg(test)]
mod tests {
    use super::*;

    #[test]
    fn a_name_has_a_path() {
        assert_eq!(path("FILE:/etc/krb5.keytab"), "/etc/krb5.keytab");
        assert_eq!(path("WRFILE:/x"), "/x");
        assert_eq!(path("/x"), "/x");
        assert_eq!(path("MEMORY:x"), "MEMORY:x");
        assert_eq!(name(Some("/a"), Some("/b")), "/a");
        assert_eq!(name(None, Some("/b")), "/b");
    }
}
