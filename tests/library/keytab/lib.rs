//! Tests of `krb_keytab` and `krb_keyring`: files read, written and searched, and their keys at an acceptor.
#![tactic(auto)]

#[cfg(test)]
mod krb_keyring_tests;
#[cfg(test)]
mod krb_keytab_tests;
