//! Tests of `krb_initiator`, and of `krb_tgs` and `krb_ap` through it, and of `krb_password_change`.
//!
//! The octets of requests, replies and tokens are those of a second implementation, or were recorded from clients, KDCs and
//! services of others; an answer that was altered in one octet, and ten replies to changes of a password, were made for these
//! tests. They are written line by line, a word and what it says, nearly as `krb_run serve` reads and prints them.
#![tactic(auto)]

#[cfg(test)]
mod clients;
#[cfg(test)]
mod kdc;
#[cfg(test)]
mod krb_initiator_tests;
#[cfg(test)]
mod krb_password_change_tests;
#[cfg(test)]
mod octets;
#[cfg(test)]
mod script;
