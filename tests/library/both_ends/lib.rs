//! Sessions of an initiator and an acceptor that meet the premises of the laws of `krb_laws_ends`, `krb_laws_origin` and
//! `krb_laws_service`.
//!
//! The octets of replies and tokens are those of a second implementation.
#![tactic(auto)]

#[cfg(test)]
mod krb_ap_tests;
#[cfg(test)]
mod krb_ends_tests;
#[cfg(test)]
mod krb_origins_tests;
#[cfg(test)]
mod krb_served_tests;
