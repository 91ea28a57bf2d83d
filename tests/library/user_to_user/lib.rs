//! Tests of user-to-user at the acceptor: `krb_as`, `krb_user_to_user` and `krb_server`.
//!
//! The octets of requests, replies and tokens are those of a second implementation.
#![tactic(auto)]

#[cfg(test)]
mod kdc;
#[cfg(test)]
mod krb_as_credentials_tests;
#[cfg(test)]
mod krb_server_tests;
#[cfg(test)]
mod krb_user_to_user_tests;
#[cfg(test)]
mod rows;
#[cfg(test)]
mod services;
