//! Tests of `krb_requests` and `krb_authenticators`, which make a client's requests.
//!
//! Expected values come from outside: the standards' own examples, and other implementations.
#![tactic(auto)]

#[cfg(test)]
mod krb_authenticators_tests;
#[cfg(test)]
mod krb_requests_tests;
#[cfg(test)]
mod rows;
