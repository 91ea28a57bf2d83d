//! Tests of `krb_kdc`: what it accepts, what it replies to single requests, and initiators that get their tickets from it.
//!
//! The octets of requests, replies and tokens are those of a second implementation.
#![tactic(auto)]

#[cfg(test)]
mod krb_kdc_tests;
