//! Tests of the acceptor: `krb_server`, and `krb_admission` through it.
#![tactic(auto)]

#[cfg(test)]
mod krb_server_tests;
