//! Tests of `krb_entrance`, the library for programs that embed the acceptor.
#![tactic(auto)]

#[cfg(test)]
mod krb_entrance_tests;
