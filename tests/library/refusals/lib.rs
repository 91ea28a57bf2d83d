//! Tests of `krb_refusals`.
#![tactic(auto)]

#[cfg(test)]
mod krb_refusals_tests;
