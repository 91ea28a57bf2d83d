//! Tests of `krb_reasons`: why lines are bad.
#![tactic(auto)]

#[cfg(test)]
mod krb_reasons_tests;
