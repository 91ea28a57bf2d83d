//! Tests of `krb_authorization`: the elements of authorization data.
#![tactic(auto)]

#[cfg(test)]
mod krb_authorization_tests;
