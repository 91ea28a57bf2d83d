//! Tests of `krb_messages`.
#![tactic(auto)]

#[cfg(test)]
mod krb_messages_tests;
