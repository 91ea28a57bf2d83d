//! Tests of `krb_as` and `krb_replies`: AS exchanges over recorded replies.
//!
//! Expected values come from outside: the standards' own examples, and other implementations.
#![tactic(auto)]

#[cfg(test)]
mod krb_as_sending_tests;
#[cfg(test)]
mod krb_as_tests;
#[cfg(test)]
mod krb_replies_tests;
#[cfg(test)]
mod krb_rules_tests;
#[cfg(test)]
mod rows;
