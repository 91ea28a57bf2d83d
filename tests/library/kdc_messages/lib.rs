//! Tests of `krb_exchange`.
//!
//! Expected values come from outside: the standards' own examples, and other implementations.
#![tactic(auto)]

#[cfg(test)]
mod krb_exchange_tests;
#[cfg(test)]
mod rows;
