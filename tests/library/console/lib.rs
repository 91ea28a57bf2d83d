//! Tests of `krb_console`: what the program says to a person.
#![tactic(auto)]

#[cfg(test)]
mod krb_console_tests;
