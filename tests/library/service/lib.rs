//! Tests of `krb_text` and `krb_machine`: lines of text, and the service.
#![tactic(auto)]

#[cfg(test)]
mod krb_machine_tests;
#[cfg(test)]
mod krb_text_tests;
