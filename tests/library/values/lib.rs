//! Tests of octets and values: `krb_der`, `krb_aes`, `krb_crypto`, `sspi_core`, `krb_conf`, `krb_demo`, and the option sets of
//! `krb_context` and its rules.
//!
//! Expected values come from outside: the standards' own examples, and other implementations.
#![tactic(auto)]

#[cfg(test)]
mod krb_aes_tests;
#[cfg(test)]
mod krb_conf_tests;
#[cfg(test)]
mod krb_context_options_tests;
#[cfg(test)]
mod krb_crypto_tests;
#[cfg(test)]
mod krb_demo_tests;
#[cfg(test)]
mod krb_der_tests;
#[cfg(test)]
mod krb_rules_tests;
#[cfg(test)]
mod sspi_core_tests;
