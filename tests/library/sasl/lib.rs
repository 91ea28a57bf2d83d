//! Tests of `krb_sasl`, and of `Kerberos::wrap_in_clear`.
#![tactic(auto)]

#[cfg(test)]
mod krb_sasl_tests;
