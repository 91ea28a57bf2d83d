//! Tests of `krb_threads`, and of a shared book of `krb_shared` under its pauses.
#![tactic(auto)]

#[cfg(test)]
mod krb_shared_tests;
#[cfg(test)]
mod krb_threads_tests;
#[cfg(test)]
mod paused_gate_tests;
