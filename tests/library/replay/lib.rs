//! Tests of `krb_replay`: what a replay gate decides.
#![tactic(auto)]

#[cfg(test)]
mod krb_replay_tests;
