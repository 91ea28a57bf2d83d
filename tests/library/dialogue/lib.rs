//! Tests of `krb_dialogue`.
//!
//! A conversation is written line by line: a step, with what it brings, what comes next, and what is returned then. The octets are
//! those of a second implementation, or were recorded from KDCs and services of others.
#![tactic(auto)]

#[cfg(test)]
mod conversation;
#[cfg(test)]
mod octets;
#[cfg(test)]
mod tests;
