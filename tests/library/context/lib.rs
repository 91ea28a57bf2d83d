//! Tests of `krb_context`: the messages, the calls and the queries of a context.
#![tactic(auto)]

#[cfg(test)]
mod krb_context_tests;
