//! Tests of `krb_ccache`: caches of other implementations are read, written and searched.
#![tactic(auto)]

#[cfg(test)]
mod krb_ccache_tests;
