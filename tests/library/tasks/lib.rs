//! Tests of `sspi_generator`: tasks, what runs them, and the network that they ask.
#![tactic(auto)]

#[cfg(test)]
mod sspi_generator_tests;
