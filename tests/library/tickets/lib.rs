//! Tests of `krb_tickets`, and of `krb_dialogue` with tickets.
#![tactic(auto)]

#[cfg(test)]
mod files;
#[cfg(test)]
mod krb_dialogue_tests;
#[cfg(test)]
mod krb_tickets_tests;
