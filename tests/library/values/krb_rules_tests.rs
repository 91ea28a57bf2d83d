//! The rules of a context by the numbers that programs in other languages name them by.

use bitflags::Flags;
use krb_context::Rules;
use std::rt::HostRuntime;

/// A name, and its bit.
static NAMED: [(&str, u32); 17] = [
    ("AS_REP_TAGGED_26", 0x1),
    ("NO_PREAUTHENTICATION", 0x2),
    ("SUITE_OF_EACH_KEY", 0x4),
    ("SUBKEY_FLAG_BY_ORIGIN", 0x8),
    ("FIRST_NUMBER_AS_SHOWN", 0x10),
    ("AP_REP_WITHOUT_SUBKEY", 0x20),
    ("THIRD_LEG_BY_VALUE", 0x40),
    ("ONE_WAY_IS_SETTLED", 0x80),
    ("EXTRA_COUNT_BY_TOKEN", 0x100),
    ("NAMES_BY_COMPONENTS", 0x200),
    ("CLIENTS_OF_ANY_NAME", 0x400),
    ("RECORDS_BY_TAG", 0x800),
    ("FRESH_REPLIES", 0x10000),
    ("ANSWERS_ITS_AUTHENTICATOR", 0x20000),
    ("VALID_TICKETS", 0x40000),
    ("CHECKED_TRANSIT", 0x80000),
    ("BOUND_TO_ITS_CHANNEL", 0x100000),
];

fn named() -> &'static [(&'static str, u32)] {
    &NAMED
}

#[test]
fn a_rule_has_its_bit(rt: HostRuntime) {
    for (name, bit) in named() {
        let rule = Rules::from_bits_retain(*bit);
        assert!(rt; Rules::from_name(name) == Some(rule), "{name}");
        assert!(rt; Rules::rfc().has(rule), "{name}");
        assert!(rt; !Rules::none().has(rule), "{name}");
    }
}

#[test]
fn the_rules_of_the_rfcs_are_all_that_have_a_name(rt: HostRuntime) {
    let all = named().iter().fold(0, |bits, (_, bit)| bits | bit);
    assert_eq!(rt; Rules::rfc().bits(), all);
    assert_eq!(rt; Rules::all().bits(), all);
    assert_eq!(rt; Rules::none().bits(), 0);
}
