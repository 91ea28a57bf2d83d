//! Numbers in the order in which they are opened, with the verdict on each.

use krb_context::NumberVerdict::{self, Fresh, Old, Repeated};
use krb_context::NumberWindow;
use std::test::Fail;

static NUMBERS: [(u32, NumberVerdict); 5] = [
    (100, Fresh),
    (160, Fresh),
    (97, Fresh),
    (96, Old),
    (160, Repeated),
];

/// Numbers that go round at 2^32.
static ROUND: [(u32, NumberVerdict); 4] = [
    (4294967295, Fresh),
    (0, Fresh),
    (4294967295, Repeated),
    (2147483648, Old),
];

fn numbers() -> &'static [(u32, NumberVerdict)] {
    &NUMBERS
}

fn round() -> &'static [(u32, NumberVerdict)] {
    &ROUND
}

/// Whether a new window judges each number so, and notes the fresh ones.
fn judges(rows: &[(u32, NumberVerdict)]) -> bool {
    let mut window = NumberWindow::new();
    for (number, wanted) in rows {
        let verdict = window.judge(*number);
        if verdict != *wanted {
            return false;
        }
        if let Fresh = verdict {
            window.note(*number);
        }
    }
    true
}

#[test]
fn a_window_tells_old_and_repeated_numbers(rt: HostRuntime) -> Result<(), Fail> {
    assert!(rt; judges(numbers()));
    assert!(rt; judges(round()));
    Ok(())
}
