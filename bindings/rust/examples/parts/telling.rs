//! The output of a program: lines of its log, and why it failed, in words that a person can act on.

use crate::Answer;
use std::io::{self, Write};
use std::process::ExitCode;

/// A text with all escaped that is not printed: what a peer chose can neither begin another line nor command a terminal.
pub fn escaped(text: &str) -> String {
    let as_shown = |letter| match letter {
        '"' | '\'' | '\\' => String::from(letter),
        letter => letter.escape_debug().to_string(),
    };
    text.chars().map(as_shown).collect()
}

/// Writes one line to the log. A failure to write ends no connection.
#[allow(dead_code)] // carry has no log
pub fn log(words: &str) {
    let line = escaped(words) + "\n";
    let _ = io::stdout().write_all(line.as_bytes());
}

/// Tells a failure.
pub fn complain(words: &str) {
    let line = escaped(words) + "\n";
    let _ = io::stderr().write_all(line.as_bytes());
}

/// How a program ends: where it failed, it tells why.
pub fn end(result: Answer<()>) -> ExitCode {
    match result {
        Ok(()) => ExitCode::SUCCESS,
        Err(error) => {
            complain(&error.to_string());
            ExitCode::FAILURE
        }
    }
}

#[cfg(test)]
mod tests {
    use super::*;

    #[test]
    fn a_name_writes_no_line_and_commands_no_terminal() {
        let rows = [
            ("alice@example.com", "alice@example.com"),
            ("a\r\nadmitted: root", r"a\r\nadmitted: root"),
            ("\u{1b}[2J\0\u{7f}\u{9b}", r"\u{1b}[2J\0\u{7f}\u{9b}"),
            ("a\u{2028}b\u{202e}c", r"a\u{2028}b\u{202e}c"),
            (r#"DOMAIN\é "x" 'y'"#, r#"DOMAIN\é "x" 'y'"#),
        ];
        for (name, shown) in rows {
            assert_eq!(escaped(name), shown);
        }
    }
}
