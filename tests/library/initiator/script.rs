//! Scripts of tests, line by line.

/// Lines that are left. Each is a word, a space, and what it says.
#[derive(Clone, Copy)]
pub struct Script {
    rest: &'static str,
}

impl Script {
    pub fn new(text: &'static str) -> Script {
        Script { rest: text }
    }

    pub fn rest(&self) -> &'static str {
        self.rest
    }

    /// The value of the next line, if it begins with the word; it is then taken.
    pub fn take(&mut self, word: &str) -> Option<&'static str> {
        let (line, rest) = self.rest.split_once('\n').unwrap_or((self.rest, ""));
        let (first, says) = line.split_once(' ')?;
        if first != word {
            return None;
        }
        self.rest = rest;
        Some(says)
    }
}
