//! Rules by their names, for users who need others than the library begins with.

use crate::Answer;
use menolavuri::Rules;

/// The rules of these names together; `RFC` is all of them, and `NONE` none. Without a name the library's own stay.
pub fn named(words: &[String]) -> Answer<Option<Rules>> {
    let mut rules = None;
    for word in words {
        let named = match word.as_str() {
            "RFC" => Rules::RFC,
            "NONE" => Rules::NONE,
            word => Rules::named(word).ok_or_else(|| format!("there is no rule {word}"))?,
        };
        rules = Some(rules.unwrap_or_default() | named);
    }
    Ok(rules)
}
