//! A service: its words on the command line, and its acceptor.

use crate::Answer;
use crate::keys::keys;
use menolavuri::Acceptor;
use std::time::Duration;

/// The seconds in a word.
pub fn seconds(what: &str, word: &str) -> Answer<Duration> {
    let count: u32 = word
        .parse()
        .map_err(|_| format!("the {what} is a number of seconds, and not {word:?}"))?;
    Ok(Duration::from_secs(count.into()))
}

/// The acceptor of a service, by the keys that a file has for it. There is one, and so one replay book, for all connections. Tickets
/// live on under the older keys of a keytab.
pub fn acceptor(service: &str, file: &str, skew: Duration) -> Answer<Acceptor> {
    let mut newest: Option<Acceptor> = None;
    for (_, key) in keys(file, service)? {
        let acceptor = Acceptor::new(service, &key, skew).map_err(|error| {
            format!("{service} does not serve by the key in {file}: {error}; a service is named as host/server.example.com")
        })?;
        newest = Some(match newest {
            Some(older) => acceptor.with_older(older),
            None => acceptor,
        });
    }
    newest.ok_or_else(|| format!("{file} has no key").into())
}
