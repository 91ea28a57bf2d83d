//! The user of an initiator, and its requests to KDCs.

use crate::Answer;
use crate::keys::keys;
use crate::telling::complain;
use menolavuri::{Error, Initiator, Next, carrier};
use std::io;
use std::time::SystemTime;

/// Names what an argument is about where the library does not take it.
pub fn about(what: String) -> impl FnOnce(Error) -> String {
    move |error| format!("{what}: {error}")
}

/// Gives the initiator the tickets of a credential cache.
fn hold(initiator: &mut Initiator, file: &str) -> Answer<()> {
    let cache = std::fs::read(file).map_err(|error| format!("{file}: {error}"))?;
    let held = initiator.set_ccache(&cache, SystemTime::now());
    held.map_err(about(format!("the tickets in {file} are not taken")))?;
    Ok(())
}

/// Gives the initiator its identity: the key in a file, the tickets of a credential cache if that is `FILE:` and a path, or the password on
/// the standard input if that is `-`.
pub fn identify(initiator: &mut Initiator, user: &str, file: &str) -> Answer<()> {
    if let Some(cache) = file.strip_prefix("FILE:") {
        return hold(initiator, cache);
    }
    let (name, realm) = user
        .rsplit_once('@')
        .ok_or_else(|| format!("the user {user} has no realm: alice@EXAMPLE.COM has one"))?;
    let about_user = about(format!("the user {user} is not taken"));
    if file != "-" {
        let key = keys(file, user)?.pop();
        let (etype, key) = key.ok_or_else(|| format!("{file} has no key"))?;
        return Ok(initiator
            .key(name, realm, etype, &key)
            .map_err(about_user)?);
    }
    let mut line = String::new();
    if io::stdin().read_line(&mut line)? == 0 {
        return Err("the password is the first line of the standard input, which is empty".into());
    }
    let password = line.trim_end_matches(['\r', '\n']);
    Ok(initiator
        .password(name, realm, password)
        .map_err(about_user)?)
}

/// Sends the initiator's request to the KDC that it names, otherwise to the others, and takes the answer.
pub fn ask(initiator: &mut Initiator, others: &[&str]) -> Answer<Next> {
    let (url, request) = (initiator.url()?, initiator.request()?);
    let urls = [url.as_str()].into_iter().chain(others.iter().copied());
    match carrier::carry(&url, &request, urls) {
        Ok(answer) => Ok(initiator.answer(&answer)?),
        Err(error) => {
            complain(&error.to_string());
            Ok(initiator.fault(1)?)
        }
    }
}
