//! A server that `gss-client` speaks to, the sample client of MIT krb5 (package krb5-gss-samples), with a thread for each connection:
//!
//!     cargo run --offline --example gss_server 127.0.0.1:4444 host/server.example.com /etc/krb5.keytab 300 600
//!     gss-client -port 4444 127.0.0.1 host@server.example.com hello
//!
//! The keytab has the service's keys. A file with one key in hex, as `klist -k -K` prints it after 0x, is taken too. Clocks may be wrong
//! by 300 seconds. The server waits for 600 seconds before it admits anybody, twice as long: a token that an earlier process admitted
//! may be ahead by 300, and is then valid for 300 after its own time. That wait may be 0 if no earlier process had this key. After the
//! wait may come `channel:` and the data of a channel's bindings, to which each client is then held. Who needs other rules for messages
//! than those of the RFCs names them at the end (docs/DIFFERENCES.md), or `NONE`.

#[path = "parts/connections.rs"]
mod connections;
#[path = "parts/frames.rs"]
mod frames;
#[path = "parts/keys.rs"]
mod keys;
#[path = "parts/keytab.rs"]
mod keytab;
#[path = "parts/peer.rs"]
mod peer;
#[path = "parts/places.rs"]
mod places;
#[path = "parts/rules.rs"]
mod rules;
#[path = "parts/samples.rs"]
mod samples;
#[path = "parts/service.rs"]
mod service;
#[path = "parts/telling.rs"]
mod telling;
#[path = "parts/wait.rs"]
mod wait;

use menolavuri::Session;
use service::seconds;
use std::process::ExitCode;
use std::{env, error::Error};

type Answer<T> = Result<T, Box<dyn Error + Send + Sync>>;

/// The data of a channel's bindings, where the first word has some, and the words after it.
fn with_channel(words: &[String]) -> (Option<&str>, &[String]) {
    let data = words.first().and_then(|word| word.strip_prefix("channel:"));
    (data, &words[usize::from(data.is_some())..])
}

fn run(arguments: &[String]) -> Answer<()> {
    let [address, service, keys, skew, wait, words @ ..] = arguments else {
        return Err(
            "usage: gss_server ADDRESS SERVICE KEYTAB SKEW WAIT [channel:DATA] [RULE ..]".into(),
        );
    };
    let (channel, words) = with_channel(words);
    let rules = rules::named(words)?;
    let (skew, wait) = (seconds("skew", skew)?, seconds("wait", wait)?);
    let acceptor = service::acceptor(service, keys, skew)?;
    let admit = |token: &[u8]| -> Answer<Session> {
        let mut session = match channel {
            Some(data) => acceptor.accept_bound(token, data.as_bytes())?,
            None => acceptor.accept(token)?,
        };
        if let Some(rules) = rules {
            session.set_rules(rules)?;
        }
        Ok(session)
    };
    let listener = connections::listen(address)?;
    let opens = wait::opening(skew, wait);
    connections::serve_all(&listener, opens, |peer| samples::serve(peer, admit));
    Ok(())
}

fn main() -> ExitCode {
    let arguments: Vec<String> = env::args().skip(1).collect();
    telling::end(run(&arguments))
}
