//! A client that logs in at a KDC, shows its ticket to a server of MIT's sample protocol (`gss-server`, or the example `gss_server`),
//! and sends it messages:
//!
//!     cargo run --offline --example initiator 127.0.0.1:4444 host/server.example.com alice@EXAMPLE.COM - usual tcp://127.0.0.1:88 < password
//!     cargo run --offline --example initiator 127.0.0.1:4444 host/server.example.com alice@EXAMPLE.COM keytab one-way udp://127.0.0.1:88
//!     cargo run --offline --example initiator 127.0.0.1:4444 host/server.example.com alice@EXAMPLE.COM FILE:/tmp/krb5cc_0 usual udp://127.0.0.1:88
//!
//! After the user comes a file with its key, a keytab or the key in hex, or `FILE:` and the path of a credential cache, as KRB5CCNAME has
//! it, or `-` if its password is to be read from the standard input. `usual` asks the server to show who it is, `one-way` does not, and
//! with `dce-style` the client sends a third leg. The KDCs are
//! asked in turn, with commas between them, until one answers. The client goes by the RFCs. Who needs other rules names them after the
//! KDCs (docs/DIFFERENCES.md), or `NONE`: then a recorded log-in can be played back to it.

#[path = "parts/frames.rs"]
mod frames;
#[path = "parts/kdcs.rs"]
mod kdcs;
#[path = "parts/keys.rs"]
mod keys;
#[path = "parts/keytab.rs"]
mod keytab;
#[path = "parts/peer.rs"]
mod peer;
#[path = "parts/reach.rs"]
mod reach;
#[path = "parts/rules.rs"]
mod rules;
#[path = "parts/sample_client.rs"]
mod sample_client;
#[path = "parts/telling.rs"]
mod telling;

use kdcs::about;
use menolavuri::{Flags, Initiator};
use std::process::ExitCode;
use std::{env, error::Error};
use telling::log;

type Answer<T> = Result<T, Box<dyn Error + Send + Sync>>;

/// The request to the server.
fn flags(word: &str) -> Answer<Flags> {
    match word {
        "usual" => Ok(Flags::USUAL),
        "one-way" => Ok(Flags::USUAL.without(Flags::MUTUAL_AUTH)),
        "dce-style" => Ok(Flags::USUAL | Flags::USE_DCE_STYLE),
        _ => Err(format!(
            "what is asked of the server is usual, one-way or dce-style, and not {word:?}"
        )
        .into()),
    }
}

fn run(arguments: &[String]) -> Answer<()> {
    let [address, service, user, keytab, asked, kdcs, words @ ..] = arguments else {
        return Err("usage: initiator ADDRESS SERVICE USER KEYTAB|FILE:CACHE|- usual|one-way|dce-style KDC[,KDC ..] [RULE ..]".into());
    };
    let kdcs: Vec<&str> = kdcs.split(',').collect();
    let mut initiator = Initiator::new(service, "desk", flags(asked)?)
        .map_err(about(format!("the service {service} is not taken")))?;
    if let Some(rules) = rules::named(words)? {
        initiator.set_rules(rules)?;
    }
    initiator
        .kdc(kdcs[0])
        .map_err(about(format!("the KDC's address {} is not taken", kdcs[0])))?;
    kdcs::identify(&mut initiator, user, keytab)?;
    let (mut session, mut server) = sample_client::log_in(initiator, &kdcs[1..], address)?;
    log(&format!("logged in: {}", session.peer()));
    for text in ["hello", "how late is it?", "good bye"] {
        sample_client::say(&mut session, text.as_bytes(), &mut server)?;
        log(&format!("{} octets are answered", text.len()));
    }
    sample_client::take_leave(&mut server)
}

fn main() -> ExitCode {
    let arguments: Vec<String> = env::args().skip(1).collect();
    telling::end(run(&arguments))
}
