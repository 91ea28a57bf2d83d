//! A client that logs in at a KDC, and at a message server by the mechanism GSSAPI of SASL (RFC 4752), as POP3 speaks it (RFC 1939,
//! RFC 5034), `sasl_server` or another. It asks for the number of its mails this many times:
//!
//!     cargo run --offline --example sasl_client 127.0.0.1:1110 pop/server.example.com alice@EXAMPLE.COM - 4 5 tcp://127.0.0.1:88 < password
//!
//! After the user comes a file with its key, a keytab or the key in hex, or `-` where its password is to be read from the standard
//! input. 4 is the layer that it asks for: 1 (none), 2 (integrity) or 4 (confidentiality), and 5 how many times it asks. The KDCs, and the
//! rules after them, are those of `initiator`.

#[path = "parts/base64.rs"]
mod base64;
#[path = "parts/kdcs.rs"]
mod kdcs;
#[path = "parts/keys.rs"]
mod keys;
#[path = "parts/keytab.rs"]
mod keytab;
#[path = "parts/layered.rs"]
mod layered;
#[path = "parts/peer.rs"]
mod peer;
#[path = "parts/reach.rs"]
mod reach;
#[path = "parts/rules.rs"]
mod rules;
#[path = "parts/telling.rs"]
mod telling;

use kdcs::about;
use layered::{Connection, LONGEST_MESSAGE};
use menolavuri::{Flags, Initiator, Layer, Next, SaslClient, Session};
use std::process::ExitCode;
use std::{env, error::Error};
use telling::log;

type Answer<T> = Result<T, Box<dyn Error + Send + Sync>>;

fn layer_of(word: &str) -> Answer<Layer> {
    match word {
        "1" => Ok(Layer::None),
        "2" => Ok(Layer::Integrity),
        "4" => Ok(Layer::Confidentiality),
        _ => Err(format!("the layer is 1, 2 or 4, and not {word:?}").into()),
    }
}

/// A token for the server, and its challenge.
fn show(connection: &mut Connection<SaslClient>, token: &[u8]) -> Answer<Vec<u8>> {
    connection.say(&base64::encode(token))?;
    connection.token("+")
}

/// The session, and the server's offer, which is its first challenge once the session is established.
fn reach(
    connection: &mut Connection<SaslClient>,
    mut initiator: Initiator,
    others: &[&str],
) -> Answer<(Session, Vec<u8>)> {
    let mut next = initiator.start()?;
    while next == Next::AskKdc {
        next = kdcs::ask(&mut initiator, others)?;
    }
    connection.say("AUTH GSSAPI")?;
    if !connection.token("+")?.is_empty() {
        return Err("the server says more than it may".into());
    }
    while next == Next::SendToken {
        let challenge = show(connection, &initiator.token()?)?;
        next = initiator.hear(&challenge)?;
    }
    let session = initiator.into_session()?;
    let offer = show(connection, session.answer())?;
    Ok((session, offer))
}

/// The line that answers one that was said, where it begins with `+OK`.
fn ask(connection: &mut Connection<SaslClient>, line: &str) -> Answer<String> {
    connection.say(line)?;
    let answer = connection.line()?;
    match answer.starts_with("+OK") {
        true => Ok(answer),
        false => Err(format!("{line:?} is answered {answer:?}").into()),
    }
}

/// Logs in by the exchange of RFC 4752, section 3.1. From then on the connection is in the layer.
fn log_in(
    connection: &mut Connection<SaslClient>,
    initiator: Initiator,
    others: &[&str],
    layer: Layer,
) -> Answer<()> {
    let (session, offer) = reach(connection, initiator, others)?;
    let service = session.peer().to_owned();
    // The size is that of a layer's messages.
    let most = if layer == Layer::None {
        0
    } else {
        LONGEST_MESSAGE
    };
    let mut client = SaslClient::new(session, layer, most, "")?;
    let answer = client.answer(&offer)?;
    ask(connection, &base64::encode(&answer))?;
    connection.check_read()?;
    connection.end_log_in(None);
    log(&format!(
        "logged in: {service}, layer {:?}",
        client.layer()?
    ));
    if layer != Layer::None {
        connection.begin(client);
    }
    Ok(())
}

fn run(arguments: &[String]) -> Answer<()> {
    let [
        address,
        service,
        user,
        keytab,
        layer,
        count,
        kdcs,
        words @ ..,
    ] = arguments
    else {
        return Err(
            "usage: sasl_client ADDRESS SERVICE USER KEYTAB|- LAYER COUNT KDC[,KDC ..] [RULE ..]"
                .into(),
        );
    };
    let layer = layer_of(layer)?;
    let count: u32 = count
        .parse()
        .map_err(|_| format!("it asks a number of times, and not {count:?}"))?;
    let kdcs: Vec<&str> = kdcs.split(',').collect();
    let mut initiator = Initiator::new(service, "desk", Flags::USUAL)
        .map_err(about(format!("the service {service} is not taken")))?;
    if let Some(rules) = rules::named(words)? {
        initiator.set_rules(rules)?;
    }
    initiator
        .kdc(kdcs[0])
        .map_err(about(format!("the KDC's address {} is not taken", kdcs[0])))?;
    kdcs::identify(&mut initiator, user, keytab)?;
    let mut connection = Connection::new(reach::reach(address)?);
    log(&connection.line()?);
    log_in(&mut connection, initiator, &kdcs[1..], layer)?;
    for _ in 0..count {
        log(&ask(&mut connection, "STAT")?);
    }
    log(&ask(&mut connection, "QUIT")?);
    Ok(())
}

fn main() -> ExitCode {
    let arguments: Vec<String> = env::args().skip(1).collect();
    telling::end(run(&arguments))
}
