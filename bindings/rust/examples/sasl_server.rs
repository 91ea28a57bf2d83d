//! A message server that admits clients by the mechanism GSSAPI of SASL (RFC 4752), as POP3 speaks it (RFC 1939, RFC 5034). Its
//! mailboxes are empty. The layers are the library's: what is here carries lines and frames. A thread serves each connection:
//!
//!     cargo run --offline --example sasl_server 127.0.0.1:1110 pop/server.example.com /etc/krb5.keytab 300 600 7
//!
//! The keytab, 300 and 600 are those of `gss_server`. 7 is the sum of the layers that are offered: 1 (none), 2 (integrity), 4
//! (confidentiality). In the first two a mail goes in the clear.

#[path = "parts/base64.rs"]
mod base64;
#[path = "parts/connections.rs"]
mod connections;
#[path = "parts/keys.rs"]
mod keys;
#[path = "parts/keytab.rs"]
mod keytab;
#[path = "parts/layered.rs"]
mod layered;
#[path = "parts/peer.rs"]
mod peer;
#[path = "parts/places.rs"]
mod places;
#[path = "parts/service.rs"]
mod service;
#[path = "parts/telling.rs"]
mod telling;
#[path = "parts/wait.rs"]
mod wait;

use layered::{Connection, LONGEST_MESSAGE};
use menolavuri::{Acceptor, Layer, Layers, SaslServer};
use peer::Peer;
use service::seconds;
use std::process::ExitCode;
use std::{env, error::Error};
use telling::log;

type Answer<T> = Result<T, Box<dyn Error + Send + Sync>>;

/// A token for the client, and its answer.
fn ask(connection: &mut Connection<SaslServer>, token: &[u8]) -> Answer<Vec<u8>> {
    connection.say(&format!("+ {}", base64::encode(token)))?;
    connection.token("")
}

/// The exchange of RFC 4752, section 3.2, from the client's first token on.
fn log_in(
    connection: &mut Connection<SaslServer>,
    acceptor: &Acceptor,
    first: &str,
    layers: Layers,
) -> Answer<(SaslServer, Layer)> {
    let token = match first {
        "" => ask(connection, b"")?,
        _ => base64::decode(first).ok_or("the first token is not in Base64")?,
    };
    let session = acceptor.accept(&token)?;
    let answer = session.answer().to_vec();
    // A client that asks for no answer of the service has nothing to wait for: its offer comes at once.
    if !answer.is_empty() && !ask(connection, &answer)?.is_empty() {
        return Err("the client says more than it may".into());
    }
    // The size is that of a layer's messages, and there are none where no layer is offered.
    let most = if layers == Layer::None.into() {
        0
    } else {
        LONGEST_MESSAGE
    };
    let mut server = SaslServer::new(session, layers, most)?;
    let offer = server.offer()?;
    let user = server.accept(&ask(connection, &offer)?)?;
    let layer = server.layer()?;
    connection.check_read()?;
    // Whom a client may act for is the server's to decide: here for nobody but itself, by its whole name or its short one, `peer`. Short
    // names of realms that differ in the case of letters are the same: trust one of them alone.
    let (client, peer) = (server.session().client(), server.session().peer());
    if user.is_empty() || user == peer || Some(user.as_str()) == client {
        Ok((server, layer))
    } else {
        Err(format!("{peer} may not act for {user}").into())
    }
}

/// Answers the commands of a client. Nothing but its log-in is answered before that.
fn serve(peer: Peer, acceptor: &Acceptor, layers: Layers) -> Answer<()> {
    let mut connection = Connection::new(peer);
    let mut is_in = false;
    connection.say("+OK a server of examples")?;
    loop {
        let line = connection.line()?;
        let (command, argument) = line.split_once(' ').unwrap_or((&line, ""));
        match (command.to_ascii_uppercase().as_str(), is_in) {
            ("CAPA", _) => connection.say("+OK\r\nSASL GSSAPI\r\n.")?,
            ("QUIT", _) => return connection.say("+OK"),
            ("AUTH", false) => {
                authenticate(&mut connection, acceptor, argument, layers)?;
                is_in = true;
            }
            ("STAT", true) => connection.say("+OK 0 0")?,
            ("LIST" | "UIDL", true) => connection.say("+OK\r\n.")?,
            ("NOOP", true) => connection.say("+OK")?,
            _ => connection.say("-ERR")?,
        }
    }
}

/// Admits the client. From then on the connection is in the layer that it chose. A client that is refused gets an error, and then
/// its connection ends. Why is for the log alone.
fn authenticate(
    connection: &mut Connection<SaslServer>,
    acceptor: &Acceptor,
    argument: &str,
    layers: Layers,
) -> Answer<()> {
    let (mechanism, first) = argument.split_once(' ').unwrap_or((argument, ""));
    if !mechanism.eq_ignore_ascii_case("GSSAPI") {
        connection.say("-ERR")?;
        return Err("the client asks for another mechanism than GSSAPI".into());
    }
    let (server, layer) = match log_in(connection, acceptor, first, layers) {
        Ok(agreed) => agreed,
        Err(error) => {
            connection.say("-ERR")?;
            return Err(error);
        }
    };
    connection.say("+OK")?;
    connection.end_log_in(server.session().ends());
    log(&format!(
        "admitted: {}, layer {layer:?}",
        server.session().peer()
    ));
    if layer != Layer::None {
        connection.begin(server);
    }
    Ok(())
}

fn run(arguments: &[String]) -> Answer<()> {
    let [address, service, keys, skew, wait, layers] = arguments else {
        return Err("usage: sasl_server ADDRESS SERVICE KEYTAB SKEW WAIT LAYERS".into());
    };
    let (skew, wait) = (seconds("skew", skew)?, seconds("wait", wait)?);
    let sum = layers.parse().ok();
    let layers = sum
        .and_then(Layers::from_sum)
        .ok_or_else(|| format!("the layers are a sum of 1, 2 and 4, and not {layers:?}"))?;
    let acceptor = service::acceptor(service, keys, skew)?;
    let listener = connections::listen(address)?;
    let opens = wait::opening(skew, wait);
    connections::serve_all(&listener, opens, |peer| serve(peer, &acceptor, layers));
    Ok(())
}

fn main() -> ExitCode {
    let arguments: Vec<String> = env::args().skip(1).collect();
    telling::end(run(&arguments))
}
