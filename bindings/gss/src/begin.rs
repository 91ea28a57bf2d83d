//! The library's initiator from a credential cache to its first token: what it needs, and the requests that it has carried to KDCs.

use crate::abi::*;
use crate::cache::{self, Source};
use crate::kdcs::Kdcs;
use crate::krb5::{self, Krb5};
use crate::names::machine;
use crate::oids::{KRB5, octets};
use crate::status::Refused;
use crate::{config, say, target, trace};
use menolavuri::{Cause, Error, Flags, Initiator, Next, carrier};
use std::time::{Duration, SystemTime};

/// The request of a program.
pub struct Wanted<'a> {
    /// The client of the credential, as "alice@EXAMPLE.COM".
    pub client: &'a str,
    /// Where the client's tickets are.
    pub source: &'a Source,
    /// The name of the service.
    pub target: &'a str,
    /// The flags of RFC 2744.
    pub flags: u32,
    /// The data of the channel's bindings.
    pub bindings: Option<&'a [u8]>,
}

/// An initiator that was started, and has sent nothing yet.
pub struct Ready {
    pub initiator: Initiator,
    pub service: String,
    pub next: Next,
    kdcs: Kdcs,
    held: Held,
}

/// A client's tickets.
struct Held {
    /// The client, as "alice@EXAMPLE.COM".
    client: String,
    /// The path of its cache.
    path: String,
}

/// How often a cache is read if somebody writes to it meanwhile, and the pause before the next time.
const READINGS: usize = 3;
const PAUSE: Duration = Duration::from_millis(50);

/// The code for the library if no KDC replied.
const NO_REPLY: u32 = 1;

/// The request to the library for these flags.
fn flags_of(flags: u32) -> Flags {
    let pairs = [
        (MUTUAL_FLAG, Flags::MUTUAL_AUTH),
        (REPLAY_FLAG, Flags::REPLAY_DETECT),
        (SEQUENCE_FLAG, Flags::SEQUENCE_DETECT),
        (CONF_FLAG, Flags::CONFIDENTIALITY),
        (INTEG_FLAG, Flags::INTEGRITY),
    ];
    let asked = pairs.iter().filter(|it| flags & it.0 != 0);
    asked.fold(Flags::NONE, |all, it| all | it.1)
}

/// The service that a name is of, if the client's own KDC has it or finds its realm.
fn service_of(wanted: &Wanted<'_>) -> Result<String, String> {
    let it = target::of(wanted.target).ok_or("the target is no service of a host")?;
    let own = wanted.client.rsplit_once('@').map_or("", |it| it.1);
    if it.realm.is_empty() || it.realm == own {
        return Ok(it.service);
    }
    Err(format!("the target is of the realm {}", it.realm))
}

impl Held {
    /// Checks that a cache still is the client's.
    fn check(&self, file: &[u8]) -> Result<(), String> {
        match cache::client(file).filter(|it| *it != self.client) {
            Some(other) => Err(format!("{} is the cache of {other}", self.path)),
            None => Ok(()),
        }
    }

    /// Gives an initiator the tickets. A cache that a program writes to meanwhile is read again.
    fn give(&self, initiator: &mut Initiator) -> Result<(), String> {
        let path = &self.path;
        let mut failed = String::new();
        for _ in 0..READINGS {
            let file = cache::read(path)?;
            self.check(&file)?;
            match initiator.set_ccache(&file, SystemTime::now()) {
                Ok(_) => return Ok(()),
                Err(error) if error.cause() == Some(Cause::NoIdentity) => {
                    return Err(format!("{path} has no ticket that is valid"));
                }
                Err(error) => failed = format!("{path}: {error}"),
            }
            std::thread::sleep(PAUSE);
        }
        Err(failed)
    }

    /// Adds the ticket that a KDC's reply brings to the cache, before the initiator takes the reply. If that fails the ticket is used all the
    /// same.
    fn keep(&self, initiator: &mut Initiator, reply: &[u8]) {
        let kept = cache::extend(&self.path, |file| {
            self.check(file)?;
            match initiator.get_ccache(file, reply, SystemTime::now()) {
                Ok(it) if it.is_empty() => Ok(file.to_vec()),
                Ok(it) => Ok(it),
                Err(error) => Err(error.to_string()),
            }
        });
        if let Err(words) = kept {
            trace!("the ticket is not kept: {}", words.escape_debug());
        }
    }
}

/// Starts an initiator. Nothing is sent: an error says why MIT's mechanism is asked.
pub fn ready(wanted: &Wanted<'_>) -> Result<Ready, String> {
    let words = |error: Error| error.to_string();
    let service = service_of(wanted)?;
    let krb5 = Krb5::new().ok_or("krb5.conf cannot be read")?;
    let held = Held {
        client: wanted.client.to_owned(),
        path: cache::path(wanted.source, &krb5)?,
    };
    let kdcs = Kdcs::of(&krb5);
    let mut initiator =
        Initiator::new(&service, &machine(), flags_of(wanted.flags)).map_err(words)?;
    kdcs.tell(&mut initiator, config::variable("KRB5_CONFIG").as_deref())
        .map_err(words)?;
    if let Some(data) = wanted.bindings {
        initiator.bind(data).map_err(words)?;
    }
    held.give(&mut initiator)?;
    let next = initiator.start().map_err(words)?;
    if next == Next::AskKdc && initiator.url().map_err(words)?.starts_with("https:") {
        return Err("the KDC is asked over https".into());
    }
    Ok(Ready {
        initiator,
        service,
        next,
        kdcs,
        held,
    })
}

/// Carries a request to the KDCs of its realm, and takes the reply.
fn ask(it: &mut Ready) -> Result<Next, Error> {
    let (url, request) = (it.initiator.url()?, it.initiator.request()?);
    let places = it.kdcs.places(&url);
    match carrier::carry(&url, &request, places.iter().map(String::as_str)) {
        Ok(reply) => {
            it.held.keep(&mut it.initiator, &reply);
            it.initiator.answer(&reply)
        }
        Err(error) => {
            say!("no KDC replied: {}", error.to_string().escape_debug());
            it.initiator.fault(NO_REPLY)
        }
    }
}

/// Asks KDCs, until there is a token.
pub fn go(mut it: Ready) -> Result<Ready, Refused> {
    while it.next == Next::AskKdc {
        it.next = ask(&mut it).map_err(|error| refused(&error, &[]))?;
    }
    Ok(it)
}

/// The refusal of a KDC's reply, or of a service's token. A KRB-ERROR has its own minor status.
pub fn refused(error: &Error, token: &[u8]) -> Refused {
    let by_kdc = match error.cause() {
        Some(Cause::Kdc(code)) => krb5::minor_of(code),
        _ => None,
    };
    let mut refused = Refused::by(error);
    if let Some(minor) = by_kdc.or_else(|| code_of(token).and_then(krb5::minor_of)) {
        refused.major = FAILURE;
        refused.minor = minor;
    }
    refused
}

/// The code of a service's KRB-ERROR (RFC 4121, section 4.1). Nothing protects it: it is for words alone.
fn code_of(token: &[u8]) -> Option<u32> {
    // SAFETY: the OID is ours.
    let head = [unsafe { octets(&KRB5) }, b"\x03\x00"].concat();
    let at = token
        .windows(head.len())
        .take(16)
        .position(|it| it == head)?;
    carrier::error_code(&token[at + head.len()..]).map(u32::from)
}

#[cfg(test)]
mod tests {
    use super::*;

    fn wanted<'a>(target: &'a str) -> Wanted<'a> {
        Wanted {
            client: "alice@EXAMPLE.COM",
            source: &Source::Default,
            target,
            flags: 0,
            bindings: None,
        }
    }

    #[test]
    fn a_service_of_the_own_realm_is_reached() {
        for target in ["host/a@EXAMPLE.COM", "host/a@", "host/a"] {
            assert_eq!(service_of(&wanted(target)).unwrap(), "host/a");
        }
        for target in ["host/a@OTHER", "bob@EXAMPLE.COM", "host/a@example.com"] {
            assert!(service_of(&wanted(target)).is_err(), "{target}");
        }
    }

    #[test]
    fn flags_are_those_of_the_library() {
        assert_eq!(flags_of(0x3e), Flags::USUAL);
        assert_eq!(flags_of(0), Flags::NONE);
        assert_eq!(flags_of(CONF_FLAG), Flags::CONFIDENTIALITY);
    }

    #[test]
    fn a_krb_error_of_a_service_has_its_code() {
        let error = b"\x7e\x09\x30\x07\xa6\x05\x02\x01\x25";
        let head = b"\x60\x16\x06\x09\x2a\x86\x48\x86\xf7\x12\x01\x02\x02";
        let token = [&head[..], b"\x03\x00", error].concat();
        assert_eq!(code_of(&token), None); // (a length that does not fit)
        let error = b"\x7e\x07\x30\x05\xa6\x03\x02\x01\x25";
        let token = [&head[..], b"\x03\x00", error].concat();
        assert_eq!(code_of(&token), Some(37));
        assert_eq!(code_of(&[&head[..], b"\x02\x00", error].concat()), None);
        assert_eq!(code_of(b""), None);
    }
}
