//! The decision about a client: the library's checks, the store's answer, and the library's verdict on it.

use crate::abi::{FAILURE, NO_CRED};
use crate::config::Settings;
use crate::status::{NAME, OTHER_SERVICE, Refused, STORE_AWAY};
use crate::{keys, keytab, store};
use menolavuri::{Acceptor, Error, GssFlags, Judged, Session};
use std::time::{SystemTime, UNIX_EPOCH};

/// The input of a server.
pub struct Asked<'a> {
    pub token: &'a [u8],
    /// The keytab of its credential, if that names one.
    pub keytab: Option<&'a str>,
    /// The service that its credential is for, as "host/server.example.com@", if it is for one.
    pub service: Option<&'a str>,
    /// The data of its channel's bindings.
    pub bindings: Option<&'a [u8]>,
}

/// The facts of a client, admitted or not.
#[derive(Clone, Debug, Default)]
pub struct Known {
    pub client: Option<String>,
    pub service: Option<String>,
    /// The number of seconds by which the client's clock is ahead.
    pub ahead: Option<i64>,
}

pub struct Admitted {
    pub session: Session,
    pub client: String,
    pub service: String,
    /// The flags of the client's request.
    pub flags: Option<GssFlags>,
    /// The name of the keytab.
    pub keytab: String,
}

fn by_library(error: Error) -> Refused {
    match error {
        Error::NotUtf8 => Refused::of(FAILURE, NAME, ""),
        error => Refused::by(&error),
    }
}

/// Admits the client of a token if the proved checks and the store do. Returns the facts of the client in either case.
pub fn admit(
    settings: &Settings,
    asked: &Asked<'_>,
    known: &mut Known,
) -> Result<Admitted, Refused> {
    let name = keytab::name(asked.keytab, settings.keytab.as_deref());
    let keys = keys::of_file(keytab::path(&name), settings.skew)?;
    let judged = keys.judge(asked.token, asked.bindings);
    let mut judged = judged.map_err(by_library)?;
    let client = judged.client().map_err(by_library)?;
    let service = judged.service().map_err(by_library)?;
    known.client = Some(client.clone());
    known.service = Some(service.clone());
    if !is_plain(&client) || !is_plain(&service) {
        return Err(Refused::of(FAILURE, NAME, ""));
    }
    if asked
        .service
        .is_some_and(|wanted| !serves(wanted, &service))
    {
        let wanted = asked.service.unwrap_or_default().escape_debug();
        return Err(Refused::of(
            NO_CRED,
            OTHER_SERVICE,
            format!("wanted {wanted}"),
        ));
    }
    let session = ask_store(settings, &keys.admits, judged, known)?;
    let flags = session.flags();
    Ok(Admitted {
        session,
        client,
        service,
        flags,
        keytab: name,
    })
}

/// Asks the store about the record, and the library about its answer.
fn ask_store(
    settings: &Settings,
    acceptor: &Acceptor,
    mut judged: Judged,
    known: &mut Known,
) -> Result<Session, Refused> {
    let record = judged.record().map_err(by_library)?;
    let answer = store::ask(&settings.store, &record, settings.skew);
    let answer = answer.map_err(|words| Refused::of(FAILURE, STORE_AWAY, words))?;
    known.ahead = ahead(&record, answer.now);
    let mut session = acceptor
        .admit_told(judged, answer.now, answer.seen)
        .map_err(by_library)?;
    if let Some(rules) = settings.rules {
        session.set_rules(rules).map_err(by_library)?;
    }
    let wants_order = |it: GssFlags| it.contains(GssFlags::GSS_C_SEQUENCE_FLAG);
    if session.flags().is_some_and(wants_order) {
        session.set_in_order(true).map_err(by_library)?;
    }
    Ok(session)
}

/// A name goes to MIT's mechanism as text, which an octet 0 would end: "root\\0x" must not be root. U+FFFD, which other programs
/// write for octets that are not UTF-8, names nobody.
fn is_plain(name: &str) -> bool {
    !name.chars().any(|it| it.is_control() || it == '\u{fffd}')
}

/// Returns true if the service of a ticket is the one that the credential is for: as "host/server.example.com@EXAMPLE.COM", the realm maybe
/// empty, or "host" alone.
pub fn serves(wanted: &str, service: &str) -> bool {
    let (name, realm) = wanted.rsplit_once('@').unwrap_or((wanted, ""));
    let (ticket, of) = service.rsplit_once('@').unwrap_or((service, ""));
    let is_named =
        name == ticket || (!name.contains('/') && ticket.split('/').next() == Some(name));
    is_named && (realm.is_empty() || realm == of)
}

/// The number of seconds by which a record's time, with which it begins (as 20231114221320Z), is ahead of this one.
fn ahead(record: &[u8], now: SystemTime) -> Option<i64> {
    let time = std::str::from_utf8(record.get(..15)?).ok()?;
    let number = |from: usize, to: usize| time.get(from..to)?.parse::<i64>().ok();
    let (year, month, day) = (number(0, 4)?, number(4, 6)?, number(6, 8)?);
    // Days since 1970 of the Gregorian calendar, in years that begin in March.
    let (year, month) = if month > 2 {
        (year, month - 3)
    } else {
        (year - 1, month + 9)
    };
    let days = 365 * year + year.div_euclid(4) - year.div_euclid(100)
        + year.div_euclid(400)
        + (153 * month + 2) / 5
        + day
        - 1
        - 719_468;
    let seconds = days * 86_400 + number(8, 10)? * 3600 + number(10, 12)? * 60 + number(12, 14)?;
    Some(seconds - i64::try_from(now.duration_since(UNIX_EPOCH).ok()?.as_secs()).ok()?)
}

#[cfg(test)]
mod tests {
    use super::*;
    use std::time::Duration;

    #[test]
    fn a_credential_is_for_its_service() {
        let ticket = "host/server.example.com@EXAMPLE.COM";
        for wanted in [
            "host/server.example.com@",
            ticket,
            "host@",
            "host",
            "host/server.example.com",
        ] {
            assert!(serves(wanted, ticket), "{wanted}");
        }
        for wanted in [
            "host/server@",
            "HTTP/server.example.com@",
            "host/server.example.com@OTHER",
            "HTTP",
            "",
            "hos",
        ] {
            assert!(!serves(wanted, ticket), "{wanted}");
        }
    }

    #[test]
    fn a_record_tells_the_clocks_distance() {
        let now = UNIX_EPOCH + Duration::from_secs(1_700_000_000);
        assert_eq!(ahead(b"20231114221320Zalice@EXAMPLE.COM\0", now), Some(0));
        assert_eq!(ahead(b"20231114221820Z", now), Some(300));
        assert_eq!(
            ahead(b"20240229000000Z", now),
            Some(1_709_164_800 - 1_700_000_000)
        );
        assert_eq!(ahead(b"19700101000000Z", now), Some(-1_700_000_000));
        assert_eq!(ahead(b"2023111422132", now), None);
        assert_eq!(ahead(b"2023111422xx20Z", now), None);
    }

    #[test]
    fn names_that_would_end_early_are_not_plain() {
        assert!(
            is_plain("alice@EXAMPLE.COM")
                && is_plain("al\\0ice@EXAMPLE.COM")
                && is_plain("älice@X")
        );
        assert!(!is_plain("root\0x@EXAMPLE.COM") && !is_plain("a\nb@X") && !is_plain("\u{fffd}@X"));
    }
}
