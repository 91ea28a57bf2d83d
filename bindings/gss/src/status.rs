//! Refusals: the status of RFC 2744, a minor status for the exact cause, and its words.

use crate::abi::*;
use crate::krb5;
use menolavuri::{Cause, Error, Refusal};

/// The first bits of the minor statuses of this interposer; after them comes the number of a cause, or one of those below.
pub const MINOR: u32 = 0x4d4b_0000;
/// From this number on they are this interposer's own.
pub const OWN: u32 = 0xff00;

pub const NOT_DONE: u32 = MINOR | OWN;
pub const NO_KEYS: u32 = MINOR | 0xff01;
pub const OTHER_SERVICE: u32 = MINOR | 0xff02;
pub const STORE_AWAY: u32 = MINOR | 0xff03;
pub const SECOND_TOKEN: u32 = MINOR | 0xff04;
pub const ADDRESSES: u32 = MINOR | 0xff05;
pub const INITIATOR: u32 = MINOR | 0xff06;
pub const NAME: u32 = MINOR | 0xff07;
pub const SETTINGS: u32 = MINOR | 0xff08;
pub const FAULT: u32 = MINOR | 0xff09;
pub const NO_MEMORY: u32 = MINOR | 0xff0a;
pub const NOT_OFFERED: u32 = MINOR | 0xff0b;
/// The number of this interposer's own.
pub const OWN_COUNT: usize = 12;

/// The words of this interposer's own.
const OWN_WORDS: [&str; OWN_COUNT] = [
    "the library did not do the call: its argument, memory or random octets failed",
    "the keytab cannot be read, or has no key",
    "the ticket is for another service than the credential",
    "the store of admitted clients does not answer: nobody is admitted",
    "a second token came where the first one ends the exchange",
    "channel bindings with addresses are not compared",
    "the credential is an initiator's",
    "the client's name has a control character or is not UTF-8",
    "the settings cannot be read: nobody is admitted",
    "a fault in the interposer",
    "memory ran out",
    "the call is not offered",
];

/// The words of the causes that clients and administrators meet (the numbers are mk_cause's in menolavuri.h).
const CAUSE_WORDS: [(u32, &str); 38] = [
    (1, "memory ran out"),
    (2, "the clock of this machine is out of range"),
    (6, "the token is not in the grammar of an AP-REQ"),
    (7, "there is no key for the service that the ticket names"),
    (8, "the encryption type is not 17 or 18"),
    (9, "the key does not have the length of its encryption type"),
    (10, "an encrypted text is too short"),
    (
        11,
        "the key does not open it: it was altered, or the key is another one",
    ),
    (12, "what was encrypted is not in the grammar of its record"),
    (13, "the ticket and the authenticator name two clients"),
    (14, "the client's clock is too far from this machine's"),
    (15, "the ticket is not valid yet"),
    (16, "the ticket has expired"),
    (
        17,
        "this authenticator was admitted before: the token is a replay",
    ),
    (18, "the client's name has no component"),
    (19, "the options of the AP-REQ are not known"),
    (20, "the subkey does not fit its encryption type"),
    (26, "a message lacks its sequence number"),
    (27, "the message is not the next one in order"),
    (28, "there is no subkey"),
    (
        31,
        "there is no ticket for the service, and none to get one by",
    ),
    (34, "no KDC replied"),
    (37, "a KRB-ERROR came"),
    (47, "the header of the message is not that of its form"),
    (48, "the message was sent by this side"),
    (49, "the extra count of the message does not fit"),
    (50, "the message is longer than the room for it"),
    (51, "the message is too old to tell whether it was seen"),
    (52, "the message was opened before"),
    (53, "the MIC has the flag of an encrypted message"),
    (54, "the context has no key"),
    (55, "the authenticator has no channel bindings and no flags"),
    (
        56,
        "the channel bindings are not those of this channel, or the client gave none",
    ),
    (58, "the call is not served"),
    (60, "the KDC's reply is to another request"),
    (61, "the KDC's reply names another client or service"),
    (
        62,
        "the ticket is not valid now, or the service answered another token",
    ),
    (
        63,
        "the ticket came through further realms, and no KDC checked them",
    ),
];

/// The refusal of a call.
#[derive(Debug)]
pub struct Refused {
    pub major: u32,
    pub minor: u32,
    /// Words in addition to the minor status's, as the path of a file. For the log alone.
    pub further: String,
    /// The refusal by the library, if it is one.
    pub refusal: Option<Refusal>,
}

impl Refused {
    pub fn of(major: u32, minor: u32, further: impl Into<String>) -> Refused {
        Refused {
            major,
            minor,
            further: further.into(),
            refusal: None,
        }
    }

    /// The refusal of a client by the library.
    pub fn by(error: &Error) -> Refused {
        let minor = minor_of(error);
        let refusal = match error {
            Error::Refused(it) => Some(*it),
            _ => None,
        };
        Refused {
            refusal,
            ..Refused::of(major_of(minor), minor, further(error))
        }
    }

    /// The KRB-ERROR that tells a client why it is refused, for the service of this name (RFC 4121, section 4.1). There is none for a token
    /// that is not in the grammar of an AP-REQ, and for a refusal that is not the library's.
    pub fn token(&self, service: &str) -> Vec<u8> {
        let Some(refusal) = self.refusal.filter(|it| it.cause != Cause::Shape) else {
            return Vec::new();
        };
        let (name, realm) = service.rsplit_once('@').unwrap_or((service, ""));
        refusal.error_token(name, realm).unwrap_or_default()
    }
}

fn minor_of(error: &Error) -> u32 {
    error.cause().map_or(NOT_DONE, |it| MINOR | it.number())
}

/// The cause of a minor status, without its code.
fn cause_of(minor: u32) -> Cause {
    Cause::from_number(minor & 0xffff, 0)
}

/// The words of an error that is not a refusal.
fn further(error: &Error) -> String {
    match error {
        Error::Refused(_) => String::new(),
        other => other.to_string(),
    }
}

/// The status of RFC 2744 for a client that is refused.
fn major_of(minor: u32) -> u32 {
    match cause_of(minor) {
        Cause::Shape | Cause::Inner | Cause::Header => DEFECTIVE_TOKEN,
        Cause::NoServiceKey => NO_CRED,
        Cause::Expired => CREDENTIALS_EXPIRED,
        Cause::Bindings | Cause::Checksum => BAD_BINDINGS,
        _ => FAILURE,
    }
}

/// The status for a message that is refused. Each is an error: a message that comes again is not returned, so it is no supplementary bit.
pub fn of_message(error: &Error, altered: u32) -> (u32, u32) {
    let minor = minor_of(error);
    let major = match cause_of(minor) {
        Cause::Shape | Cause::Short | Cause::Header | Cause::Direction => DEFECTIVE_TOKEN,
        Cause::Altered => altered,
        _ => FAILURE,
    };
    (major, minor)
}

/// Returns true if a minor status is one of this interposer's.
pub fn is_ours(minor: u32) -> bool {
    minor & 0xffff_0000 == MINOR
}

/// The words of a minor status of this interposer's, or of a KRB-ERROR.
pub fn words(minor: u32) -> String {
    let number = minor & 0xffff;
    if let Some(words) = number
        .checked_sub(OWN)
        .and_then(|it| OWN_WORDS.get(it as usize))
    {
        return (*words).to_owned();
    }
    if krb5::code_of(minor).is_some() {
        return krb5::words(minor);
    }
    let known = CAUSE_WORDS.iter().find(|it| it.0 == number);
    let name = cause_of(minor);
    match known {
        Some((_, words)) => format!("{name}: {words}"),
        None => name.to_string(),
    }
}

#[cfg(test)]
mod tests {
    use super::*;

    #[test]
    fn no_words_have_a_line_end() {
        let own = (0..OWN_COUNT as u32).map(|it| MINOR | (OWN + it));
        for minor in own.chain(CAUSE_WORDS.iter().map(|it| MINOR | it.0)) {
            assert!(is_ours(minor) && !words(minor).contains('\n'), "{minor:#x}");
        }
        assert_eq!(words(STORE_AWAY), OWN_WORDS[3]);
    }

    #[test]
    fn each_refusal_is_a_routine_error() {
        for number in 0..=0xffff {
            assert_ne!(major_of(MINOR | number) & 0x00ff_0000, 0);
        }
    }
}
