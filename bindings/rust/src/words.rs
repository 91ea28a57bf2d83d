//! Words of causes, for a person: what failed, and what to do if there is something to do.

use crate::Cause;
use menolavuri_sys as sys;

impl Cause {
    /// Returns in words what failed, and what to do if there is something to do.
    pub fn words(self) -> &'static str {
        match self {
            Cause::Kdc(code) => words_of_kdc(code),
            cause => WORDS
                .iter()
                .find(|it| it.0 == cause.number())
                .map_or("the library is of another version than this crate", |it| {
                    it.1
                }),
        }
    }
}

/// The words of a KDC's errors (RFC 4120, section 7.5.9).
fn words_of_kdc(code: u32) -> &'static str {
    match code {
        6 => "the KDC does not know the user",
        7 => "the KDC does not know the service",
        12 => "the KDC's policy refuses it",
        14 => "the KDC has no key of AES for the user or the service",
        18 => "the KDC has locked the user or the service",
        23 => "the user's password has expired: change it",
        24 => "the password or the key is not the user's",
        37 => "the clocks here and at the KDC differ too much: check NTP on both ends",
        _ => "the KDC refuses it: its log says why",
    }
}

/// The words of each cause but a KDC's.
const WORDS: [(u32, &str); 62] = [
    (sys::MK_CAUSE_MEMORY, "memory ran out"),
    (
        sys::MK_CAUSE_MOMENT,
        "the clock is out of range: set the clock of this machine",
    ),
    (
        sys::MK_CAUSE_CONNECTION,
        "there is no such connection, or there is one already",
    ),
    (sys::MK_CAUSE_ROLE, "the call is one of the other role"),
    (sys::MK_CAUSE_SEQUENCE, "this step is not the next one"),
    (
        sys::MK_CAUSE_SHAPE,
        "the bytes are not in the grammar of what is read: look at the program or the file that they come from",
    ),
    (
        sys::MK_CAUSE_NO_SERVICE_KEY,
        "there is no key for the service that the ticket names: compare `klist` at the client with `klist -k` here",
    ),
    (
        sys::MK_CAUSE_ETYPE,
        "the encryption type is not 17 or 18: the user and the service need keys of AES",
    ),
    (
        sys::MK_CAUSE_KEY_LENGTH,
        "the key does not have the length of its encryption type: make the keytab anew",
    ),
    (
        sys::MK_CAUSE_SHORT,
        "an encrypted text is too short: it was cut on its way",
    ),
    (
        sys::MK_CAUSE_ALTERED,
        "it was changed on its way, or the key or password here is not the KDC's, perhaps by its version: make the keytab anew",
    ),
    (
        sys::MK_CAUSE_INNER,
        "the decrypted text is not in the grammar of its record",
    ),
    (
        sys::MK_CAUSE_NAMES,
        "the ticket and the authenticator name two clients: refuse this client",
    ),
    (
        sys::MK_CAUSE_SKEW,
        "the clocks of the two ends differ by more than the skew: check NTP on both ends",
    ),
    (
        sys::MK_CAUSE_NOT_YET,
        "the ticket is not valid yet: check NTP on both ends; `kinit -v` validates a postdated ticket",
    ),
    (
        sys::MK_CAUSE_EXPIRED,
        "the ticket has expired: the client runs `kinit`",
    ),
    (
        sys::MK_CAUSE_REPLAYED,
        "this token was admitted before: the client makes another one",
    ),
    (
        sys::MK_CAUSE_CLIENT_NAME,
        "the client's name has no component",
    ),
    (
        sys::MK_CAUSE_AP_OPTIONS,
        "an option of the AP-REQ is not known",
    ),
    (
        sys::MK_CAUSE_SUB_KEY,
        "the subkey does not fit its encryption type",
    ),
    (
        sys::MK_CAUSE_CREDENTIALS,
        "the acceptor has no user to get a ticket for",
    ),
    (
        sys::MK_CAUSE_SERVER_NAME,
        "the client asks for another service",
    ),
    (
        sys::MK_CAUSE_KEYTAB_USER,
        "the acceptor's user has a key and no password",
    ),
    (
        sys::MK_CAUSE_NOT_ASCII,
        "a name has a character past ASCII: write it in ASCII",
    ),
    (
        sys::MK_CAUSE_REPLY,
        "the reply cannot be decrypted: check the password or the key",
    ),
    (
        sys::MK_CAUSE_NO_NUMBER,
        "the message lacks its sequence number",
    ),
    (
        sys::MK_CAUSE_NUMBER,
        "the message is not the next one: messages were lost or exchanged",
    ),
    (sys::MK_CAUSE_NO_SUB_KEY, "there is no subkey"),
    (sys::MK_CAUSE_NO_TARGET, "there is no target name"),
    (
        sys::MK_CAUSE_TARGET,
        "the target is not a service and a host: name it as host/server.example.com",
    ),
    (
        sys::MK_CAUSE_NO_IDENTITY,
        "there is no user with a password, a key or a ticket that is valid: set one, or run `kinit`",
    ),
    (
        sys::MK_CAUSE_NO_KDC,
        "the realm has no address of a KDC: set one, or pass a krb5.conf",
    ),
    (
        sys::MK_CAUSE_SCHEME,
        "the address of the KDC has a scheme other than tcp, udp, http and https",
    ),
    (
        sys::MK_CAUSE_NETWORK,
        "no KDC answered: check its address, and that it runs",
    ),
    (sys::MK_CAUSE_REPLY_SHORT, "the KDC's reply is cut"),
    (
        sys::MK_CAUSE_EARLY_AS_REP,
        "the KDC asks for no pre-authentication: the rule NO_PREAUTHENTICATION accepts that",
    ),
    (
        sys::MK_CAUSE_ETYPE_ENTRY,
        "the KDC names no encryption type for the user",
    ),
    (
        sys::MK_CAUSE_SALT,
        "the KDC sends no salt for the user's key",
    ),
    (
        sys::MK_CAUSE_HOPS,
        "there were too many referrals: check the realms that the KDCs know",
    ),
    (
        sys::MK_CAUSE_SAME_REALM,
        "a referral leads to the realm that it comes from: check the realms that the KDC knows",
    ),
    (
        sys::MK_CAUSE_PORT,
        "the address of the KDC has no port: write it as tcp://kdc.example.com:88",
    ),
    (
        sys::MK_CAUSE_USER_DATA,
        "the answer to the change of the password has no result code",
    ),
    (sys::MK_CAUSE_RESULT_CODE, "the password was not changed"),
    (
        sys::MK_CAUSE_BUFFERS,
        "the buffers of the message are not those that the call needs",
    ),
    (
        sys::MK_CAUSE_TOO_SMALL,
        "the bytes are longer than the limit of their buffer",
    ),
    (
        sys::MK_CAUSE_HEADER,
        "the header of the message is not that of its form",
    ),
    (
        sys::MK_CAUSE_DIRECTION,
        "this end sent the message itself: it was reflected, or changed",
    ),
    (
        sys::MK_CAUSE_EXTRA_COUNT,
        "the extra count of the message does not fit",
    ),
    (
        sys::MK_CAUSE_ROOM,
        "the text is longer than the limit of its buffer",
    ),
    (
        sys::MK_CAUSE_OLD,
        "the message is 64 or more before the newest one: it may have come before",
    ),
    (sys::MK_CAUSE_REPEATED, "the message came before"),
    (
        sys::MK_CAUSE_SEALED,
        "the MIC has the flag of an encrypted message",
    ),
    (sys::MK_CAUSE_NO_KEY, "the context has no key"),
    (
        sys::MK_CAUSE_CHECKSUM,
        "the client's checksum has no channel bindings and no flags: it does not speak GSS-API",
    ),
    (
        sys::MK_CAUSE_BINDINGS,
        "the client is not bound to this channel: look for what is between the two ends",
    ),
    (
        sys::MK_CAUSE_BAD_USER,
        "the user's name is not valid: write it as alice, with its realm apart",
    ),
    (sys::MK_CAUSE_UNSUPPORTED, "the call is not offered"),
    (
        sys::MK_CAUSE_SUSPENDED,
        "a reply is awaited, and none was passed",
    ),
    (
        sys::MK_CAUSE_NONCE,
        "the KDC's reply is to another request, perhaps a recorded one: look for what is between here and the KDC",
    ),
    (
        sys::MK_CAUSE_REPLY_NAMES,
        "the KDC's reply is for another client or service: look for what is between here and the KDC",
    ),
    (
        sys::MK_CAUSE_REPLY_TIME,
        "the ticket is not valid now, or the service answered another token: check NTP on both ends, and what is between them",
    ),
    (
        sys::MK_CAUSE_TRANSITED,
        "the ticket came through realms that no KDC checked: `capaths` and the KDC's policy say which may",
    ),
];
