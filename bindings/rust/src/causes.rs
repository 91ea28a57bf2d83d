//! Kinds and causes of refusals: one variant for each number of `menolavuri.h` (`bindings/check-names` compares them), and words for a person.

use menolavuri_sys as sys;
use std::fmt;

/// An enum of numbers of the library. Some have a code with them.
macro_rules! numbered {
    ($(#[$doc:meta])* $name:ident {
        $($(#[$of:meta])* $variant:ident $(($code:ident))? = $number:ident,)*
    }) => {
        $(#[$doc])*
        #[derive(Clone, Copy, Debug, PartialEq, Eq, Hash)]
        #[non_exhaustive]
        pub enum $name {
            $($(#[$of])* $variant $(($code))?,)*
            /// A number that this version of the crate does not know.
            Other(u32),
        }

        impl $name {
            /// Returns the value that has this number in `menolavuri.h`, with the code that some have: 0 if there is none.
            pub fn from_number(number: u32, code: u32) -> $name {
                let _ = code;
                match number {
                    $(menolavuri_sys::$number => $name::$variant $(($code::from(code)))?,)*
                    other => $name::Other(other),
                }
            }

            /// Returns the number that it has in `menolavuri.h`.
            pub const fn number(self) -> u32 {
                match self {
                    $($name::$variant { .. } => menolavuri_sys::$number,)*
                    $name::Other(number) => number,
                }
            }
        }
    };
}

pub(crate) use numbered;

numbered! {
    /// The kind of a refusal. It is printed by its name.
    Kind {
        /// A token or reply is malformed, or a check of its contents fails.
        InvalidToken = MK_KIND_INVALID_TOKEN,
        /// An argument, a key or a setting does not fit.
        InvalidParameter = MK_KIND_INVALID_PARAMETER,
        /// There is no such connection, or there is one already.
        InvalidHandle = MK_KIND_INVALID_HANDLE,
        /// The call does not fit the state of the context, or a message is repeated or too old.
        OutOfSequence = MK_KIND_OUT_OF_SEQUENCE,
        /// A buffer has too little room.
        BufferTooSmall = MK_KIND_BUFFER_TOO_SMALL,
        /// An encrypted text cannot be decrypted.
        DecryptFailure = MK_KIND_DECRYPT_FAILURE,
        /// The KDC cannot encrypt.
        EncryptFailure = MK_KIND_ENCRYPT_FAILURE,
        /// A checksum does not fit.
        MessageAltered = MK_KIND_MESSAGE_ALTERED,
        /// The clocks are too far apart.
        TimeSkew = MK_KIND_TIME_SKEW,
        /// The ticket has expired.
        ContextExpired = MK_KIND_CONTEXT_EXPIRED,
        /// Credentials that the call needs are not there.
        IncompleteCredentials = MK_KIND_INCOMPLETE_CREDENTIALS,
        /// There are no credentials, or no target.
        NoCredentials = MK_KIND_NO_CREDENTIALS,
        /// The KDC does not know the principal or refuses it.
        UnknownCredentials = MK_KIND_UNKNOWN_CREDENTIALS,
        /// The credentials do not serve this call.
        WrongCredentialHandle = MK_KIND_WRONG_CREDENTIAL_HANDLE,
        /// This form of credentials cannot pre-authenticate here.
        UnsupportedPreAuth = MK_KIND_UNSUPPORTED_PRE_AUTH,
        /// No KDC can be found or reached.
        NoAuthenticatingAuthority = MK_KIND_NO_AUTHENTICATING_AUTHORITY,
        /// The KDC refuses the request.
        KdcInvalidRequest = MK_KIND_KDC_INVALID_REQUEST,
        /// The KDC's certificate is revoked.
        KdcCertRevoked = MK_KIND_KDC_CERT_REVOKED,
        /// There is no key for the service.
        NoKerbKey = MK_KIND_NO_KERB_KEY,
        /// There is no ticket-granting ticket for the reply.
        NoTgtReply = MK_KIND_NO_TGT_REPLY,
        /// Mutual authentication failed.
        MutualAuthFailed = MK_KIND_MUTUAL_AUTH_FAILED,
        /// The KDC's database has several entries for the principal.
        TooManyPrincipals = MK_KIND_TOO_MANY_PRINCIPALS,
        /// The encryption type is not supported by the KDC.
        OperationNotSupported = MK_KIND_OPERATION_NOT_SUPPORTED,
        /// The call is not offered.
        UnsupportedFunction = MK_KIND_UNSUPPORTED_FUNCTION,
        /// A fault inside this side or the other one.
        InternalError = MK_KIND_INTERNAL_ERROR,
        /// A code that has no kind of its own.
        Unknown = MK_KIND_UNKNOWN,
        /// Memory ran out.
        OutOfMemory = MK_KIND_OUT_OF_MEMORY,
    }
}

numbered! {
    /// The check that failed, with the code that some causes have. It is printed by its name.
    Cause {
        /// Memory ran out.
        Memory = MK_CAUSE_MEMORY,
        /// The moment of an event is out of range.
        Moment = MK_CAUSE_MOMENT,
        /// There is no connection with this number, or it is taken.
        Connection = MK_CAUSE_CONNECTION,
        /// The context has the other role.
        Role = MK_CAUSE_ROLE,
        /// The state of the context does not allow this call.
        Sequence = MK_CAUSE_SEQUENCE,
        /// The bytes are not in the grammar of the message that is read.
        Shape = MK_CAUSE_SHAPE,
        /// There is no key for the service that the ticket names.
        NoServiceKey = MK_CAUSE_NO_SERVICE_KEY,
        /// An encryption type other than 17 and 18 (RFC 3962 section 7).
        Etype = MK_CAUSE_ETYPE,
        /// A key does not have the length of its encryption type.
        KeyLength = MK_CAUSE_KEY_LENGTH,
        /// An encrypted text has too few bytes.
        Short = MK_CAUSE_SHORT,
        /// A checksum does not fit, or no plain text encrypts to these bytes.
        Altered = MK_CAUSE_ALTERED,
        /// A decrypted text is not in the grammar of its record.
        Inner = MK_CAUSE_INNER,
        /// The client of the ticket is not the client of the authenticator (RFC 4120 section 3.2.3).
        Names = MK_CAUSE_NAMES,
        /// The authenticator is too far from the clock (RFC 4120 section 3.2.3).
        Skew = MK_CAUSE_SKEW,
        /// The ticket is not yet valid, or it has the flag INVALID.
        NotYet = MK_CAUSE_NOT_YET,
        /// The ticket has expired.
        Expired = MK_CAUSE_EXPIRED,
        /// This authenticator was admitted before.
        Replayed = MK_CAUSE_REPLAYED,
        /// The name of the client has no component.
        ClientName = MK_CAUSE_CLIENT_NAME,
        /// The options of an AP-REQ are not four bytes, or one is set that is not known.
        ApOptions = MK_CAUSE_AP_OPTIONS,
        /// The subkey of an authenticator does not fit its type.
        SubKey = MK_CAUSE_SUB_KEY,
        /// The acceptor has no user to get a ticket for.
        Credentials = MK_CAUSE_CREDENTIALS,
        /// A TGT-REQ names another service.
        ServerName = MK_CAUSE_SERVER_NAME,
        /// The user of the acceptor has a key and no password.
        KeytabUser = MK_CAUSE_KEYTAB_USER,
        /// A name has a character past ASCII.
        NotAscii = MK_CAUSE_NOT_ASCII,
        /// An AP-REP or a reply of the KDC cannot be decrypted.
        Reply = MK_CAUSE_REPLY,
        /// A message lacks its sequence number.
        NoNumber = MK_CAUSE_NO_NUMBER,
        /// The sequence number is not the one that is awaited.
        Number = MK_CAUSE_NUMBER,
        /// There is no subkey; for a MIC token, none in the context.
        NoSubKey = MK_CAUSE_NO_SUB_KEY,
        /// There is no target name.
        NoTarget = MK_CAUSE_NO_TARGET,
        /// The target name is not a service and a host with a slash between.
        Target = MK_CAUSE_TARGET,
        /// There is no identity.
        NoIdentity = MK_CAUSE_NO_IDENTITY,
        /// There is no address of a KDC for the realm.
        NoKdc = MK_CAUSE_NO_KDC,
        /// The address of the KDC has a scheme other than tcp, udp, http and https.
        Scheme = MK_CAUSE_SCHEME,
        /// The network failed, with this code of the caller.
        Network(u32) = MK_CAUSE_NETWORK,
        /// A reply of the KDC has under four bytes.
        ReplyShort = MK_CAUSE_REPLY_SHORT,
        /// The KDC answers the first request with an AS-REP, without pre-authentication.
        EarlyAsRep = MK_CAUSE_EARLY_AS_REP,
        /// The KDC answers a KRB-ERROR with this code (RFC 4120 section 7.5.9).
        Kdc(u32) = MK_CAUSE_KDC,
        /// An ETYPE-INFO2 has no entry (RFC 4120 section 5.2.7.5).
        EtypeEntry = MK_CAUSE_ETYPE_ENTRY,
        /// The entry of an ETYPE-INFO2 has no salt.
        Salt = MK_CAUSE_SALT,
        /// Too many referrals.
        Hops = MK_CAUSE_HOPS,
        /// A referral leads to the realm that it comes from.
        SameRealm = MK_CAUSE_SAME_REALM,
        /// The address of the KDC allows no port.
        Port = MK_CAUSE_PORT,
        /// The answer to a password change has no result code (RFC 3244 section 2).
        UserData = MK_CAUSE_USER_DATA,
        /// The password was not changed, with this result code (RFC 3244 section 2).
        ResultCode(u32) = MK_CAUSE_RESULT_CODE,
        /// The buffers of a message are not those that the call needs.
        Buffers = MK_CAUSE_BUFFERS,
        /// The bytes are longer than the limit of their buffer.
        TooSmall = MK_CAUSE_TOO_SMALL,
        /// The header of a token is too short or not that of its form (RFC 4121 section 4.2.6).
        Header = MK_CAUSE_HEADER,
        /// The header of a token says that this side sent it: it is reflected, or changed (RFC 4121 section 4.2.2).
        Direction = MK_CAUSE_DIRECTION,
        /// The extra count of an encrypted token is not that of the context (RFC 4121 section 4.2.3).
        ExtraCount = MK_CAUSE_EXTRA_COUNT,
        /// The text is longer than the limit of the data buffer.
        Room = MK_CAUSE_ROOM,
        /// A message is 64 or more before the newest: it may have been decrypted before.
        Old = MK_CAUSE_OLD,
        /// A message was decrypted before.
        Repeated = MK_CAUSE_REPEATED,
        /// A MIC token has the flag of an encrypted one (RFC 4121 section 4.2.2).
        Sealed = MK_CAUSE_SEALED,
        /// The context has no key.
        NoKey = MK_CAUSE_NO_KEY,
        /// A checksum has no channel bindings and no flags (RFC 4121 section 4.1.1).
        Checksum = MK_CAUSE_CHECKSUM,
        /// The client's channel bindings are not those of this channel, or a part of bindings lies outside them.
        Bindings = MK_CAUSE_BINDINGS,
        /// The user of the context is no user name.
        BadUser = MK_CAUSE_BAD_USER,
        /// The call is not offered.
        Unsupported = MK_CAUSE_UNSUPPORTED,
        /// The task waits for a reply, and none is sent.
        Suspended = MK_CAUSE_SUSPENDED,
        /// A reply of the KDC does not have the nonce of the request (RFC 4120 sections 3.1.5 and 3.3.4).
        Nonce = MK_CAUSE_NONCE,
        /// A reply of the KDC is for another client or service than the request (the same sections).
        ReplyNames = MK_CAUSE_REPLY_NAMES,
        /// The ticket of a reply is not valid now, or an AP-REP has another time than the authenticator (3.2.5).
        ReplyTime = MK_CAUSE_REPLY_TIME,
        /// A ticket came through further realms, and no KDC checked them (RFC 4120 section 2.7).
        Transited = MK_CAUSE_TRANSITED,
    }
}

impl Cause {
    /// Returns the code of a cause that has one: the caller's, a KDC's, or that of a password change.
    pub const fn code(self) -> Option<u32> {
        match self {
            Cause::Network(code) | Cause::Kdc(code) | Cause::ResultCode(code) => Some(code),
            _ => None,
        }
    }
}

type NameCall = unsafe extern "C" fn(u32, *mut u8, usize) -> sys::mk_reply;

/// Writes the name that the library has for a number, or the number if it has none.
fn write_name(f: &mut fmt::Formatter<'_>, call: NameCall, number: u32) -> fmt::Result {
    let mut room = [0; 64];
    // SAFETY: the pointer and the length are those of one array, which is borrowed for the call.
    let reply = unsafe { call(number, room.as_mut_ptr(), room.len()) };
    let name = room.get(..reply.length).map(std::str::from_utf8);
    match name {
        Some(Ok(name)) if reply.status == sys::MK_OK => f.write_str(name),
        _ => write!(f, "{number}"),
    }
}

impl fmt::Display for Kind {
    fn fmt(&self, f: &mut fmt::Formatter<'_>) -> fmt::Result {
        write_name(f, sys::mk_kind_name, self.number())
    }
}

impl fmt::Display for Cause {
    fn fmt(&self, f: &mut fmt::Formatter<'_>) -> fmt::Result {
        write_name(f, sys::mk_cause_name, self.number())
    }
}
