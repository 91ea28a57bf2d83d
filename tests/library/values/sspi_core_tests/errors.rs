//! How errors are printed.

use krb_der::OutOfMemory;
use sspi_core::{Cause, Error, ErrorKind, Place};
use std::alloc::Global;
use std::test::Fail;

struct Row {
    place: Place,
    cause: Cause,
    text: &'static str,
}

static ROWS: [Row; 15] = [
    Row {
        place: Place::Elsewhere,
        cause: Cause::Skew,
        text: "TimeSkew Skew",
    },
    Row {
        place: Place::Elsewhere,
        cause: Cause::Kdc(37),
        text: "TimeSkew Kdc 37",
    },
    Row {
        place: Place::Elsewhere,
        cause: Cause::Kdc(0),
        text: "Unknown Kdc 0",
    },
    Row {
        place: Place::Elsewhere,
        cause: Cause::Network(5),
        text: "NoAuthenticatingAuthority Network 5",
    },
    Row {
        place: Place::Elsewhere,
        cause: Cause::Nonce,
        text: "InvalidToken Nonce",
    },
    Row {
        place: Place::Elsewhere,
        cause: Cause::ReplyNames,
        text: "InvalidToken ReplyNames",
    },
    Row {
        place: Place::Elsewhere,
        cause: Cause::ReplyTime,
        text: "TimeSkew ReplyTime",
    },
    Row {
        place: Place::Elsewhere,
        cause: Cause::Transited,
        text: "InvalidToken Transited",
    },
    Row {
        place: Place::Elsewhere,
        cause: Cause::ResultCode(4),
        text: "WrongCredentialHandle ResultCode 4",
    },
    Row {
        place: Place::Elsewhere,
        cause: Cause::NoIdentity,
        text: "WrongCredentialHandle NoIdentity",
    },
    Row {
        place: Place::Query,
        cause: Cause::NoIdentity,
        text: "NoCredentials NoIdentity",
    },
    Row {
        place: Place::Query,
        cause: Cause::BadUser,
        text: "InvalidParameter BadUser",
    },
    Row {
        place: Place::MakeMic,
        cause: Cause::NoSubKey,
        text: "InternalError NoSubKey",
    },
    Row {
        place: Place::Elsewhere,
        cause: Cause::KeytabUser,
        text: "UnsupportedPreAuth KeytabUser",
    },
    Row {
        place: Place::Elsewhere,
        cause: Cause::Suspended,
        text: "UnsupportedFunction Suspended",
    },
];

fn rows() -> &'static [Row] {
    &ROWS
}

fn is_printed(alloc: Global, error: &Error, text: &str) -> Result<bool, Fail> {
    let printed = format!(in alloc; "{error}")?;
    Ok(printed.as_str() == text)
}

fn is_row(alloc: Global, row: &Row) -> Result<bool, Fail> {
    is_printed(alloc, &Error::at(row.place, row.cause), row.text)
}

#[test]
fn an_error_is_printed_as_kind_cause_and_number(rt: HostRuntime) -> Result<(), Fail> {
    for row in rows() {
        assert!(rt; is_row(rt.alloc(), row)?, "{}", row.text);
    }
    Ok(())
}

#[test]
fn an_error_is_made_of_its_cause(rt: HostRuntime) -> Result<(), Fail> {
    let alloc = rt.alloc();
    let made = Error::new(ErrorKind::InvalidHandle, Cause::Connection);
    assert!(rt; is_printed(alloc, &made, "InvalidHandle Connection")?);
    assert!(rt;
        is_printed(
            alloc,
            &Error::from(Cause::NoSubKey),
            "InvalidToken NoSubKey"
        )?
    );
    assert!(rt; is_printed(alloc, &Error::from(OutOfMemory), "OutOfMemory Memory")?);
    Ok(())
}
