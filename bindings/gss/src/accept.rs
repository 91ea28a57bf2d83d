//! The acceptor: a client's first token is judged by the library, and the decision is logged and counted.

use crate::abi::*;
use crate::buffers::{octets, put, set};
use crate::config::{self, Settings};
use crate::contexts::{Context, Proved, context, left, made};
use crate::credentials::{credential, of_behind};
use crate::decide::{Asked, Known, admit};
use crate::guard::guard;
use crate::names::machine;
use crate::oids::KRB5;
use crate::status::{
    ADDRESSES, INITIATOR, NAME, NO_MEMORY, Refused, SECOND_TOKEN, SETTINGS, words,
};
use crate::{counters, delegated, names, say, trace};
use menolavuri::GssFlags;
use std::ffi::c_void;
use std::ptr::null_mut;
use std::sync::Mutex;
use std::time::{Duration, Instant};

/// The flags of a client that the library keeps to. A client that asks for others is admitted without them.
const OFFERED: u32 = REPLAY_FLAG | SEQUENCE_FLAG | CONF_FLAG | INTEG_FLAG;
/// The flags of a client whose checksum has none: it is of another protocol, and messages can be encrypted for it.
const WITHOUT_FLAGS: u32 = REPLAY_FLAG | CONF_FLAG | INTEG_FLAG;

/// The data of a channel's bindings. Those of addresses are not compared (RFC 5929 has data alone).
pub unsafe fn data_of<'a>(bindings: Bindings) -> Result<Option<&'a [u8]>, Refused> {
    // SAFETY: of the caller.
    let Some(it) = (unsafe { bindings.as_ref() }) else {
        return Ok(None);
    };
    if it.initiator_type | it.acceptor_type != 0 || it.initiator.length | it.acceptor.length != 0 {
        return Err(Refused::of(BAD_BINDINGS, ADDRESSES, ""));
    }
    // SAFETY: of the caller.
    Ok(Some(unsafe { octets((&raw const it.data).cast_mut()) }))
}

/// The flags of RFC 2744 for a client that asked for these: what it did not ask for is not among them.
fn flags_of(asked: Option<GssFlags>, is_answered: bool, is_bound: bool) -> u32 {
    let asked = asked.map_or(WITHOUT_FLAGS, |it| it.bits() & OFFERED);
    let mutual = if is_answered { MUTUAL_FLAG } else { 0 };
    let bound = if is_bound { CHANNEL_BOUND_FLAG } else { 0 };
    asked | mutual | bound | PROT_READY_FLAG
}

/// A server's part of a call of RFC 2744, section 5.1.
struct Call {
    cred: *mut c_void,
    input: Buffer,
    bindings: Bindings,
}

/// A client that was admitted, as the caller learns of it.
struct Accepted {
    name: Name,
    proved: Proved,
    /// The name of the keytab.
    keytab: String,
}

unsafe fn decide(
    settings: &Settings,
    ctx: *mut c_void,
    call: &Call,
    known: &mut Known,
) -> Result<Accepted, Refused> {
    // SAFETY: of the caller.
    let (it, token) = unsafe { (credential(call.cred), octets(call.input)) };
    if !ctx.is_null() {
        return Err(Refused::of(DEFECTIVE_TOKEN, SECOND_TOKEN, ""));
    }
    if it.as_ref().is_some_and(|it| !it.accepts) {
        return Err(Refused::of(NO_CRED, INITIATOR, ""));
    }
    // SAFETY: of the caller.
    let bindings = unsafe { data_of(call.bindings) }?;
    let it = it.as_deref();
    let asked = Asked {
        token,
        keytab: it.and_then(|it| it.keytab.as_deref()),
        service: it.and_then(|it| it.service.as_deref()),
        bindings,
    };
    let it = admit(settings, &asked, known)?;
    // SAFETY: of the caller.
    let Some(name) = (unsafe { names::of(&it.client) }) else {
        return Err(Refused::of(FAILURE, NAME, ""));
    };
    let flags = flags_of(
        it.flags,
        !it.session.answer().is_empty(),
        bindings.is_some(),
    );
    Ok(Accepted {
        name,
        keytab: it.keytab,
        proved: Proved {
            ends: it.session.ends(),
            session: it.session,
            client: it.client,
            service: it.service,
            flags,
            is_local: false,
        },
    })
}

/// The ticket that an admitted client hands on, as MIT's mechanism has it.
unsafe fn handed_on(it: &mut Accepted, call: &Call) -> Option<Cred> {
    let cred = it.proved.session.delegation();
    if cred.map_or(true, |it| it.is_empty()) {
        return None;
    }
    // SAFETY: of the caller.
    unsafe { delegated::of(&it.keytab, call.input, call.bindings) }
}

/// The name of the service that refuses a client: that of the ticket, of the credential, or the host's own.
unsafe fn named(known: &Known, cred: *mut c_void) -> String {
    // SAFETY: of the caller.
    let wanted = unsafe { credential(cred) }.and_then(|it| it.service.clone());
    let name = known.service.clone().or(wanted);
    name.unwrap_or_else(|| format!("host/{}", machine()))
}

/// The line of the log for a client.
fn shown(known: &Known) -> String {
    let name = |it: &Option<String>| it.as_deref().unwrap_or("-").escape_debug().to_string();
    let ahead = known.ahead.map_or("-".into(), |it| format!("{it:+}s"));
    format!(
        "client={} service={} clock={ahead}",
        name(&known.client),
        name(&known.service)
    )
}

/// Writes the decision to the log, and counts it. If that fails the decision is the same.
fn tell(
    settings: Result<&Settings, &str>,
    known: &Known,
    refused: Option<&Refused>,
    took: Duration,
) {
    let micros = took.as_micros();
    match refused {
        None => say!("admitted {} took={micros}us", shown(known)),
        Some(it) => {
            let further = if it.further.is_empty() {
                String::new()
            } else {
                format!(" ({})", it.further.escape_debug())
            };
            say!(
                "refused {} took={micros}us: {}{further}",
                shown(known),
                words(it.minor)
            );
        }
    }
    let Ok(settings) = settings else { return };
    let counted = counters::count(&settings.status, refused.map(|it| it.minor), took);
    if let Err(error) = counted {
        trace!("the counters are not kept: {error}");
    }
}

/// The places in which the caller takes what it learns of a client.
struct Out {
    ctx: *mut *mut c_void,
    source: *mut Name,
    mech: *mut Oid,
    output: Buffer,
    flags: *mut u32,
    life: *mut u32,
    delegated: *mut *mut c_void,
}

unsafe fn give(out: &Out, mut it: Accepted, call: &Call) {
    // SAFETY: of the caller.
    unsafe {
        let takes = !out.delegated.is_null();
        if let Some(cred) = takes.then(|| handed_on(&mut it, call)).flatten() {
            *out.delegated = of_behind(cred);
            it.proved.flags |= DELEG_FLAG;
        }
        if out.source.is_null() {
            names::release(it.name);
        } else {
            *out.source = it.name;
        }
        set(out.mech, &raw const KRB5);
        set(out.flags, it.proved.flags);
        set(out.life, left(&it.proved));
        *out.ctx = made(Context::Proved(Box::new(Mutex::new(it.proved))));
    }
}

unsafe fn accept(minor: *mut u32, call: &Call, out: &Out) -> u32 {
    let start = Instant::now();
    let mut known = Known::default();
    // SAFETY: of the caller.
    unsafe {
        let settings = config::get();
        let decided = match settings {
            Ok(it) => decide(it, *out.ctx, call, &mut known),
            Err(words) => Err(Refused::of(FAILURE, SETTINGS, words)),
        };
        let decided = decided.and_then(|it| match put(out.output, it.proved.session.answer()) {
            true => Ok(it),
            false => Err(Refused::of(FAILURE, NO_MEMORY, "")),
        });
        tell(settings, &known, decided.as_ref().err(), start.elapsed());
        match decided {
            Ok(it) => {
                give(out, it, call);
                COMPLETE
            }
            Err(it) => {
                put(out.output, &it.token(&named(&known, call.cred)));
                set(minor, it.minor);
                it.major
            }
        }
    }
}

#[unsafe(no_mangle)]
pub unsafe extern "C" fn gssi_accept_sec_context(
    minor: *mut u32,
    ctx: *mut *mut c_void,
    cred: *mut c_void,
    input: Buffer,
    bindings: Bindings,
    source: *mut Name,
    mech: *mut Oid,
    output: Buffer,
    flags: *mut u32,
    life: *mut u32,
    delegated: *mut *mut c_void,
) -> u32 {
    guard(minor, || unsafe {
        set(minor, 0);
        set(delegated, null_mut());
        set(source, null_mut());
        if ctx.is_null() || context(*ctx).is_some_and(|it| matches!(it, Context::Behind(_))) {
            return NO_CONTEXT;
        }
        let out = Out {
            ctx,
            source,
            mech,
            output,
            flags,
            life,
            delegated,
        };
        let call = Call {
            cred,
            input,
            bindings,
        };
        accept(minor, &call, &out)
    })
}

#[cfg(test)]
mod tests {
    use super::*;

    fn with(types: (u32, u32), addresses: (&[u8], &[u8]), data: &[u8]) -> BindingsDesc {
        BindingsDesc {
            initiator_type: types.0,
            initiator: BufferDesc::lent(addresses.0),
            acceptor_type: types.1,
            acceptor: BufferDesc::lent(addresses.1),
            data: BufferDesc::lent(data),
        }
    }

    #[test]
    fn bindings_with_addresses_are_refused() {
        // SAFETY: the bindings are ours.
        unsafe {
            assert!(data_of(std::ptr::null()).unwrap().is_none());
            let it = with((0, 0), (b"", b""), b"tls-server-end-point:x");
            assert_eq!(data_of(&it).unwrap(), Some(&b"tls-server-end-point:x"[..]));
            for it in [
                with((2, 0), (b"", b""), b"x"),
                with((0, 255), (b"", b""), b"x"),
                with((0, 0), (b"a", b""), b""),
                with((0, 0), (b"", b"a"), b""),
            ] {
                assert_eq!(data_of(&it).unwrap_err().major, BAD_BINDINGS);
            }
        }
    }

    #[test]
    fn flags_are_those_that_were_asked_for() {
        assert_eq!(flags_of(Some(GssFlags::ALL), true, false), 0xbe);
        assert_eq!(
            flags_of(Some(GssFlags::NONE), false, false),
            PROT_READY_FLAG
        );
        assert_eq!(
            flags_of(Some(GssFlags::GSS_C_SEQUENCE_FLAG), false, true),
            SEQUENCE_FLAG | PROT_READY_FLAG | CHANNEL_BOUND_FLAG
        );
        assert_eq!(flags_of(None, true, false), 0xb6);
    }

    #[test]
    fn a_line_of_the_log_is_one_line() {
        let known = Known {
            client: Some("a\nb@\u{1b}[1mX".into()),
            service: None,
            ahead: Some(-7),
        };
        assert_eq!(
            shown(&known),
            "client=a\\nb@\\u{1b}[1mX service=- clock=-7s"
        );
    }
}
