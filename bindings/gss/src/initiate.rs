//! The initiator: the library's, if the settings say so and it can begin. Otherwise, and before anything is sent, MIT's mechanism begins.

use crate::abi::*;
use crate::accept::data_of;
use crate::begin::{Ready, Wanted, go, ready, refused};
use crate::behind::{gss_init_sec_context, gss_inquire_cred_by_mech};
use crate::buffers::{octets, put, set};
use crate::cache::Source;
use crate::contexts::{Context, Proved, context, left, lock, made};
use crate::credentials::{behind, credential};
use crate::guard::guard;
use crate::oids::{self, KRB5, special};
use crate::status::{NO_MEMORY, Refused, words};
use crate::{config, names, say, trace};
use menolavuri::{Error, Initiator, Next};
use std::ffi::c_void;
use std::ptr::null_mut;
use std::sync::Mutex;
use std::time::{Duration, Instant, SystemTime};

/// The flags that the library keeps to.
const OFFERED: u32 = MUTUAL_FLAG | REPLAY_FLAG | SEQUENCE_FLAG | CONF_FLAG | INTEG_FLAG;
/// The flags with which MIT's mechanism begins.
const UNKEPT: u32 = DELEG_FLAG | DELEG_POLICY_FLAG | ANON_FLAG | DCE_STYLE;

/// An initiator that has sent its token, and what is known of it.
pub struct Begun {
    initiator: Initiator,
    about: About,
}

struct About {
    client: String,
    service: String,
    flags: u32,
    ends: Option<SystemTime>,
    start: Instant,
}

/// A call as RFC 2744, section 5.19, has it.
struct Call {
    minor: *mut u32,
    cred: *mut c_void,
    ctx: *mut *mut c_void,
    target: Name,
    mech: Oid,
    flags: u32,
    time: u32,
    bindings: Bindings,
    input: Buffer,
    actual: *mut Oid,
    output: Buffer,
    ret_flags: *mut u32,
    life: *mut u32,
}

/// The client of a credential, and until when its tickets are valid, by MIT's mechanism. It may get tickets first, by a client's keytab.
unsafe fn holder(it: &Call) -> Result<(String, Option<SystemTime>), String> {
    let (mut minor, mut name, mut life) = (0, null_mut(), 0);
    // SAFETY: of the caller.
    unsafe {
        let status = gss_inquire_cred_by_mech(
            &mut minor,
            behind(it.cred),
            &special(it.mech),
            &mut name,
            &mut life,
            null_mut(),
            null_mut(),
        );
        match status {
            COMPLETE => {}
            CREDENTIALS_EXPIRED => return Err("the credential has expired".into()),
            _ => return Err("there is no credential".into()),
        }
        let client = names::shown(name);
        names::release(name);
        let now = SystemTime::now();
        let ends = now.checked_add(Duration::from_secs(life.into()));
        let ends = ends.filter(|_| life != INDEFINITE);
        Ok((client.ok_or("the credential has no name")?, ends))
    }
}

/// The library's initiator for this call, or why MIT's mechanism begins.
unsafe fn ours(it: &Call) -> Result<(Ready, About), String> {
    let start = Instant::now();
    // SAFETY: of the caller.
    unsafe {
        if !config::get().is_ok_and(|it| it.initiate) {
            return Err("the settings do not say initiate = yes".into());
        }
        if oids::octets(it.mech) != oids::octets(&KRB5) {
            return Err("another mechanism is asked for".into());
        }
        if it.flags & UNKEPT != 0 || !octets(it.input).is_empty() {
            return Err("delegation, anonymity or DCE style is asked for".into());
        }
        let bindings = data_of(it.bindings).map_err(|_| "the bindings have addresses")?;
        let target = names::shown(it.target).ok_or("the target has no name")?;
        let (client, ends) = holder(it)?;
        let flags = it.flags & OFFERED | CONF_FLAG | INTEG_FLAG;
        let ready = ready(&Wanted {
            client: &client,
            source: credential(it.cred).map_or(&Source::Default, |it| &it.source),
            target: &target,
            flags,
            bindings,
        })?;
        let service = ready.service.clone();
        let about = About {
            client,
            service,
            flags,
            ends,
            start,
        };
        Ok((ready, about))
    }
}

/// The part of a line of the log that says whose ticket it is, for which service, and how long it took.
fn shown(it: &About) -> String {
    format!(
        "client={} service={} took={}us",
        it.client.escape_debug(),
        it.service.escape_debug(),
        it.start.elapsed().as_micros()
    )
}

/// Writes how an initiator ended to the log: one line.
fn tell(it: &About, refused: Option<&Refused>) {
    match refused {
        None => say!("reached {}", shown(it)),
        Some(refused) => say!("not reached {}: {}", shown(it), words(refused.minor)),
    }
}

/// The session of an initiator that is established.
fn proved(begun: Begun) -> Result<Proved, Error> {
    let mut session = begun.initiator.into_session()?;
    if let Ok(Some(rules)) = config::get().map(|it| it.rules) {
        session.set_rules(rules)?;
    }
    session.set_in_order(begun.about.flags & SEQUENCE_FLAG != 0)?;
    tell(&begun.about, None);
    Ok(Proved {
        session,
        client: begun.about.client,
        service: begun.about.service,
        flags: begun.about.flags | PROT_READY_FLAG,
        ends: begun.about.ends,
        is_local: true,
    })
}

unsafe fn refuse(it: &Call, refused: &Refused) -> u32 {
    // SAFETY: of the caller.
    unsafe { set(it.minor, refused.minor) };
    refused.major
}

/// Gives the caller a token, and what is known of the context.
unsafe fn give(it: &Call, token: &[u8], flags: u32, life: u32) -> bool {
    // SAFETY: of the caller.
    unsafe {
        set(it.actual, &raw const KRB5);
        set(it.ret_flags, flags);
        set(it.life, life);
        put(it.output, token)
    }
}

/// The context of an initiator that is established.
unsafe fn establish(it: &Call, begun: Begun) -> Result<Context, Refused> {
    let proved = proved(begun).map_err(|error| refused(&error, &[]))?;
    // SAFETY: of the caller.
    let is_given = unsafe { give(it, proved.session.answer(), proved.flags, left(&proved)) };
    match is_given {
        true => Ok(Context::Proved(Box::new(Mutex::new(proved)))),
        false => Err(Refused::of(FAILURE, NO_MEMORY, "")),
    }
}

/// The context of an initiator whose token is sent.
unsafe fn show(it: &Call, mut begun: Begun) -> Result<Context, Refused> {
    let token = begun.initiator.token();
    let token = token.map_err(|error| refused(&error, &[]))?;
    say!("shows a ticket {}", shown(&begun.about));
    // SAFETY: of the caller.
    match unsafe { give(it, &token, begun.about.flags, INDEFINITE) } {
        true => Ok(Context::Begun(Box::new(Mutex::new(Some(begun))))),
        false => Err(Refused::of(FAILURE, NO_MEMORY, "")),
    }
}

/// The library's first token.
unsafe fn first(it: &Call, ready: Ready, about: About) -> u32 {
    let gone = go(ready).inspect_err(|it| tell(&about, Some(it)));
    let made_of = gone.and_then(|ready| {
        let begun = Begun {
            initiator: ready.initiator,
            about,
        };
        // SAFETY: of the caller.
        match ready.next {
            Next::Established => unsafe { establish(it, begun) }.map(|it| (it, COMPLETE)),
            _ => unsafe { show(it, begun) }.map(|it| (it, CONTINUE_NEEDED)),
        }
    });
    // SAFETY: of the caller.
    match made_of {
        Ok((context, status)) => {
            unsafe { *it.ctx = made(context) };
            status
        }
        Err(refused) => unsafe { refuse(it, &refused) },
    }
}

/// The service's token.
unsafe fn hear(it: &Call, waits: &Mutex<Option<Begun>>) -> Result<Context, Refused> {
    let mut waits = lock(waits);
    // SAFETY: of the caller.
    let token = unsafe { octets(it.input) };
    let Some(begun) = waits.as_mut() else {
        return Err(Refused::of(NO_CONTEXT, 0, ""));
    };
    let next = begun.initiator.hear(token);
    let next = next.map_err(|error| refused(&error, token));
    let next = next.inspect_err(|it| tell(&begun.about, Some(it)))?;
    match waits.take() {
        // SAFETY: of the caller.
        Some(begun) if next == Next::Established => unsafe { establish(it, begun) },
        _ => Err(Refused::of(DEFECTIVE_TOKEN, 0, "")),
    }
}

/// A call that MIT's mechanism does. Its context is kept in the one of this interposer.
unsafe fn by_mit(it: &Call, mut inner: Ctx) -> u32 {
    // SAFETY: of the caller.
    unsafe {
        let status = gss_init_sec_context(
            it.minor,
            behind(it.cred),
            &mut inner,
            it.target,
            &special(it.mech),
            it.flags,
            it.time,
            it.bindings,
            it.input,
            it.actual,
            it.output,
            it.ret_flags,
            it.life,
        );
        match context(*it.ctx) {
            Some(it) => *it = Context::Behind(inner),
            None if !inner.is_null() => *it.ctx = made(Context::Behind(inner)),
            None => {}
        }
        status
    }
}

unsafe fn initiate(it: &Call) -> u32 {
    // SAFETY: of the caller.
    unsafe {
        match context(*it.ctx) {
            None => match ours(it) {
                Ok((ready, about)) => first(it, ready, about),
                Err(reason) => {
                    trace!("MIT's mechanism initiates: {}", reason.escape_debug());
                    by_mit(it, null_mut())
                }
            },
            Some(Context::Behind(inner)) => by_mit(it, *inner),
            Some(Context::Proved(_)) => NO_CONTEXT,
            Some(kept @ Context::Begun(_)) => {
                let Context::Begun(waits) = kept else {
                    return NO_CONTEXT;
                };
                match hear(it, waits) {
                    Ok(context) => {
                        *kept = context;
                        COMPLETE
                    }
                    Err(refused) => refuse(it, &refused),
                }
            }
        }
    }
}

#[unsafe(no_mangle)]
pub unsafe extern "C" fn gssi_init_sec_context(
    minor: *mut u32,
    cred: *mut c_void,
    ctx: *mut *mut c_void,
    target: Name,
    mech: Oid,
    flags: u32,
    time: u32,
    bindings: Bindings,
    input: Buffer,
    actual: *mut Oid,
    output: Buffer,
    ret_flags: *mut u32,
    life: *mut u32,
) -> u32 {
    guard(minor, || unsafe {
        if ctx.is_null() {
            return NO_CONTEXT;
        }
        set(minor, 0);
        let call = Call {
            minor,
            cred,
            ctx,
            target,
            mech,
            flags,
            time,
            bindings,
            input,
            actual,
            output,
            ret_flags,
            life,
        };
        let status = initiate(&call);
        trace!("init_sec_context flags={flags:#x} -> {status:#x}");
        status
    })
}
