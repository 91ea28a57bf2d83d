//! A client that logs in at a service.

use crate::error::{Error, done};
use crate::options::{Flags, Rules};
use crate::session::Session;
use crate::{filled, microseconds, moment_of, named, random};
use menolavuri_sys::{self as sys, mk_initiator, mk_reply, mk_step};
use std::time::SystemTime;

/// A client that logs in at a service. It has no network: each step returns the next one, and its caller carries the bytes.
///
/// ```
/// use menolavuri::{Error, Flags, Initiator, Next, Session};
///
/// /// Logs in at the service. `carry` sends bytes to the KDC at a URL, and `send` a token to the service; both return the reply.
/// fn reach(
///     mut initiator: Initiator,
///     carry: impl Fn(&str, &[u8]) -> Option<Vec<u8>>,
///     send: impl Fn(&[u8]) -> Vec<u8>,
/// ) -> Result<Session, Error> {
///     let mut next = initiator.start()?;
///     loop {
///         next = match next {
///             Next::AskKdc => match carry(&initiator.url()?, &initiator.request()?) {
///                 Some(answer) => initiator.answer(&answer)?,
///                 None => initiator.fault(1)?,
///             },
///             Next::SendToken => {
///                 let answer = send(&initiator.token()?);
///                 initiator.hear(&answer)?
///             }
///             // Send session.answer() to the service, unless it is empty.
///             Next::Established => return initiator.into_session(),
///         }
///     }
/// }
///
/// let mut initiator = Initiator::new("host/server.example.com", "desk", Flags::USUAL)?;
/// initiator.kdc("tcp://kdc.example.com:88")?;
/// initiator.password("alice", "EXAMPLE.COM", "secret")?;
/// let error = reach(initiator, |_, _| None, |_| Vec::new()).err().unwrap();
/// assert_eq!(error.cause(), Some(menolavuri::Cause::Network(1)));
/// # Ok::<(), Error>(())
/// ```
///
/// # The steps
///
/// A step out of its turn is refused as [`Cause::Sequence`](crate::Cause::Sequence), and changes nothing. A reply of a KDC that is
/// refused, and a fault, end the exchange, and [`start`](Initiator::start) can be called again. A start, or a token of the service, that is
/// refused changes nothing. After [`Error::Memory`] the same step can be repeated. A KDC is asked at most twelve times in an exchange.
/// A KDC's reply to another request than that of this exchange is refused, and so is a service's answer to another token: a recorded log-in
/// is not played back, unless [`set_rules`](Initiator::set_rules) gives that up. Without [`Flags::MUTUAL_AUTH`] an initiator is established
/// at once; without [`Rules::ONE_WAY_IS_SETTLED`] among its rules it never is.
#[derive(Debug)]
pub struct Initiator(mk_initiator);

// SAFETY: the library's handle of an initiator may go to another thread (`Send` is proved of it), and each call takes `&mut self`.
unsafe impl Send for Initiator {}

/// The next step.
#[derive(Clone, Copy, Debug, PartialEq, Eq, Hash)]
pub enum Next {
    /// Send [`request`](Initiator::request) to the KDC at [`url`](Initiator::url), and pass its reply to [`answer`](Initiator::answer).
    AskKdc,
    /// Send [`token`](Initiator::token) to the service, and pass its reply to [`hear`](Initiator::hear).
    SendToken,
    /// Call [`into_session`](Initiator::into_session). Send its [`answer`](Session::answer) to the service, unless it is empty.
    Established,
}

/// Which ticket of a credential cache was found.
#[derive(Clone, Copy, Debug, PartialEq, Eq, Hash)]
pub enum CacheTicket {
    /// The ticket for the service: [`start`](Initiator::start) leads to [`Next::SendToken`], and no KDC is asked.
    Service,
    /// The ticket for the ticket-granting service of the user's realm, which is asked for the service's.
    Granting,
}

/// A step, for [`Initiator::step_at`].
#[derive(Clone, Copy, Debug, PartialEq, Eq, Hash)]
pub enum Step<'a> {
    /// [`Initiator::start`].
    Start,
    /// [`Initiator::hear`].
    Hear(&'a [u8]),
    /// [`Initiator::answer`].
    Answer(&'a [u8]),
    /// [`Initiator::fault`].
    Fault(u32),
}

/// A call that writes bytes into a buffer.
type OutCall = unsafe extern "C" fn(*mut mk_initiator, *mut u8, usize) -> mk_reply;

/// Returns the next step, if this one was done.
fn next(step: mk_step) -> Result<Next, Error> {
    done(step.reply)?;
    match step.next {
        sys::MK_ASK_KDC => Ok(Next::AskKdc),
        sys::MK_SEND_TOKEN => Ok(Next::SendToken),
        sys::MK_ESTABLISHED => Ok(Next::Established),
        number => Err(Error::Unknown(number)),
    }
}

impl Initiator {
    /// Makes an initiator for a service, as `host/server.example.com`, in ASCII. `machine` is the name of this machine, which requests to
    /// KDCs contain.
    pub fn new(target: &str, machine: &str, flags: Flags) -> Result<Initiator, Error> {
        Initiator::with_number(target, machine, flags, random()?)
    }

    /// Makes an initiator as [`new`](Initiator::new) does, with four random bytes: the first sequence number of its messages.
    pub fn with_number(
        target: &str,
        machine: &str,
        flags: Flags,
        number: [u8; 4],
    ) -> Result<Initiator, Error> {
        let mut initiator = Initiator(mk_initiator::EMPTY);
        // SAFETY: the handle is empty, and each pointer and length are those of one slice.
        done(unsafe {
            sys::mk_initiator_new(
                &mut initiator.0,
                target.as_ptr(),
                target.len(),
                machine.as_ptr(),
                machine.len(),
                flags.0,
                number.as_ptr(),
                number.len(),
            )
        })?;
        Ok(initiator)
    }

    /// Sets its rules, and those of the session that it makes: these, and no others. It begins with [`Rules::RFC`].
    ///
    /// # Security
    /// Without [`Rules::FRESH_REPLIES`] and [`Rules::ANSWERS_ITS_AUTHENTICATOR`] a recorded log-in can be played back to it.
    pub fn set_rules(&mut self, rules: Rules) -> Result<(), Error> {
        // SAFETY: the handle is ours.
        done(unsafe { sys::mk_initiator_set_rules(&mut self.0, rules.0) })?;
        Ok(())
    }

    /// Sets the KDC of the user's own realm, as `tcp://kdc.example.com:88`; the schemes are `tcp`, `udp`, `http` and `https`. With an
    /// address that is not a URL, KDCs are looked for in the variables and files.
    pub fn kdc(&mut self, address: &str) -> Result<(), Error> {
        // SAFETY: the handle is ours, and the pointer and the length are those of one slice.
        done(unsafe { sys::mk_initiator_set_kdc(&mut self.0, address.as_ptr(), address.len()) })?;
        Ok(())
    }

    /// Sets the user, as `alice`, its realm, and its password. The realm is taken in capitals; if a line of `[domain_realm]` in a
    /// [file](Initiator::file) fits it, the realm is that of the line.
    pub fn password(&mut self, user: &str, realm: &str, password: &str) -> Result<(), Error> {
        // SAFETY: the handle is ours, and each pointer and length are those of one slice.
        done(unsafe {
            sys::mk_initiator_set_password(
                &mut self.0,
                user.as_ptr(),
                user.len(),
                realm.as_ptr(),
                realm.len(),
                password.as_ptr(),
                password.len(),
            )
        })?;
        Ok(())
    }

    /// Sets the user, as `alice`, its realm, as [`password`](Initiator::password) takes it, and its key of this encryption type, 17 or 18, from
    /// a keytab.
    pub fn key(&mut self, user: &str, realm: &str, etype: u8, key: &[u8]) -> Result<(), Error> {
        let principal = format!("{realm}\\{user}");
        // SAFETY: as above.
        done(unsafe {
            sys::mk_initiator_set_key(
                &mut self.0,
                principal.as_ptr(),
                principal.len(),
                etype.into(),
                key.as_ptr(),
                key.len(),
            )
        })?;
        Ok(())
    }

    /// Sets the user by the bytes of a credential cache, a file of the format 0503 or 0504 as `kinit` writes it: the cache's own principal,
    /// with its ticket for the service that is valid now, or otherwise with its ticket for the ticket-granting service of its realm. Returns
    /// which one. A password or key that was set before is dropped, and one that is set later drops the ticket. No ticket is renewed.
    ///
    /// # Errors
    /// Refused as [`Cause::Shape`](crate::Cause::Shape) if the bytes are not such a file, as [`Cause::NoIdentity`](crate::Cause::NoIdentity)
    /// if it has neither ticket, and as [`Cause::Target`](crate::Cause::Target) if the service's name has not two parts. Nothing is changed
    /// then.
    pub fn set_ccache(&mut self, file: &[u8], now: SystemTime) -> Result<CacheTicket, Error> {
        let now = microseconds(now)?;
        // SAFETY: as above.
        let which = done(unsafe {
            sys::mk_initiator_set_ccache(&mut self.0, file.as_ptr(), file.len(), now)
        })?;
        match which {
            1 => Ok(CacheTicket::Service),
            2 => Ok(CacheTicket::Granting),
            which => Err(Error::Unknown(u32::try_from(which).unwrap_or(u32::MAX))),
        }
    }

    /// Sets the user by a ticket in DER (RFC 4120, section 5.3), of a cache that is not a file: the realm and the name of its client, as `alice`,
    /// and its session key of this encryption type, 17 or 18. It is a ticket for the service, or for a ticket-granting service.
    pub fn set_ticket(
        &mut self,
        realm: &str,
        name: &str,
        etype: u32,
        key: &[u8],
        ticket: &[u8],
    ) -> Result<(), Error> {
        // SAFETY: as above.
        done(unsafe {
            sys::mk_initiator_set_ticket(
                &mut self.0,
                realm.as_ptr(),
                realm.len(),
                name.as_ptr(),
                name.len(),
                etype,
                key.as_ptr(),
                key.len(),
                ticket.as_ptr(),
                ticket.len(),
            )
        })?;
        Ok(())
    }

    /// Sets a variable of the environment, as `KRB5_CONFIG`. No other is read; of several with one name the first counts.
    pub fn variable(&mut self, name: &str, value: &str) -> Result<(), Error> {
        // SAFETY: as above.
        done(unsafe {
            sys::mk_initiator_set_variable(
                &mut self.0,
                name.as_ptr(),
                name.len(),
                value.as_ptr(),
                value.len(),
            )
        })?;
        Ok(())
    }

    /// Sets the text of a configuration file at its path, as `/etc/krb5.conf`. No file is read; of several with one path the first counts.
    pub fn file(&mut self, path: &str, text: &str) -> Result<(), Error> {
        // SAFETY: as above.
        done(unsafe {
            sys::mk_initiator_set_file(
                &mut self.0,
                path.as_ptr(),
                path.len(),
                text.as_ptr(),
                text.len(),
            )
        })?;
        Ok(())
    }

    /// Binds the exchange to the channel that carries it, by data of the application: for a TLS channel those of RFC 5929.
    pub fn bind(&mut self, data: &[u8]) -> Result<(), Error> {
        // SAFETY: as above.
        done(unsafe { sys::mk_initiator_set_bindings(&mut self.0, data.as_ptr(), data.len()) })?;
        Ok(())
    }

    /// Begins the exchange, by the system's clock.
    pub fn start(&mut self) -> Result<Next, Error> {
        self.step(Step::Start)
    }

    /// Takes the service's reply to a token.
    ///
    /// # Errors
    /// Refused as [`Cause::KEY_LENGTH`](crate::Cause::KEY_LENGTH) if the subkey in it does not have the length of a key of the session's
    /// encryption type.
    pub fn hear(&mut self, token: &[u8]) -> Result<Next, Error> {
        self.step(Step::Hear(token))
    }

    /// Takes a KDC's reply: over TCP with its four bytes of length, over UDP after any four bytes, over HTTP the body.
    pub fn answer(&mut self, octets: &[u8]) -> Result<Next, Error> {
        self.step(Step::Answer(octets))
    }

    /// Reports that no KDC replied, with a code of the caller's. Always refused, as [`Cause::Network`](crate::Cause::Network) with that number.
    pub fn fault(&mut self, code: u32) -> Result<Next, Error> {
        self.step(Step::Fault(code))
    }

    fn step(&mut self, step: Step) -> Result<Next, Error> {
        self.step_at(step, SystemTime::now(), random()?)
    }

    /// Takes a step at this moment, with 64 bytes that are random and fresh.
    pub fn step_at(
        &mut self,
        step: Step,
        moment: SystemTime,
        random: [u8; 64],
    ) -> Result<Next, Error> {
        let moment = moment_of(moment, random)?;
        let handle = &mut self.0;
        // SAFETY: the handle is ours, and each pointer and length are those of one slice.
        next(unsafe {
            match step {
                Step::Start => sys::mk_initiator_start(handle, &moment),
                Step::Hear(token) => {
                    sys::mk_initiator_hear(handle, token.as_ptr(), token.len(), &moment)
                }
                Step::Answer(octets) => {
                    sys::mk_initiator_answer(handle, octets.as_ptr(), octets.len(), &moment)
                }
                Step::Fault(code) => sys::mk_initiator_fault(handle, code, &moment),
            }
        })
    }

    /// Returns the bytes of a credential cache with one more entry: the ticket that this reply of a KDC brings at this moment. It is called
    /// before [`answer`](Initiator::answer), with the same reply, and changes nothing. There are no bytes if the reply brings no ticket.
    ///
    /// # Errors
    /// Refused as [`answer`](Initiator::answer) refuses the reply, and as [`Cause::Shape`](crate::Cause::Shape) if `file` is not a cache of
    /// the format 0503 or 0504.
    pub fn get_ccache(
        &mut self,
        file: &[u8],
        octets: &[u8],
        now: SystemTime,
    ) -> Result<Vec<u8>, Error> {
        let moment = moment_of(now, random()?)?;
        let handle = &mut self.0;
        // SAFETY: the handle is ours, and each pointer and length are those of one slice or vector.
        filled(file.len() + 1024, |out, room| unsafe {
            sys::mk_initiator_get_ccache(
                handle,
                file.as_ptr(),
                file.len(),
                octets.as_ptr(),
                octets.len(),
                &moment,
                out,
                room,
            )
        })
    }

    fn text(&mut self, call: OutCall) -> Result<String, Error> {
        let handle = &mut self.0;
        // SAFETY: the handle is ours, and the pointer and the length are those of one vector.
        named(|out, room| unsafe { call(handle, out, room) })
    }

    fn octets(&mut self, room: usize, call: OutCall) -> Result<Vec<u8>, Error> {
        let handle = &mut self.0;
        // SAFETY: the handle is ours, and the pointer and the length are those of one vector.
        filled(room, |out, room| unsafe { call(handle, out, room) })
    }

    /// Returns the address of the KDC to ask, as `tcp://kdc.example.com:88`.
    pub fn url(&mut self) -> Result<String, Error> {
        self.text(sys::mk_initiator_get_url)
    }

    /// Returns the bytes for that KDC: over TCP and UDP send them unchanged, over HTTP as the body of a POST.
    pub fn request(&mut self) -> Result<Vec<u8>, Error> {
        self.octets(1024, sys::mk_initiator_get_request)
    }

    /// Returns the token for the service. It stays until the next step that is not refused.
    pub fn token(&mut self) -> Result<Vec<u8>, Error> {
        self.octets(1024, sys::mk_initiator_get_token)
    }

    /// Returns the service's name, as [`new`](Initiator::new) got it, when the initiator is established: with [`Flags::MUTUAL_AUTH`] the
    /// service has shown who it is.
    pub fn peer(&mut self) -> Result<String, Error> {
        self.text(sys::mk_initiator_get_peer)
    }

    /// Returns the session of an initiator that is established. Refused as [`Cause::Sequence`](crate::Cause::Sequence) if it is not; the
    /// initiator is then freed.
    pub fn into_session(mut self) -> Result<Session, Error> {
        let peer = self.peer()?;
        let mut session = Session::empty();
        // SAFETY: the handle is ours, and the session's is empty.
        done(unsafe { sys::mk_initiator_take_session(&mut self.0, &mut session.handle) })?;
        session.reach(peer)?;
        Ok(session)
    }
}

impl Drop for Initiator {
    fn drop(&mut self) {
        // SAFETY: the handle is ours.
        unsafe { sys::mk_initiator_free(&mut self.0) }
    }
}
