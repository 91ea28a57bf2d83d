//! A KDC that is asked and answers as rows have it.

use crate::rows::is_hex;
use krb_der::Octets;
use sspi_core::NetworkProtocol;
use sspi_generator::{NetFault, NetworkClient, NetworkRequest};
use std::alloc::Global;

/// The answer to a request.
pub enum Reply {
    /// These octets, in hex.
    Octets(&'static str),
    /// The network fails with this code.
    Fault(u32),
}

/// A request over TCP to tcp://kdc.example:88, in hex, and what it is answered.
pub struct Turn {
    pub request: &'static str,
    pub reply: Reply,
}

/// Answers one turn after another, whatever it is asked, and remembers whether each request was the turn's. It counts a fault at
/// each call.
#[derive(Drop)]
pub struct Kdc {
    alloc: Global,
    turns: &'static [Turn],
    is_asked_so: bool,
    faults: u64,
}

impl Kdc {
    pub fn new(alloc: Global, turns: &'static [Turn]) -> Kdc {
        Kdc {
            alloc,
            turns,
            is_asked_so: true,
            faults: 0,
        }
    }

    /// Whether it was asked just what the turns say.
    pub fn is_asked_so(&self) -> bool {
        self.is_asked_so && self.turns.is_empty()
    }
}

fn is_request(alloc: Global, request: &NetworkRequest, wanted: &str) -> bool {
    request.protocol == NetworkProtocol::Tcp
        && request.url.as_str() == "tcp://kdc.example:88"
        && is_hex(alloc, request.payload.as_slice(), wanted)
}

fn reply_of(alloc: Global, reply: &Reply) -> Result<Octets, NetFault> {
    match reply {
        Reply::Fault(code) => Err(NetFault::Failed(*code)),
        Reply::Octets(digits) => match hex::decode(alloc, digits) {
            Ok(octets) => Ok(Octets::new(octets)),
            Err(_) => Err(NetFault::OutOfMemory),
        },
    }
}

impl NetworkClient for Kdc {
    ghost faults = { λ kdc. kdc.faults };

    ghost sends = { λ old request answer new. Unit {0} };

    fn send(&mut self, request: &NetworkRequest) -> Result<Octets, NetFault> {
        self.faults = self.faults.saturating_add(1);
        match self.turns {
            [] => {
                self.is_asked_so = false;
                Err(NetFault::Failed(0))
            }
            [turn, rest @ ..] => {
                self.turns = rest;
                self.is_asked_so &= is_request(self.alloc, request, turn.request);
                reply_of(self.alloc, &turn.reply)
            }
        }
    }
}
