//! KDCs, and services that change passwords, which are asked and answer as a script has it.

use crate::octets::{are_octets, octets};
use crate::script::Script;
use krb_der::Octets;
use sspi_generator::{NetFault, NetworkClient, NetworkRequest};
use std::alloc::Global;

/// Answers whatever it is asked, and remembers whether each request was the script's: a line `ask`, with the protocol, the URL and
/// the octets, and after it a line `reply` with octets or `fault` with the network's code. It counts a fault at each call.
#[derive(Drop)]
pub struct Kdc {
    alloc: Global,
    script: Script,
    is_asked_so: bool,
    faults: u64,
}

impl Kdc {
    pub fn new(alloc: Global, script: Script) -> Kdc {
        Kdc {
            alloc,
            script,
            is_asked_so: true,
            faults: 0,
        }
    }

    /// Whether each request was the script's.
    pub fn is_asked_so(&self) -> bool {
        self.is_asked_so
    }

    /// The rest of the script.
    pub fn script(&self) -> Script {
        self.script
    }
}

fn is_request(alloc: Global, request: &NetworkRequest, asks: &'static str) -> bool {
    let mut words = asks.split(' ');
    words.next().unwrap_or("") == request.protocol.scheme()
        && words.next().unwrap_or("") == request.url.as_str()
        && are_octets(
            alloc,
            request.payload.as_slice(),
            words.next().unwrap_or(""),
        )
}

fn reply_of(alloc: Global, word: &'static str) -> Result<Octets, NetFault> {
    match octets(alloc, word) {
        Ok(octets) => Ok(octets),
        Err(_) => Err(NetFault::OutOfMemory),
    }
}

impl NetworkClient for Kdc {
    ghost faults = { λ kdc. kdc.faults };

    ghost sends = { λ old request answer new. Unit {0} };

    fn send(&mut self, request: &NetworkRequest) -> Result<Octets, NetFault> {
        self.faults = self.faults.saturating_add(1);
        let asks = self.script.take("ask").unwrap_or("");
        self.is_asked_so &= is_request(self.alloc, request, asks);
        match self.script.take("reply") {
            Some(word) => reply_of(self.alloc, word),
            None => {
                let code = self.script.take("fault").unwrap_or("0");
                Err(NetFault::Failed(code.parse().unwrap_or(0)))
            }
        }
    }
}
