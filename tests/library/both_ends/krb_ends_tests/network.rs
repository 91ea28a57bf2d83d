//! A network that brings replies one after another, whatever it is asked.

use krb_der::Octets;
use sspi_generator::{NetFault, NetworkClient, NetworkRequest};
use std::alloc::Global;

/// The replies that are left, in hex. It counts a fault at each call.
#[derive(Drop)]
pub struct Network {
    alloc: Global,
    replies: &'static [&'static str],
    faults: u64,
}

impl Network {
    pub fn new(alloc: Global, replies: &'static [&'static str]) -> Network {
        Network {
            alloc,
            replies,
            faults: 0,
        }
    }

    /// Whether all replies were asked for.
    pub fn is_over(&self) -> bool {
        self.replies.is_empty()
    }
}

fn octets_of(alloc: Global, digits: &str) -> Result<Octets, NetFault> {
    match hex::decode(alloc, digits) {
        Ok(octets) => Ok(Octets::new(octets)),
        Err(_) => Err(NetFault::OutOfMemory),
    }
}

impl NetworkClient for Network {
    ghost faults = { λ network. network.faults };

    ghost sends = { λ old request answer new. Unit {0} };

    fn send(&mut self, _request: &NetworkRequest) -> Result<Octets, NetFault> {
        self.faults = self.faults.saturating_add(1);
        match self.replies {
            [] => Err(NetFault::Failed(0)),
            [reply, rest @ ..] => {
                self.replies = rest;
                octets_of(self.alloc, reply)
            }
        }
    }
}
