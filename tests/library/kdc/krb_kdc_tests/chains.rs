//! KDCs that refer to one another, and a network of them.

ghost use Rattle.sspi_generator.specs.Draws.{AreInRange};

use super::parties::{add_alice, add_principal, add_route, add_trust, draw_at, new_kdc};
use krb_crypto::CipherSuite;
use krb_der::{Items, Octets, OutOfMemory, Text, boxed};
use krb_kdc::{Kdc, KdcNet};
use sspi_core::Draw;
use sspi_generator::{NetFault, NetworkClient, NetworkRequest};
use std::alloc::Global;
use std::test::Fail;

/// A realm, the URL of its KDC, and the variable that tells a client of it.
pub struct Place {
    pub realm: &'static str,
    pub url: &'static str,
    pub variable: &'static str,
}

pub static PLACES: [Place; 11] = [
    Place {
        realm: "EXAMPLE.COM",
        url: "tcp://kdc.example:88",
        variable: "UNUSED",
    },
    Place {
        realm: "B.COM",
        url: "tcp://b.example:88",
        variable: "SSPI_KDC_URL_B.COM",
    },
    Place {
        realm: "C.COM",
        url: "tcp://c.example:88",
        variable: "SSPI_KDC_URL_C.COM",
    },
    Place {
        realm: "D.COM",
        url: "tcp://d.example:88",
        variable: "SSPI_KDC_URL_D.COM",
    },
    Place {
        realm: "E.COM",
        url: "tcp://e.example:88",
        variable: "SSPI_KDC_URL_E.COM",
    },
    Place {
        realm: "F.COM",
        url: "tcp://f.example:88",
        variable: "SSPI_KDC_URL_F.COM",
    },
    Place {
        realm: "G.COM",
        url: "tcp://g.example:88",
        variable: "SSPI_KDC_URL_G.COM",
    },
    Place {
        realm: "H.COM",
        url: "tcp://h.example:88",
        variable: "SSPI_KDC_URL_H.COM",
    },
    Place {
        realm: "I.COM",
        url: "tcp://i.example:88",
        variable: "SSPI_KDC_URL_I.COM",
    },
    Place {
        realm: "J.COM",
        url: "tcp://j.example:88",
        variable: "SSPI_KDC_URL_J.COM",
    },
    Place {
        realm: "K.COM",
        url: "tcp://k.example:88",
        variable: "SSPI_KDC_URL_K.COM",
    },
];

/// The moment of all draws.
pub const MOMENT: u64 = 1_700_000_000_000_000;

/// The client's key in a keytab, of AES-128: the octets from 32 on.
pub fn keytab_key() -> [u8; 16] {
    draw_at(0, 32).octets(0)
}

/// The client: with a password under a salt in AES-256, with a key of a keytab in AES-128.
fn add_client(alloc: Global, kdc: &mut Kdc, suite: CipherSuite) -> Result<(), Fail> {
    if suite == CipherSuite::Aes128CtsHmacSha196 {
        add_principal(alloc, kdc, "alice", &keytab_key())
    } else {
        add_alice(alloc, kdc)
    }
}

/// A trust between the realm at a place and the one before it.
fn add_link(
    alloc: Global,
    kdc: &mut Kdc,
    suite: CipherSuite,
    place: &Place,
    at: u8,
) -> Result<(), Fail> {
    let key = [at.saturating_add(100); 32];
    add_trust(alloc, kdc, place.realm, &key[..suite.key_size()])
}

/// Where the service is: here, or it is to be asked for at the next place.
fn add_service(
    alloc: Global,
    kdc: &mut Kdc,
    suite: CipherSuite,
    next: Option<&Place>,
    at: u8,
) -> Result<(), Fail> {
    match next {
        None => add_principal(alloc, kdc, "host/b", &[7; 32][..suite.key_size()]),
        Some(place) => {
            add_link(alloc, kdc, suite, place, at.saturating_add(1))?;
            add_route(alloc, kdc, "host/b", place.realm)
        }
    }
}

/// The entries of the KDC at a place, between the one before it and the next.
fn fill(
    alloc: Global,
    kdc: &mut Kdc,
    suite: CipherSuite,
    before: Option<&Place>,
    next: Option<&Place>,
    at: u8,
) -> Result<(), Fail> {
    match before {
        None => add_client(alloc, kdc, suite)?,
        Some(place) => add_link(alloc, kdc, suite, place, at)?,
    }
    add_service(alloc, kdc, suite, next, at)
}

/// The KDC at a place.
fn kdc_at(
    alloc: Global,
    suite: CipherSuite,
    place: &Place,
    before: Option<&Place>,
    next: Option<&Place>,
    at: u8,
) -> Result<Box<Kdc>, Fail> {
    let key = [at.saturating_add(1); 32];
    let mut kdc = new_kdc(alloc, place.realm, suite, &key[..suite.key_size()])?;
    fill(alloc, &mut kdc, suite, before, next, at)?;
    Ok(kdc)
}

/// One KDC more, after the others.
fn add_kdc(
    alloc: Global,
    pairs: &mut Vec<(Text, Kdc)>,
    suite: CipherSuite,
    place: &Place,
    before: Option<&Place>,
    next: Option<&Place>,
) -> Result<(), Fail> {
    let at = pairs.len().min(100) as u8;
    let kdc = kdc_at(alloc, suite, place, before, next, at)?;
    let url = Text::from_str(alloc, place.url)?;
    pairs.push((url, Box::into_inner(kdc)))?;
    Ok(())
}

/// The draws of the KDCs, one after the other.
fn kdc_draws() -> [Draw; 12]
    ensures { AreInRange result }
{
    [
        draw_at(MOMENT, 10),
        draw_at(MOMENT, 20),
        draw_at(MOMENT, 30),
        draw_at(MOMENT, 40),
        draw_at(MOMENT, 50),
        draw_at(MOMENT, 60),
        draw_at(MOMENT, 70),
        draw_at(MOMENT, 80),
        draw_at(MOMENT, 90),
        draw_at(MOMENT, 100),
        draw_at(MOMENT, 110),
        draw_at(MOMENT, 120),
    ]
}

/// KDCs over this many referrals: the first has the client, and the last the service.
fn pairs(alloc: Global, suite: CipherSuite, referrals: usize) -> Result<Vec<(Text, Kdc)>, Fail> {
    let mut pairs = Vec::new(alloc);
    let mut before = None;
    for (at, place) in PLACES.iter().enumerate() {
        if at <= referrals {
            let next = if at < referrals {
                PLACES.get(at + 1)
            } else {
                None
            };
            add_kdc(alloc, &mut pairs, suite, place, before, next)?;
            before = Some(place);
        }
    }
    Ok(pairs)
}

fn net(alloc: Global, suite: CipherSuite, referrals: usize) -> Result<KdcNet, Fail> {
    let draws = Vec::from_array(alloc, kdc_draws())?;
    let pairs = pairs(alloc, suite, referrals)?;
    Ok(KdcNet::new(Items::new(pairs), Items::new(draws)))
}

/// The network of KDCs, and a wire that may alter the second request. It counts what is sent.
#[derive(Drop)]
pub struct Wire {
    alloc: Global,
    net: KdcNet,
    alters: bool,
    sends: u64,
}

impl Wire {
    pub fn new(
        alloc: Global,
        suite: CipherSuite,
        referrals: usize,
        alters: bool,
    ) -> Result<Box<Wire>, Fail> {
        let net = net(alloc, suite, referrals)?;
        let wire = Wire {
            alloc,
            net,
            alters,
            sends: 0,
        };
        Ok(boxed(alloc, wire)?)
    }

    /// How many requests were sent.
    pub fn sends(&self) -> u64 {
        self.sends
    }
}

/// The element after the sealed time in an AS-REQ: a wish for a PAC.
const PAC_REQUEST: [u8; 8] = [0x30, 0x11, 0xa1, 0x04, 0x02, 0x02, 0x00, 0x80];

/// True if the wish for a PAC is there.
fn is_wish(octets: &[u8], place: usize) -> bool {
    match octets.get(place..) {
        Some(rest) => rest.starts_with(&PAC_REQUEST),
        None => false,
    }
}

/// Flips the octet before the wish for a PAC: the last of the cipher.
fn flip(octets: &mut [u8]) {
    for place in 1..octets.len() {
        if is_wish(octets, place) {
            match octets.get_mut(place - 1) {
                Some(octet) => *octet ^= 1,
                None => (),
            }
        }
    }
}

fn altered(alloc: Global, request: &NetworkRequest) -> Result<NetworkRequest, OutOfMemory> {
    let mut octets = Vec::from_slice(alloc, request.payload.as_slice())?;
    flip(&mut octets);
    Ok(NetworkRequest {
        protocol: request.protocol,
        url: request.url.clone()?,
        payload: Octets::new(octets),
    })
}

impl NetworkClient for Wire {
    ghost faults = { λ wire. wire.sends };

    ghost sends = { λ old request answer new. Unit {0} };

    fn send(&mut self, request: &NetworkRequest) -> Result<Octets, NetFault> {
        self.sends = self.sends.saturating_add(1);
        if self.alters && self.sends == 2 {
            match altered(self.alloc, request) {
                Ok(request) => self.net.send(&request),
                Err(OutOfMemory) => Err(NetFault::OutOfMemory),
            }
        } else {
            self.net.send(request)
        }
    }
}
