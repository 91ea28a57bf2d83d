//! A client that makes AP-REQs for the tests (RFC 4120, 4121, 3961, 3962), apart from the library: it has the service's key, so it
//! makes its own tickets.

#![allow(dead_code)] // no test needs all of it

/// 2026-11-27T16:51:22Z, in seconds since 1970.
pub const NOW: u64 = 1_795_798_282;
const NOW_TEXT: &str = "20261127165122Z";

fn sbox() -> [u8; 256] {
    let mut table = [0x63; 256];
    let (mut p, mut q) = (1u8, 1u8);
    loop {
        p = p ^ (p << 1) ^ if p & 0x80 != 0 { 0x1b } else { 0 };
        q ^= q << 1;
        q ^= q << 2;
        q ^= q << 4;
        q ^= if q & 0x80 != 0 { 0x09 } else { 0 };
        let turned = [1, 2, 3, 4].map(|n| q.rotate_left(n));
        table[p as usize] = turned.iter().fold(q ^ 0x63, |a, b| a ^ b);
        if p == 1 {
            return table;
        }
    }
}

/// AES-256 (FIPS 197).
struct Aes {
    sbox: [u8; 256],
    words: [[u8; 4]; 60],
}

impl Aes {
    fn new(key: &[u8; 32]) -> Aes {
        let sbox = sbox();
        let mut words = [[0; 4]; 60];
        for i in 0..8 {
            words[i].copy_from_slice(&key[4 * i..4 * i + 4]);
        }
        let mut round = 1u8;
        for i in 8..60 {
            let mut word = words[i - 1];
            if i % 8 == 0 {
                word = [word[1], word[2], word[3], word[0]].map(|x| sbox[x as usize]);
                word[0] ^= round;
                round <<= 1;
            } else if i % 8 == 4 {
                word = word.map(|x| sbox[x as usize]);
            }
            for (x, y) in word.iter_mut().zip(words[i - 8]) {
                *x ^= y;
            }
            words[i] = word;
        }
        Aes { sbox, words }
    }

    fn seal(&self, block: [u8; 16]) -> [u8; 16] {
        let twice = |x: u8| (x << 1) ^ if x & 0x80 != 0 { 0x1b } else { 0 };
        let mut state = block;
        for round in 0..15 {
            if round > 0 {
                let old = state.map(|x| self.sbox[x as usize]);
                for i in 0..16 {
                    state[i] = old[(i + 4 * (i % 4)) % 16];
                }
            }
            if round > 0 && round < 14 {
                for column in state.chunks_exact_mut(4) {
                    let a = [column[0], column[1], column[2], column[3]];
                    for i in 0..4 {
                        let (b, c, d) = (a[(i + 1) % 4], a[(i + 2) % 4], a[(i + 3) % 4]);
                        column[i] = twice(a[i]) ^ twice(b) ^ b ^ c ^ d;
                    }
                }
            }
            for (i, x) in state.iter_mut().enumerate() {
                *x ^= self.words[4 * round + i / 4][i % 4];
            }
        }
        state
    }

    /// CBC with ciphertext stealing, from an initial vector of 0 (RFC 3962, section 5), of more than 16 octets.
    fn steal(&self, text: &[u8]) -> Vec<u8> {
        let (mut sealed, mut last) = (Vec::new(), [0; 16]);
        for chunk in text.chunks(16) {
            for (x, y) in last.iter_mut().zip(chunk) {
                *x ^= y;
            }
            last = self.seal(last);
            sealed.push(last);
        }
        let count = sealed.len();
        sealed.swap(count - 2, count - 1);
        let mut octets = sealed.concat();
        octets.truncate(text.len());
        octets
    }
}

fn sha1(text: &[u8]) -> [u8; 20] {
    let mut h = [
        0x67452301u32,
        0xefcdab89,
        0x98badcfe,
        0x10325476,
        0xc3d2e1f0,
    ];
    let mut padded = text.to_vec();
    padded.push(0x80);
    padded.resize(padded.len().next_multiple_of(64), 0);
    if text.len() % 64 >= 56 {
        padded.resize(padded.len() + 64, 0);
    }
    let end = padded.len() - 8;
    padded[end..].copy_from_slice(&(8 * text.len() as u64).to_be_bytes());
    for block in padded.chunks_exact(64) {
        let mut w: Vec<u32> = block
            .chunks_exact(4)
            .map(|x| u32::from_be_bytes(x.try_into().unwrap()))
            .collect();
        for t in 16..80 {
            w.push((w[t - 3] ^ w[t - 8] ^ w[t - 14] ^ w[t - 16]).rotate_left(1));
        }
        let [mut a, mut b, mut c, mut d, mut e] = h;
        for (t, w) in w.iter().enumerate() {
            let (f, k) = match t / 20 {
                0 => ((b & c) | (!b & d), 0x5a827999),
                1 => (b ^ c ^ d, 0x6ed9eba1),
                2 => ((b & c) | (b & d) | (c & d), 0x8f1bbcdc),
                _ => (b ^ c ^ d, 0xca62c1d6u32),
            };
            let next = a.rotate_left(5).wrapping_add(f).wrapping_add(e);
            (e, d, c, b, a) = (
                d,
                c,
                b.rotate_left(30),
                a,
                next.wrapping_add(k).wrapping_add(*w),
            );
        }
        for (x, y) in h.iter_mut().zip([a, b, c, d, e]) {
            *x = x.wrapping_add(y);
        }
    }
    h.map(u32::to_be_bytes).concat().try_into().unwrap()
}

fn hmac(key: &[u8], text: &[u8]) -> [u8; 20] {
    let mut wide = [0; 64];
    wide[..key.len()].copy_from_slice(key);
    let inner = sha1(&[&wide.map(|x| x ^ 0x36), text].concat());
    sha1(&[&wide.map(|x| x ^ 0x5c)[..], &inner].concat())
}

/// The constant of a usage, folded to 128 bits (RFC 3961, section 5.1): copies of its 40 bits, each turned by 13 more, added with the
/// carry around the end.
fn folded(usage: u8, last: u8) -> [u8; 16] {
    let constant = [0, 0, 0, usage, last];
    let bit = |j: usize| {
        let at = (j % 40 + 40 * 13 - 13 * (j / 40) % 40) % 40;
        constant[at / 8] >> (7 - at % 8) & 1
    };
    let mut sum = 0u128;
    for part in 0..5 {
        let chunk = (0..128).fold(0, |a, j| a << 1 | u128::from(bit(128 * part + j)));
        let (added, carry) = sum.overflowing_add(chunk);
        sum = added + u128::from(carry);
    }
    sum.to_be_bytes()
}

fn derived(key: &[u8; 32], usage: u8, last: u8) -> [u8; 32] {
    let aes = Aes::new(key);
    let first = aes.seal(folded(usage, last));
    [first, aes.seal(first)].concat().try_into().unwrap()
}

/// A text sealed by aes256-cts-hmac-sha1-96 under a key for a usage.
fn sealed(key: &[u8; 32], usage: u8, confounder: u8, text: &[u8]) -> Vec<u8> {
    let text = [&[confounder; 16], text].concat();
    let mut octets = Aes::new(&derived(key, usage, 0xaa)).steal(&text);
    octets.extend(&hmac(&derived(key, usage, 0x55), &text)[..12]);
    octets
}

fn der(tag: u8, contents: &[u8]) -> Vec<u8> {
    let length = contents.len();
    let head = match length {
        0..0x80 => vec![tag, length as u8],
        0x80..0x100 => vec![tag, 0x81, length as u8],
        _ => vec![tag, 0x82, (length >> 8) as u8, length as u8],
    };
    [&head, contents].concat()
}

/// A SEQUENCE of these fields, each with its number.
fn sequence(fields: &[(u8, Vec<u8>)]) -> Vec<u8> {
    let fields: Vec<_> = fields.iter().map(|(n, x)| der(0xa0 + n, x)).collect();
    der(0x30, &fields.concat())
}

fn number(value: u32) -> Vec<u8> {
    let octets = u64::from(value).to_be_bytes();
    let from = (0..7)
        .find(|&i| octets[i] != 0 || octets[i + 1] > 0x7f)
        .unwrap_or(7);
    der(2, &octets[from..])
}

fn text(words: &str) -> Vec<u8> {
    der(0x1b, words.as_bytes())
}

fn time(words: &str) -> Vec<u8> {
    der(0x18, words.as_bytes())
}

fn flags(octets: [u8; 4]) -> Vec<u8> {
    der(3, &[&[0], &octets[..]].concat())
}

/// A name of these parts. Its letter U+00FF is the one byte ff there, which is not UTF-8.
fn name(kind: u32, parts: &[&str]) -> Vec<u8> {
    let octets = |part: &str| part.replace('\u{ff}', "\0").into_bytes();
    let latin = |octet| if octet == 0 { 0xff } else { octet };
    let parts: Vec<_> = parts
        .iter()
        .map(|part| {
            der(
                0x1b,
                &octets(part).into_iter().map(latin).collect::<Vec<_>>(),
            )
        })
        .collect();
    sequence(&[(0, number(kind)), (1, der(0x30, &parts.concat()))])
}

fn key(octets: &[u8; 32]) -> Vec<u8> {
    sequence(&[(0, number(18)), (1, der(4, octets))])
}

fn encrypted(cipher: &[u8]) -> Vec<u8> {
    sequence(&[(0, number(18)), (2, der(4, cipher))])
}

/// EncryptedData with the version of its key, if there is one (RFC 4120, section 5.2.9).
fn encrypted_by(version: Option<u32>, cipher: &[u8]) -> Vec<u8> {
    match version {
        None => encrypted(cipher),
        Some(version) => sequence(&[(0, number(18)), (1, number(version)), (2, der(4, cipher))]),
    }
}

/// AuthorizationData of these types and bytes (RFC 4120, section 5.2.6).
pub fn authorization(elements: &[(u32, &[u8])]) -> Vec<u8> {
    let elements: Vec<_> = elements
        .iter()
        .map(|(kind, octets)| sequence(&[(0, number(*kind)), (1, der(4, octets))]))
        .collect();
    der(0x30, &elements.concat())
}

/// The facts of a client in a ticket for host/server.example.com.
pub struct Ticket<'a> {
    pub name_type: u32,
    pub name: &'a [&'a str],
    pub flags: [u8; 4],
    /// The realms that it came through, in RFC 4120's compression.
    pub transited: &'a [u8],
    /// The version of the service's key, if the ticket names it.
    pub version: Option<u32>,
    /// The authorization data: types and bytes, in their order.
    pub authorization: &'a [(u32, &'a [u8])],
}

/// A user of the realm, with the flags FORWARDABLE and RENEWABLE.
pub const USER: Ticket = Ticket {
    name_type: 1,
    name: &["alice"],
    flags: [0x40, 0x80, 0, 0],
    transited: b"",
    version: None,
    authorization: &[],
};

/// The request of a client in its authenticator.
#[derive(Clone)]
pub struct Asked<'a> {
    /// The microsecond of the second `NOW`.
    pub microsecond: u32,
    pub name_type: u32,
    pub name: &'a [&'a str],
    /// The checksum's type and octets, if there is one.
    pub checksum: Option<(u32, Vec<u8>)>,
    /// Each octet of the confounder.
    pub confounder: u8,
}

/// The checksum of RFC 4121, section 4.1.1, over the MD5 of bindings.
pub fn checksum(bindings: [u8; 16], flags: u32) -> Option<(u32, Vec<u8>)> {
    let octets = [&[16, 0, 0, 0][..], &bindings, &flags.to_le_bytes()].concat();
    Some((0x8003, octets))
}

/// A client, with a ticket for the service host/server.example.com.
pub struct Client {
    ticket: Vec<u8>,
    session_key: [u8; 32],
}

impl Client {
    /// A client with this name in EXAMPLE.COM, with a ticket under the service's key.
    pub fn new(service_key: &[u8; 32], account: &str) -> Client {
        let name = &[account];
        Client::of(service_key, &Ticket { name, ..USER })
    }

    /// A client in EXAMPLE.COM with this ticket under the service's key.
    pub fn of(service_key: &[u8; 32], told: &Ticket) -> Client {
        let session_key = [0x5e; 32];
        let mut fields = vec![
            (0, flags(told.flags)),
            (1, key(&session_key)),
            (2, text("EXAMPLE.COM")),
            (3, name(told.name_type, told.name)),
            (4, sequence(&[(0, number(1)), (1, der(4, told.transited))])),
            (5, time(NOW_TEXT)),
            (7, time("20261128165122Z")),
        ];
        if !told.authorization.is_empty() {
            fields.push((10, authorization(told.authorization)));
        }
        let part = sequence(&fields);
        let cipher = sealed(service_key, 2, 0xc1, &der(0x63, &part));
        let ticket = sequence(&[
            (0, number(5)),
            (1, text("EXAMPLE.COM")),
            (2, name(3, &["host", "server.example.com"])),
            (3, encrypted_by(told.version, &cipher)),
        ]);
        Client {
            ticket: der(0x61, &ticket),
            session_key,
        }
    }

    /// The token of a connection, at this microsecond of the second `NOW`, with no bindings: replay, sequence, confidentiality, integrity.
    pub fn token(&self, account: &str, microsecond: u32) -> Vec<u8> {
        self.ask(&Asked {
            microsecond,
            name_type: 1,
            name: &[account],
            checksum: checksum([0; 16], 0x3c),
            confounder: 0xc2,
        })
    }

    /// The token of a connection.
    pub fn ask(&self, asked: &Asked) -> Vec<u8> {
        let mut fields = vec![
            (0, number(5)),
            (1, text("EXAMPLE.COM")),
            (2, name(asked.name_type, asked.name)),
        ];
        if let Some((kind, octets)) = &asked.checksum {
            fields.push((3, sequence(&[(0, number(*kind)), (1, der(4, octets))])));
        }
        fields.extend([
            (4, number(asked.microsecond)),
            (5, time(NOW_TEXT)),
            (6, key(&[0x6b; 32])),
            (7, number(0x1000_0000 + asked.microsecond)),
        ]);
        let part = der(0x62, &sequence(&fields));
        let cipher = sealed(&self.session_key, 11, asked.confounder, &part);
        let request = sequence(&[
            (0, number(5)),
            (1, number(14)),
            (2, flags([0; 4])),
            (3, self.ticket.clone()),
            (4, encrypted(&cipher)),
        ]);
        let mechanism = [0x06, 9, 0x2a, 0x86, 0x48, 0x86, 0xf7, 0x12, 1, 2, 2, 1, 0];
        der(0x60, &[&mechanism[..], &der(0x6e, &request)].concat())
    }
}
