//! The AES suites: sealing and opening with the keys kept and with keys derived at each call, HMAC, and password keys.

ghost use Rattle.std.specs.Prelude.{◌≡◌, length};
ghost use Rattle.krb_crypto.specs.Suite.{key_size};

use crate::timing::{Measurement, last_octets, repetitions};
use anyhow::Result;
use krb_crypto::{
    CipherSuite, CryptoError, SealingKey, decrypt, encrypt, generate_key_from_password, hmac_sha1,
};
use krb_der::boxed;
use std::rt::Clock;

const USAGE: u32 = 24;

const CONFOUNDER: [u8; 16] = [0x5a; 16];

const KEY: [u8; 32] = [
    0, 1, 2, 3, 4, 5, 6, 7, 8, 9, 10, 11, 12, 13, 14, 15, 16, 17, 18, 19, 20, 21, 22, 23, 24, 25,
    26, 27, 28, 29, 30, 31,
];

/// A text of 1 MiB.
const LONGEST: usize = 1_048_576;

/// A suite with a key of its length.
#[derive(Clone, Copy)]
struct Subject<'a> {
    name: &'static str,
    suite: CipherSuite,
    key: &'a [u8],
}

fn measured<'a>(
    subject: &'a str,
    action: &'a str,
    text: &[u8],
    repetitions: usize,
) -> Measurement<'a> {
    Measurement {
        subject,
        action,
        octets: text.len(),
        repetitions,
    }
}

fn measure_sealing(
    rt: &(impl Print + Eprint + Clock + AllocGlobal),
    name: &str,
    kept: &SealingKey,
    plain: &[u8],
    repetitions: usize,
) -> Result<()> {
    let alloc = rt.alloc();
    measured(name, "seal with the keys kept", plain, repetitions).run(rt, || {
        let text = kept.seal(alloc, CONFOUNDER, plain)?;
        Ok(last_octets(text.as_slice()))
    })
}

fn measure_opening(
    rt: &(impl Print + Eprint + Clock + AllocGlobal),
    name: &str,
    kept: &SealingKey,
    plain: &[u8],
    repetitions: usize,
) -> Result<()> {
    let alloc = rt.alloc();
    let sealed = kept.seal(alloc, CONFOUNDER, plain)?;
    let sealed = sealed.as_slice();
    measured(name, "open with the keys kept", plain, repetitions).run(rt, || {
        let text = kept.open(alloc, sealed)?;
        Ok(last_octets(text.as_slice()))
    })
}

/// One suite and one text, sealed and opened with the keys kept.
fn measure_kept(
    rt: &(impl Print + Eprint + Clock + AllocGlobal),
    subject: &Subject,
    plain: &[u8],
    repetitions: usize,
) -> Result<()>
    requires { length subject.now.key.now ≡ key_size subject.now.suite }
{
    let kept = SealingKey::new(subject.suite, subject.key, USAGE);
    let kept = boxed(rt.alloc(), kept)?;
    measure_sealing(rt, subject.name, &kept, plain, repetitions)?;
    measure_opening(rt, subject.name, &kept, plain, repetitions)
}

/// One suite and one text, sealed and opened with keys derived at each call.
fn measure_derived(
    rt: &(impl Print + Eprint + Clock + AllocGlobal),
    subject: &Subject,
    plain: &[u8],
    repetitions: usize,
) -> Result<()> {
    let alloc = rt.alloc();
    let suite = subject.suite;
    let key = subject.key;
    measured(subject.name, "seal with keys derived", plain, repetitions).run(rt, || {
        let text = encrypt(alloc, suite, key, USAGE, CONFOUNDER, plain)?;
        Ok(last_octets(text.as_slice()))
    })?;
    let sealed = encrypt(alloc, suite, key, USAGE, CONFOUNDER, plain)?;
    let sealed = sealed.as_slice();
    measured(subject.name, "open with keys derived", plain, repetitions).run(rt, || {
        let text = decrypt(alloc, suite, key, USAGE, sealed)?;
        Ok(last_octets(text.as_slice()))
    })
}

/// Password keys of one suite.
fn measure_password(
    rt: &(impl Print + Eprint + Clock),
    subject: &Subject,
    full: bool,
) -> Result<()> {
    let suite = subject.suite;
    let measured = Measurement {
        subject: subject.name,
        action: "password key",
        octets: 0,
        repetitions: if full { 200 } else { 1 },
    };
    measured.run(rt, || {
        let key = generate_key_from_password(suite, b"password", b"ATHENA.MIT.EDUraeburn");
        Ok(last_octets(key.as_slice()))
    })
}

/// The code of a text.
fn measure_hmac(
    rt: &(impl Print + Eprint + Clock),
    message: &[u8],
    repetitions: usize,
) -> Result<()> {
    measured("hmac-sha1", "code", message, repetitions).run(rt, || {
        Ok(last_octets(&hmac_sha1(&KEY, message, &[])))
    })
}

/// Measures both suites over the front of a text in four lengths.
fn measure_fronts(
    rt: &(impl Print + Eprint + Clock + AllocGlobal),
    all: &[u8],
    full: bool,
) -> Result<()> {
    let short = Subject {
        name: "aes128-cts-hmac-sha1-96",
        suite: CipherSuite::Aes128CtsHmacSha196,
        key: &KEY[..16],
    };
    let long = Subject {
        name: "aes256-cts-hmac-sha1-96",
        suite: CipherSuite::Aes256CtsHmacSha196,
        key: &KEY,
    };
    for octets in [64, 1024, 16384, LONGEST] {
        let plain = match all.get(..octets) {
            Some(plain) => plain,
            None => all,
        };
        let times = repetitions(octets, full);
        measure_kept(rt, &short, plain, times)?;
        measure_kept(rt, &long, plain, times)?;
        measure_derived(rt, &short, plain, times)?;
        measure_derived(rt, &long, plain, times)?;
        measure_hmac(rt, plain, times)?;
    }
    measure_password(rt, &short, full)?;
    measure_password(rt, &long, full)
}

/// Measures both suites over texts of 64 octets, 1 KiB, 16 KiB and 1 MiB.
pub fn run(rt: &(impl Print + Eprint + Clock + AllocGlobal), full: bool) -> Result<()> {
    let all = vec![in rt.alloc(); 7u8; LONGEST]?;
    measure_fronts(rt, all.as_slice(), full)
}
