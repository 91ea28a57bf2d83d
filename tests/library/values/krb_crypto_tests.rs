//! The suites on outside vectors, and what no clause says: that calls succeed with ample memory, and printed words.

mod vectors;

ghost use Rattle.std.specs.Prelude.{◌≡◌, ◌≤◌, length};
ghost use Rattle.krb_crypto.specs.Suite.{key_size};

use hex::FromHex;
use krb_aes::KeySchedule;
use krb_crypto::{
    AesSize, CipherSuite, CryptoError, DerivedKey, SealingKey, checksum_sha_aes, cts_decrypt,
    cts_encrypt, decrypt, decrypt_no_checksum, derive_key, encrypt, encrypt_no_checksum,
    encryption_checksum, generate_key_from_password, hmac_sha1, n_fold, pbkdf2, start_checksum,
};
use std::alloc::Global;
use std::process::Abort;
use std::test::Fail;
use vectors::{
    BARE, CHECKSUMS, CODES, COUNTED, DERIVED, DINNER, FOLDED, PASSWORD_KEYS, PASSWORDS, SEALED,
    STOLEN,
};

/// The octets of a field. They lie in place, so that a row owns nothing.
#[derive(Clone, Copy)]
struct Field {
    octets: [u8; 256],
    length: usize,
    ghost fits: { length ≤ 256 },
}

impl Field {
    fn as_slice(&self) -> &[u8]
        ensures { length result.now ≡ self.now.length }
    {
        &self.octets[..self.length]
    }
}

/// The octets that the next field has in hex; `-` is none.
fn octets(field: Option<&str>) -> Result<Field, Fail> {
    let digits = field.ok_or("a field is missing")?;
    let length = if digits == "-" { 0 } else { digits.len() / 2 };
    let mut octets = [0; 256];
    if length > 256 {
        return Err(Fail::from("a field is too long"));
    }
    if length > 0 {
        hex::decode_to_slice(digits, &mut octets[..length])?;
    }
    Ok(Field { octets, length })
}

fn block(field: Option<&str>) -> Result<[u8; 16], Fail> {
    let digits = field.ok_or("a block is missing")?;
    Ok(<[u8; 16]>::from_hex(digits)?)
}

fn number(field: Option<&str>) -> Result<u32, Fail> {
    let digits = field.ok_or("a number is missing")?;
    Ok(digits.parse::<u32>()?)
}

fn suite(field: Option<&str>) -> Result<CipherSuite, Fail> {
    Ok(CipherSuite::try_from(i64::from(number(field)?))?)
}

/// Encrypts and decrypts the first octets of a text, and compares with the expected ones.
fn steals(
    rt: &(impl Abort + AllocGlobal),
    key: &KeySchedule,
    text: &[u8],
    line: &str,
) -> Result<(), Fail> {
    let mut fields = line.split_ascii_whitespace();
    let length = number(fields.next())? as usize;
    let expected = octets(fields.next())?;
    assert!(rt; 16 <= length && length <= text.len());
    let mut found = Vec::from_slice(rt.alloc(), &text[..length])?;
    cts_encrypt(key, found.as_mut_slice());
    assert_eq!(rt; found.as_slice(), expected.as_slice());
    cts_decrypt(key, found.as_mut_slice());
    assert_eq!(rt; found.as_slice(), &text[..length]);
    Ok(())
}

#[test]
fn texts_are_stolen_from_as_in_rfc_3962(rt: HostRuntime) -> Result<(), Fail> {
    let short = KeySchedule::new(b"chicken teriyaki");
    for line in STOLEN.lines() {
        steals(&rt, &short, DINNER, line)?;
    }
    let mut counted = [0u8; 245];
    for i in 0..245 {
        counted[i as usize] = i;
    }
    let key = <[u8; 32]>::from_hex(
        "000102030405060708090a0b0c0d0e0f101112131415161718191a1b1c1d1e1f",
    )?;
    let long = KeySchedule::new(&key);
    for line in COUNTED.lines() {
        steals(&rt, &long, &counted, line)?;
    }
    Ok(())
}

#[test]
fn inputs_are_folded(rt: HostRuntime) -> Result<(), Fail> {
    for line in FOLDED.lines() {
        let mut fields = line.split_ascii_whitespace();
        let input = octets(fields.next())?;
        let expected = block(fields.next())?;
        let input = input.as_slice();
        assert!(rt; 1 <= input.len() && input.len() <= 1024);
        assert_eq!(rt; n_fold(input), expected);
    }
    Ok(())
}

fn assert_key(rt: &impl Abort, key: &DerivedKey, field: Option<&str>) -> Result<(), Fail> {
    let expected = octets(field)?;
    assert_eq!(rt; key.as_slice(), expected.as_slice());
    Ok(())
}

#[test]
fn passwords_give_the_keys_of_rfc_3962(rt: HostRuntime) -> Result<(), Fail> {
    for line in PASSWORDS.lines() {
        let mut fields = line.split_ascii_whitespace();
        let iterations = number(fields.next())?;
        let password = octets(fields.next())?;
        let salt = octets(fields.next())?;
        assert!(rt; 1 <= iterations);
        for suite in [
            CipherSuite::Aes128CtsHmacSha196,
            CipherSuite::Aes256CtsHmacSha196,
        ] {
            let size = suite.key_size();
            let key = pbkdf2(password.as_slice(), salt.as_slice(), iterations, size);
            assert_key(&rt, &key, fields.next())?;
            let derived = derive_key(suite, key.as_slice(), b"kerberos");
            assert_key(&rt, &derived, fields.next())?;
        }
    }
    Ok(())
}

#[test]
fn a_password_key_takes_4096_iterations(rt: HostRuntime) -> Result<(), Fail> {
    for (suite, expected) in PASSWORD_KEYS {
        let key = generate_key_from_password(suite, b"password", b"ATHENA.MIT.EDUraeburn");
        assert_key(&rt, &key, Some(expected))?;
    }
    Ok(())
}

#[test]
fn codes_are_those_of_rfc_2202(rt: HostRuntime) -> Result<(), Fail> {
    for line in CODES.lines() {
        let mut fields = line.split_ascii_whitespace();
        let key = octets(fields.next())?;
        let message = octets(fields.next())?;
        let expected = octets(fields.next())?;
        let message = message.as_slice();
        let middle = message.len() / 2;
        let whole = hmac_sha1(key.as_slice(), message, &[]);
        assert_eq!(rt; whole.as_slice(), expected.as_slice());
        let parts = hmac_sha1(key.as_slice(), &message[..middle], &message[middle..]);
        assert_eq!(rt; parts.as_slice(), expected.as_slice());
    }
    Ok(())
}

/// The key derived from a usage and an octet after it.
fn usage_key(suite: CipherSuite, key: &[u8], usage: u32, octet: u8) -> DerivedKey
    requires { length key.now ≡ key_size suite }
{
    let [a, b, c, d] = usage.to_be_bytes();
    derive_key(suite, key, &[a, b, c, d, octet])
}

#[test]
fn usages_have_their_keys(rt: HostRuntime) -> Result<(), Fail> {
    for line in DERIVED.lines() {
        let mut fields = line.split_ascii_whitespace();
        let suite = suite(fields.next())?;
        let key = octets(fields.next())?;
        let usage = number(fields.next())?;
        let key = key.as_slice();
        assert!(rt; key.len() == suite.key_size());
        let encryption = usage_key(suite, key, usage, 0xaa);
        assert_key(&rt, &encryption, fields.next())?;
        let integrity = usage_key(suite, key, usage, 0x55);
        assert_key(&rt, &integrity, fields.next())?;
        let checksum = usage_key(suite, key, usage, 0x99);
        assert_key(&rt, &checksum, fields.next())?;
    }
    Ok(())
}

/// The checksum by each call that makes one next to a sealed text.
fn seals_a_checksum(
    rt: &impl Abort,
    suite: CipherSuite,
    key: &[u8],
    usage: u32,
    message: &[u8],
    expected: &[u8],
) -> Result<(), Fail>
    requires { length key.now ≡ key_size suite }
{
    let (front, back) = message.split_at(message.len() / 2);
    let whole = encryption_checksum(suite, key, usage, front, back)?;
    assert_eq!(rt; whole.as_slice(), expected);
    let kept = SealingKey::new(suite, key, usage);
    assert_eq!(rt; kept.checksum(message, &[]).as_slice(), expected);
    Ok(())
}

/// The checksum by each call that makes one alone.
fn makes_a_checksum(
    rt: &impl Abort,
    suite: CipherSuite,
    key: &[u8],
    usage: u32,
    message: &[u8],
    expected: &[u8],
) -> Result<(), Fail>
    requires { length key.now ≡ key_size suite }
{
    let (front, back) = message.split_at(message.len() / 2);
    let size = match suite {
        CipherSuite::Aes128CtsHmacSha196 => AesSize::Aes128,
        CipherSuite::Aes256CtsHmacSha196 => AesSize::Aes256,
    };
    let whole = checksum_sha_aes(key, usage, front, back, size)?;
    assert_eq!(rt; whole.as_slice(), expected);
    let mut state = start_checksum(suite, key, usage);
    state.update(front);
    state.update(back);
    assert_eq!(rt; state.finalize_short().as_slice(), expected);
    Ok(())
}

#[test]
fn checksums_take_the_keys_of_their_kind(rt: HostRuntime) -> Result<(), Fail> {
    for line in CHECKSUMS.lines() {
        let mut fields = line.split_ascii_whitespace();
        let suite = suite(fields.next())?;
        let key = octets(fields.next())?;
        let usage = number(fields.next())?;
        let message = octets(fields.next())?;
        let sealing = octets(fields.next())?;
        let alone = octets(fields.next())?;
        let (key, message) = (key.as_slice(), message.as_slice());
        assert!(rt; key.len() == suite.key_size());
        seals_a_checksum(&rt, suite, key, usage, message, sealing.as_slice())?;
        makes_a_checksum(&rt, suite, key, usage, message, alone.as_slice())?;
    }
    Ok(())
}

/// A row of texts that are sealed or encrypted.
#[derive(Clone, Copy)]
struct Row {
    suite: CipherSuite,
    key: Field,
    usage: u32,
    confounder: [u8; 16],
    plain: Field,
    expected: Field,
}

fn parsed(line: &str) -> Result<Row, Fail> {
    let mut fields = line.split_ascii_whitespace();
    Ok(Row {
        suite: suite(fields.next())?,
        key: octets(fields.next())?,
        usage: number(fields.next())?,
        confounder: block(fields.next())?,
        plain: octets(fields.next())?,
        expected: octets(fields.next())?,
    })
}

/// Seals and opens a text by the calls that derive the keys.
fn seals(rt: &(impl Abort + AllocGlobal), row: &Row) -> Result<(), Fail> {
    let (key, plain, expected) = (
        row.key.as_slice(),
        row.plain.as_slice(),
        row.expected.as_slice(),
    );
    let sealed = encrypt(rt.alloc(), row.suite, key, row.usage, row.confounder, plain)?;
    assert_eq!(rt; sealed.as_slice(), expected);
    let opened = decrypt(rt.alloc(), row.suite, key, row.usage, expected)?;
    assert_eq!(rt; opened.as_slice(), plain);
    Ok(())
}

/// The result by a key that keeps them.
fn keeps(rt: &(impl Abort + AllocGlobal), kept: &SealingKey, row: &Row) -> Result<(), Fail> {
    let (plain, expected) = (row.plain.as_slice(), row.expected.as_slice());
    let sealed = kept.seal(rt.alloc(), row.confounder, plain)?;
    assert_eq!(rt; sealed.as_slice(), expected);
    let opened = kept.open(rt.alloc(), expected)?;
    assert_eq!(rt; opened.as_slice(), plain);
    Ok(())
}

/// The result in place.
fn keeps_in_place(rt: &impl Abort, kept: &SealingKey, row: &Row) -> Result<(), Fail> {
    let mut field = row.expected;
    let length = field.length;
    assert!(rt; 28 <= length && length == row.plain.length + 28);
    kept.open_in_place(&mut field.octets[..length])?;
    assert_eq!(rt; &field.octets[16..length - 12], row.plain.as_slice());
    kept.seal_in_place(&mut field.octets[..length]);
    assert_eq!(rt; field.as_slice(), row.expected.as_slice());
    Ok(())
}

#[test]
fn texts_are_sealed_and_opened(rt: HostRuntime) -> Result<(), Fail> {
    for line in SEALED.lines() {
        let row = parsed(line)?;
        let key = row.key.as_slice();
        assert!(rt; key.len() == row.suite.key_size());
        seals(&rt, &row)?;
        let kept = SealingKey::new(row.suite, key, row.usage);
        keeps(&rt, &kept, &row)?;
        keeps_in_place(&rt, &kept, &row)?;
    }
    Ok(())
}

/// Encrypts a text, and decrypts it with twelve octets after it.
fn encrypts(rt: &(impl Abort + AllocGlobal), row: &Row) -> Result<(), Fail> {
    let (suite, key, usage, plain) = (
        row.suite,
        row.key.as_slice(),
        row.usage,
        row.plain.as_slice(),
    );
    let bare = encrypt_no_checksum(rt.alloc(), suite, key, usage, row.confounder, plain)?;
    assert_eq!(rt; bare.as_slice(), row.expected.as_slice());
    let mut bare = bare.into_inner();
    bare.extend_from_slice(b"twelve more.")?;
    let opened = decrypt_no_checksum(rt.alloc(), suite, key, usage, bare.as_slice())?;
    assert_eq!(rt; opened.confounder, row.confounder);
    assert_eq!(rt; opened.plain.as_slice(), plain);
    assert_eq!(rt; opened.checksum, *b"twelve more.");
    Ok(())
}

#[test]
fn texts_are_encrypted_without_a_checksum(rt: HostRuntime) -> Result<(), Fail> {
    for line in BARE.lines() {
        encrypts(&rt, &parsed(line)?)?;
    }
    Ok(())
}

#[test]
fn refusals_come_in_their_order(rt: HostRuntime) {
    let alloc = rt.alloc();
    let suite = CipherSuite::Aes256CtsHmacSha196;
    assert_eq!(rt; CipherSuite::try_from(16).err(), Some(CryptoError::Etype));
    assert_eq!(rt; suite.number(), 18);
    let short = decrypt(alloc, suite, &[7; 31], 3, &[0; 27]).err();
    assert_eq!(rt; short, Some(CryptoError::KeyLength));
    let short = decrypt(alloc, suite, &[7; 32], 3, &[0; 27]).err();
    assert_eq!(rt; short, Some(CryptoError::TooShort));
}

/// Each octet of a sealed text counts.
#[test]
fn an_altered_text_is_refused(rt: HostRuntime) -> Result<(), Fail> {
    let suite = CipherSuite::Aes256CtsHmacSha196;
    let sealed = encrypt(rt.alloc(), suite, &[7; 32], 3, [5; 16], b"plain")?;
    let mut octets = sealed.into_inner();
    for i in 0..octets.len() {
        octets[i] ^= 1;
        let refused = decrypt(rt.alloc(), suite, &[7; 32], 3, octets.as_slice()).err();
        assert_eq!(rt; refused, Some(CryptoError::Altered));
        octets[i] ^= 1;
    }
    Ok(())
}

#[test]
fn an_error_is_printed_by_its_name(rt: HostRuntime) -> Result<(), Fail> {
    let printed = format!(in rt.alloc(); "{}", CryptoError::KeyLength)?;
    assert_eq!(rt; printed.as_str(), "KeyLength");
    Ok(())
}
