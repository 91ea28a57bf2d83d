//! The session key that an AS-REP brings.

use crate::rows::is_hex;
use crate::services::{user_with_key, user_with_password};
use krb_as::{Asker, reply_key};
use krb_conf::Env;
use krb_context::Rules;
use krb_crypto::CipherSuite;
use krb_der::{Asn1, Name, Text, boxed};
use krb_exchange::AsRep;
use krb_replies::ReplyKey;
use sspi_core::{Cause, CredentialsBuffers};
use std::alloc::Global;
use std::test::Fail;

/// An AS-REP that tells AES-256 and the salt EXAMPLE.COMservice.
const TELLS: &str =
    "6b8201e3308201dfa003020105a10302010ba22c302a3028a103020113a221041f301d301ba003020112a1141b124558414d504c452e434f4d73657276696365a30d1b0b4558414d504c452e434f4da4143012a003020101a10b30091b0773657276696365a58186618183308180a003020105a10d1b0b4558414d504c452e434f4da220301ea003020102a11730151b066b72627467741b0b4558414d504c452e434f4da3483046a003020112a23f043d3d444b525960676e757c838a91989fa6adb4bbc2c9d0d7dee5ecf3fa01080f161d242b323940474e555c636a71787f868d949ba2a9b0b7bec5ccd3dae1a681f63081f3a003020112a281eb0481e853092ec9488cebede8bab02aa3a2fb0ceec6497d0d326a27b9955b0953f6870d1f3cbac6d0ad5af054a2660e0b1fc34041a1b6aeb7fa6ea9d8a31a6f9916073ee55394fe889a3351bf821284f555835c367b60ffed30e82801cd5d4586ee5806b1d68a974a9c34d67cee1153607e4bade435f9377c01fbc201171dce432aa86345a32b72b3ffceee313ddfe0a02fa1cf86a6699a84e2e208f36cadd981dd630de81367f7a97b0754657d7a4b5a566a1586821f69f787f1d00a15138af33b684aa1897055229cb5fc9dca5b712593ab0754007c95b709134c23e1d7bea3e9110c8f3d63044487f661";

/// The key of the credentials: that of a password, or one in hex.
enum Credentials {
    Password(&'static str),
    Key(&'static str),
}

/// An AS-REP in hex, the credentials, the salt of the request, and the suite and the key in hex, or the refusal.
struct AsReply {
    as_rep: &'static str,
    credentials: Credentials,
    salt: &'static str,
    key: Result<(CipherSuite, &'static str), Cause>,
}

static AS_REPLIES: [AsReply; 6] = [
    // An AS-REP that tells nothing: the salt is that of the request.
    AsReply {
        as_rep: "6b8201b1308201ada003020105a10302010ba30d1b0b4558414d504c452e434f4da4123010a003020101a10930071b05616c696365a58184618181307fa003020105a10d1b0b4558414d504c452e434f4da220301ea003020102a11730151b066b72627467741b0b4558414d504c452e434f4da3473045a003020112a23e043c3c434a51585f666d747b828990979ea5acb3bac1c8cfd6dde4ebf2f900070e151c232a31383f464d545b626970777e858c939aa1a8afb6bdc4cbd2d9a681f63081f3a003020112a281eb0481e88f679d9820113b1a631a2b53fe82163274663dda046fe982251b8b92954170c2426fe153b9365bda963e2aababf15689421232407cb0f955961b00b5c3126a0a262410a67041a33a9d1cccef0a0718109d1979fd28a597cd7a78d2262297ffa715212bb349bd8dcf7f30e77b2f49466cb1d5707d214e047c295fb60921b3add7b6d508f5839fed9af6e7f0c891ddd610a94f31b37abd71db1953132b706be88699105c3fe0b45b58bc89d6c2cbf8f1607c994b53734017b0d45779a07f77b35421d25de58e78a21129e4d43864a079e2bf23310538b00d3e46343870cf961e1e19da02e3524436ff",
        credentials: Credentials::Password("secret"),
        salt: "EXAMPLE.COMalice",
        key: Ok((
            CipherSuite::Aes256CtsHmacSha196,
            "404142434445464748494a4b4c4d4e4f505152535455565758595a5b5c5d5e5f",
        )),
    },
    AsReply {
        as_rep: TELLS,
        credentials: Credentials::Password("pass"),
        salt: "EXAMPLE.COMalice",
        key: Ok((
            CipherSuite::Aes256CtsHmacSha196,
            "de8aa186954ad669e116c23f203e4ff44f159e9c3cba98d7aee4fc99ee17bbe4",
        )),
    },
    // An AS-REP that tells AES-128 and the salt NaCl, and brings a key of five octets.
    AsReply {
        as_rep: "6b8201b6308201b2a003020105a10302010ba21e301c301aa103020113a2130411300f300da003020111a1061b044e61436ca30d1b0b4558414d504c452e434f4da4123010a003020101a10930071b05616c696365a58184618181307fa003020105a10d1b0b4558414d504c452e434f4da220301ea003020102a11730151b066b72627467741b0b4558414d504c452e434f4da3473045a003020111a23e043c3c434a51585f666d747b828990979ea5acb3bac1c8cfd6dde4ebf2f900070e151c232a31383f464d545b626970777e858c939aa1a8afb6bdc4cbd2d9a681db3081d8a003020111a281d00481cd10c7eafd08d90ad448f553292392fe754d4c87844cd5c257525fa3cbcf219200f3bd927bb07756309f1b1b84de3015101f9e5ec3a47c1cc65fbdb3b1244f3ae8d280e53d50f7ac764ea9c015ebf6fed9ad61edcf495d7a364947c41af006f054552f11c38b2d3cad63e92696b2be605ed2b23610659e05895d2fd1ff89b85efe9e184374f283bfd595f3e1228c29ece3d3e5ca8dace0fb943350d9ff228657ce26c623ff4a77e08144f199ce64810bbdd245c8c8672f9b0ed02b8b6692bd54e78c65f8a62a05b23f989ec10a8a",
        credentials: Credentials::Password("a"),
        salt: "EXAMPLE.COMalice",
        key: Ok((CipherSuite::Aes128CtsHmacSha196, "73686f7274")),
    },
    // The key of the password `pass` with that salt.
    AsReply {
        as_rep: TELLS,
        credentials: Credentials::Key(
            "34f0537178ec57626f04265aa9d71a7f4eac59ba567ac861bd94f19e4658df74",
        ),
        salt: "",
        key: Ok((
            CipherSuite::Aes256CtsHmacSha196,
            "de8aa186954ad669e116c23f203e4ff44f159e9c3cba98d7aee4fc99ee17bbe4",
        )),
    },
    AsReply {
        as_rep: TELLS,
        credentials: Credentials::Key(
            "34f0537178ec57626f04265aa9d71a7f4eac59ba567ac861bd94f19e4658df75",
        ),
        salt: "",
        key: Err(Cause::Altered),
    },
    AsReply {
        as_rep: TELLS,
        credentials: Credentials::Key("34f0537178ec57626f04265aa9d71a7f"),
        salt: "",
        key: Err(Cause::KeyLength),
    },
];

fn as_replies() -> &'static [AsReply] {
    &AS_REPLIES
}

fn credentials_of(
    alloc: Global,
    credentials: &Credentials,
) -> Result<Box<CredentialsBuffers>, Fail> {
    match credentials {
        Credentials::Password(password) => {
            user_with_password(alloc, "alice", "EXAMPLE.COM", password)
        }
        Credentials::Key(key) => user_with_key(alloc, key),
    }
}

fn realm(alloc: Global) -> Result<Name, Fail> {
    let realm = Vec::from_slice(alloc, b"EXAMPLE.COM")?;
    Ok(Name::new(realm).ok_or("not ASCII")?)
}

/// The user with these credentials. Nothing else of it counts.
fn asker_of(alloc: Global, row: &AsReply) -> Result<Box<Asker>, Fail> {
    let credentials = credentials_of(alloc, &row.credentials)?;
    let realm = realm(alloc)?;
    let asker = Asker {
        kdc_url: None,
        env: Env::new(alloc),
        realm,
        suite: CipherSuite::Aes256CtsHmacSha196,
        credentials: Box::into_inner(credentials),
        rules: Rules::none(),
    };
    Ok(boxed(alloc, asker)?)
}

fn as_rep_of(alloc: Global, digits: &str) -> Result<Box<AsRep>, Fail> {
    let octets = hex::decode(alloc, digits)?;
    Ok(boxed(alloc, AsRep::read(alloc, &octets)?)?)
}

/// The result of the AS-REP for the user.
fn key_of(alloc: Global, asker: &Asker, row: &AsReply) -> Result<Result<ReplyKey, Cause>, Fail> {
    let salt = Text::from_str(alloc, row.salt)?;
    let as_rep = as_rep_of(alloc, row.as_rep)?;
    Ok(reply_key(alloc, asker, &salt, &as_rep))
}

fn is_key(alloc: Global, made: &ReplyKey, wanted: &Result<(CipherSuite, &str), Cause>) -> bool {
    match wanted {
        Ok((suite, key)) => {
            made.suite == *suite && is_hex(alloc, made.key.as_ref().as_slice(), key)
        }
        Err(_) => false,
    }
}

fn brings_so(alloc: Global, asker: &Asker, row: &AsReply) -> Result<bool, Fail> {
    match key_of(alloc, asker, row)? {
        Ok(made) => Ok(is_key(alloc, &made, &row.key)),
        Err(cause) => Ok(row.key.err() == Some(cause)),
    }
}

fn is_brought_so(alloc: Global, row: &AsReply) -> Result<bool, Fail> {
    let asker = asker_of(alloc, row)?;
    brings_so(alloc, &asker, row)
}

#[test]
fn an_as_rep_brings_a_session_key(rt: HostRuntime) -> Result<(), Fail> {
    for (place, row) in as_replies().iter().enumerate() {
        assert!(rt; is_brought_so(rt.alloc(), row)?, "at {place}");
    }
    Ok(())
}
