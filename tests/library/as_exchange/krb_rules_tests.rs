//! Values that a client takes from replies of the KDCs of MIT krb5 and of Heimdal, by rules that its context goes by.

use crate::rows::is_row;
use bitflags::Flags;
use krb_as::{Asker, reply_key};
use krb_conf::Env;
use krb_context::Rules;
use krb_crypto::CipherSuite;
use krb_der::{Asn1, Name, Text, boxed};
use krb_exchange::{AsRep, TgsRep};
use krb_replies::{ReplyKey, key_in_tgs_rep};
use sspi_core::{AuthIdentityBuffers, Cause, CredentialsBuffers, Secret};
use std::alloc::Global;
use std::test::Fail;

/// The AS-REP that the KDC of MIT krb5 1.20.1 gave alice. Its sealed part has application tag 26.
const TAGGED_26: &str =
    "6b82033e3082033aa003020105a10302010ba22a30283026a103020113a21f041d301b3019a003020112a1121b104558414d504c452e434f4d616c\
     696365a30d1b0b4558414d504c452e434f4da4123010a003020101a10930071b05616c696365a58201c6618201c2308201bea003020105a10d1b0b\
     4558414d504c452e434f4da220301ea003020102a11730151b066b72627467741b0b4558414d504c452e434f4da382018430820180a003020112a1\
     03020101a28201720482016ead057de1bf0851467c0b9f950fd5a6ac87a24d8822a52278120c1071e48767f97224b3b4f430e1985692bf8dbe62a7\
     d47aa17c04a521274b09897e658ad78de32c8d213674a00b98a01215ac5de8fc0c46de98d228e75cf1ee10a7b22a2230aa6b77b8e3b15c3d70657c\
     bf04a3ede428de3cad70e17038bc347497f12174eab74978169f652afd73295ec093d57f2e2abf97f96f532a28359431677e78bdb582de0a3daa83\
     473abdae213005b981aa810c5dcc599bc583043a28e066bb118f1d47ef06164bf76dc55dbb00414d494043ef3650e5fb44f5790a96b8c7ae880e1e\
     74fcdb799b7cc15095204b306e814bb2286e124ad98faf0f51c6f37b83c43f9059e96a54c708fdca6497de44f974213331ec894eff8cea7bd8732b\
     05b94d11626c7c87b48aab50fedcc796a30f860af176e7128ca21a80a2a03d19378f335b86709f4b8546fb1ffb3e6d325c6014bb68553dabb41e7f\
     9a6e486425506af7d110cb43a412ba0f02d7350f5d818d79a68201133082010fa003020112a282010604820102691d13e4c2ba6c8a58803e99ea01\
     348e4b64d8e8335e3ad8525dfb9e2c529d5ac8f392b118fa911be8ef4187685760afdb59bfcc0f2e8bfdcd129b58088a349368d16f08ff518ba4e9\
     38ea08b1e1c15f500bc1434f989b10e977abbe266b023f82093c51051f8d0e5975636ca39ebe0d614bdd4606dcba0519c29fed1666ff53752bcfdc\
     4e59f2e515d2615a069b1b967b7ba014b7b5e91c66d60ae62050703ebad3626c2716d9ebf0bbf569c99401ef9055d992d7b1ff0e75a587607fa337\
     b4fe359cd43dda6fecc92dcef1b74d40643821b2e388da513b950623874b746943c16d271788782f37e722803d9ce60684046b8bbe6c59a53fd1ea\
     c6f17db4f9a34e0c";

/// The session key that is sealed in it, as another implementation of RFC 3962 opens it.
const ITS_KEY: &str = "3f82c69b36492b5b52f8768c21c5f19d459e9a7314959d73baf71318b273989c";

fn alice(alloc: Global, password: &str) -> Result<CredentialsBuffers, Fail> {
    Ok(CredentialsBuffers::AuthIdentity(AuthIdentityBuffers {
        user: Text::from_str(alloc, "alice")?,
        domain: Text::from_str(alloc, "EXAMPLE.COM")?,
        password: Secret::new(Text::from_str(alloc, password)?),
    }))
}

fn realm(alloc: Global) -> Result<Name, Fail> {
    let realm = Vec::from_slice(alloc, b"EXAMPLE.COM")?;
    Ok(Name::new(realm).ok_or("not ASCII")?)
}

fn asker(alloc: Global, password: &str, rules: Rules) -> Result<Asker, Fail> {
    Ok(Asker {
        kdc_url: None,
        env: Env::new(alloc),
        realm: realm(alloc)?,
        suite: CipherSuite::Aes256CtsHmacSha196,
        credentials: alice(alloc, password)?,
        rules,
    })
}

/// The result of the AS-REP for alice with these rules.
fn brought(alloc: Global, password: &str, rules: Rules) -> Result<Result<ReplyKey, Cause>, Fail> {
    let asker = asker(alloc, password, rules)?;
    let salt = Text::from_str(alloc, "EXAMPLE.COMalice")?;
    let octets = hex::decode(alloc, TAGGED_26)?;
    let as_rep = boxed(alloc, AsRep::read(alloc, &octets)?)?;
    Ok(reply_key(alloc, &asker, &salt, &as_rep))
}

fn is_refused(answer: Result<ReplyKey, Cause>, wanted: Cause) -> bool {
    match answer {
        Ok(_) => false,
        Err(cause) => cause == wanted,
    }
}

#[test]
fn a_part_with_tag_26_is_opened_where_that_is_a_rule(rt: HostRuntime) -> Result<(), Fail> {
    let rules = Rules::AS_REP_TAGGED_26;
    match brought(rt.alloc(), "alice-password", rules)? {
        Ok(made) => {
            assert!(rt; is_row(made.key.as_ref().as_slice(), ITS_KEY));
            Ok(())
        }
        Err(_) => Err(Fail::from("refused")),
    }
}

#[test]
fn a_part_with_tag_26_is_refused_else(rt: HostRuntime) -> Result<(), Fail> {
    let alloc = rt.alloc();
    let none = Rules::none();
    let others = Rules::from_bits_retain(0x1fe);
    assert!(rt; is_refused(brought(alloc, "alice-password", none)?, Cause::Inner));
    assert!(rt; is_refused(brought(alloc, "alice-password", others)?, Cause::Inner));
    Ok(())
}

#[test]
fn another_password_opens_no_part_with_tag_26(rt: HostRuntime) -> Result<(), Fail> {
    let rules = Rules::AS_REP_TAGGED_26;
    assert!(rt; is_refused(brought(rt.alloc(), "alice", rules)?, Cause::Altered));
    Ok(())
}

/// The TGS-REP that the KDC of Heimdal 7.8 gave alice for aes128/server.example.com, whose one key is of AES-128. It is sealed under a key
/// of AES-256.
const OF_ANOTHER_SUITE: &str =
    "6d82029930820295a003020105a10302010da30d1b0b4558414d504c452e434f4da4123010a003020101a10930071b05616c696365a58201606182\
     015c30820158a003020105a10d1b0b4558414d504c452e434f4da2273025a003020101a11e301c1b066165733132381b127365727665722e657861\
     6d706c652e636f6da382011730820113a003020111a103020101a282010504820101dabc67d86859e1e69918b930491707b3ff47dcf3a7dc7f23e2\
     6ad546047fc5a847670475892868f8252f1e8e41c398c5dccfe5f2e2bccd71a8ffbb2d36ebc18fb123d4bad3316a6889f553745e230846af84a4d8\
     cf0ff11581d3eb5879fa1a3567c68f9ac42d31931e28e8db3b70b8f3b55a1ac7bbf5a95ba5a62ba0d80b28553a9177766faf43e1ac61d566b5e6a6\
     94fd35f39471d8130e55892e2a5322d1d553dd44a272ec6728490d96d25ead29fbb3ccde79063493f5f1e85b102ac6e363cab5d2ea10b77766b051\
     0e736543eb829514a6105be3b7e2e7090a432b37d656392b3ceecc18995463d70ce1aafa52922be7e68f66b93e01a32d2f315df2946d2aa6820100\
     3081fda003020112a281f50481f2cbc1928048657fb508bec3a15a28bfb6ef63973250c0b12c86ec9bb4c7fcb10aa17ce9d39cd12a297053520e69\
     83080fac9d8650c5d160f2d89e65c56398892e5bd3793dde7257a47ca88bcec92ea7cd87bfa3b9021c1b2be495aeda1145724feffbce56c6370e4c\
     559bd52fa18a4cb430e4678cb6495b3b0b57f8a4097b930849da0a905d02723bcdfcb2676943c23e35cb8ec7c806d3e842759f8f486df1f86f03f3\
     a892ca8e7b53bc77d9ee857d7a9ac844db4213c9fd75789f804730b0cee1eed43f3c4621907cc7d6aac3cd8ffb5f17173251bf6bcd0c8cc146fa20\
     2d29c1a610953b802adb8f8c67fbd0ec36fc4eb0";

/// The session key of her ticket-granting ticket, as another implementation of RFC 3962 finds it in the AS-REP before it.
const KEY_BEFORE: &str = "341f6ee3056fc044814f94df901bc04b985da5dffbb05cb12ac668e1c6057cd3";

/// The session key that is sealed in it, of type 17, as that implementation opens it.
const KEY_BEHIND: &str = "88996aff6a987206049e905fe3de1c49";

/// The key that the TGS-REP brings alice with these rules.
fn handed_on(alloc: Global, rules: Rules) -> Result<Result<ReplyKey, Cause>, Fail> {
    let before = hex::decode(alloc, KEY_BEFORE)?;
    let octets = hex::decode(alloc, OF_ANOTHER_SUITE)?;
    let tgs_rep = boxed(alloc, TgsRep::read(alloc, &octets)?)?;
    let suite = CipherSuite::Aes256CtsHmacSha196;
    Ok(key_in_tgs_rep(alloc, rules, suite, &before, &tgs_rep))
}

fn is_key(answer: Result<ReplyKey, Cause>, suite: CipherSuite) -> bool {
    match answer {
        Ok(made) => made.suite == suite && is_row(made.key.as_ref().as_slice(), KEY_BEHIND),
        Err(_) => false,
    }
}

#[test]
fn a_key_goes_by_its_own_suite_where_that_is_a_rule(rt: HostRuntime) -> Result<(), Fail> {
    let alloc = rt.alloc();
    let own = handed_on(alloc, Rules::SUITE_OF_EACH_KEY)?;
    let kept = handed_on(alloc, Rules::none())?;
    assert!(rt; is_key(own, CipherSuite::Aes128CtsHmacSha196));
    assert!(rt; is_key(kept, CipherSuite::Aes256CtsHmacSha196));
    Ok(())
}
