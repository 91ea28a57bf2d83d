//! Values that a client cannot begin with, and replies that end an exchange.

use super::exchanges::ALICE;
use super::{Exchange, Has, Reply, Turn, Who};
use crate::krb_replies_tests::replies::{
    AS_REP, DATA_OF_ANOTHER_TAG, ENTRY_OF_ETYPE_16, ENTRY_WITHOUT_SALT, HALF_AN_ETYPE_INFO2,
    HINTS_OUTSIDE_THE_GRAMMAR, NAMES_ALICES_SALT, NO_ENTRY, NOTHING, SEALED_WITH_ETYPE_16, SHORT,
    TGS_PART, UNDER_ANOTHER_SALT,
};
use sspi_core::Cause;

/// A KRB-ERROR with the code 37.
pub const TIME_SKEW: &str =
    "7e5d305ba003020105a10302011ea411180f32303233313131343232313332305aa506020400000000a603020125a90d1b0b4558414d504c452e434f\
     4daa20301ea003020102a11730151b066b72627467741b0b4558414d504c452e434f4d";

/// A TGS-REP.
pub const TGS_REP: &str =
    "6d82018b30820187a003020105a10302010da30d1b0b4558414d504c452e434f4da4123010a003020101a10930071b05616c696365a571616f306da0\
     03020105a10d1b0b4558414d504c452e434f4da20e300ca003020102a10530031b0161a3473045a003020112a23e043c3c434a51585f666d747b8289\
     90979ea5acb3bac1c8cfd6dde4ebf2f900070e151c232a31383f464d545b626970777e858c939aa1a8afb6bdc4cbd2d9a681e43081e1a003020112a2\
     81d90481d6247e3174f7121e12ca883f5cec6d1db9f5bd406564008603862e51470fef0c7df1f8f37a5258cec8ab88f9f66bed2c50bebe42c772864d\
     c76d3de335b8152a0b8526f2063646f5e45be98e26bd23cd4c589394a0a537eceb25df660e2576d2ebe6ea7d8a96854d7600ef5f13134d4f4cd60434\
     3990eed51896c3815c8327686623156b6c67c75455f8fbf20b6ccf544ac189552a1308d21811306a4c49e977092697390d73b1c3855f2d2070b3dd21\
     5d0312353af2d6c692387eaef46eac0805bbe8fe323ca8fc207d0be698687719a06e2f8edecb03";

/// Clients, and why they ask nothing.
pub static BEGINNINGS: [(Who, Cause); 6] = [
    (
        Who {
            has: Has::Password("\u{e4}lice", "EXAMPLE.COM", "secret"),
            ..ALICE
        },
        Cause::NotAscii,
    ),
    (
        Who {
            has: Has::Password("alice", "EX\u{e4}MPLE.COM", "secret"),
            ..ALICE
        },
        Cause::NotAscii,
    ),
    (
        Who {
            host: "p\u{e7}",
            ..ALICE
        },
        Cause::NotAscii,
    ),
    (
        Who {
            host: "p\u{e7}",
            url: "ftp://kdc.example",
            ..ALICE
        },
        Cause::NotAscii,
    ),
    (
        Who {
            url: "tcp://[",
            ..ALICE
        },
        Cause::NoKdc,
    ),
    (
        Who {
            url: "ftp://kdc.example",
            ..ALICE
        },
        Cause::Scheme,
    ),
];

/// First replies, and the refusal of each.
pub static FIRST_REPLIES: [(Reply, Cause); 7] = [
    (Reply::Fault(5), Cause::Network(5)),
    (Reply::Octets("000000"), Cause::ReplyShort),
    (Reply::Octets("00000000"), Cause::Shape),
    (
        Reply::Octets("0000008f7e818c308189a003020105"),
        Cause::Shape,
    ),
    (Reply::Message(AS_REP), Cause::EarlyAsRep),
    (Reply::Message(DATA_OF_ANOTHER_TAG), Cause::Shape),
    (Reply::Message(HALF_AN_ETYPE_INFO2), Cause::Shape),
];

/// Second replies, and the refusal of each.
pub static SECOND_REPLIES: [(Reply, Cause); 14] = [
    (Reply::Fault(0), Cause::Network(0)),
    (Reply::Octets("00"), Cause::ReplyShort),
    (Reply::Message(TGS_REP), Cause::Shape),
    (Reply::Message(TIME_SKEW), Cause::Kdc(37)),
    (Reply::Message(NAMES_ALICES_SALT), Cause::Kdc(25)),
    (Reply::Message(HINTS_OUTSIDE_THE_GRAMMAR), Cause::Shape),
    (Reply::Message(NO_ENTRY), Cause::EtypeEntry),
    (Reply::Message(ENTRY_WITHOUT_SALT), Cause::Salt),
    (Reply::Message(ENTRY_OF_ETYPE_16), Cause::Etype),
    (Reply::Message(SEALED_WITH_ETYPE_16), Cause::Etype),
    (Reply::Message(SHORT), Cause::Short),
    (Reply::Message(UNDER_ANOTHER_SALT), Cause::Altered),
    (Reply::Message(TGS_PART), Cause::Inner),
    (Reply::Message(NOTHING), Cause::Inner),
];

/// A client whose keytab has a key of AES-128 for a KDC that seals under one of AES-256: MIT krb5.
pub const OF_ANOTHER_SUITE: Exchange = Exchange {
    who: Who {
        has: Has::Key("EXAMPLE.COM\\alice", "8af91a0c0e809c442cfba9512ca37c6a", 17),
        host: "workstation",
        url: "tcp://127.0.0.1:57829",
    },
    turns: &[
        Turn {
            seconds: 1_795_798_315,
            microseconds: 63_325,
            random: "2ab4305a11b321b7d2ada3d512711efef2d0b5f32dffa13a7413d8c0c48d115bdf9c201bbfb325ac24daba445466018d6966c8e62fd2b3b9e0f716072bbbbea9",
            request: "000000cd6a81ca3081c7a103020105a20302010aa31530133011a10402020080a20904073005a0030101ffa481a33081a0a00703050000810010a112\
                     3010a003020101a10930071b05616c696365a20d1b0b4558414d504c452e434f4da320301ea003020102a11730151b066b72627467741b0b4558414d\
                     504c452e434f4da511180f32303236313133303136353135355aa611180f32303236313133303136353135355aa70602042ab4305aa8083006020112\
                     020111a91830163014a003020114a10d040b776f726b73746174696f6e",
            reply: Reply::Octets(
                "000000e97e81e63081e3a003020105a10302011ea411180f32303236313132373136353135355aa50502030638e4a603020119a70d1b0b4558414d50\
                     4c452e434f4da8123010a003020101a10930071b05616c696365a90d1b0b4558414d504c452e434f4daa20301ea003020102a11730151b066b726274\
                     67741b0b4558414d504c452e434f4dab101b0e4e45454445445f50524541555448ac520450304e300aa10402020088a20204003026a103020113a21f\
                     041d301b3019a003020112a1121b104558414d504c452e434f4d616c6963653009a103020102a2020400300da10402020085a20504034d4954",
            ),
        },
        Turn {
            seconds: 1_795_798_315,
            microseconds: 407_907,
            random: "c87af14e4874d0567511e0349f41f98c5998f108a415bcfafff6115b0d274c76c16dc784521f0985b9594227e87887376a7cc3b1e351f63e740e6812a59648e5",
            request: "0000011e6a82011a30820116a103020105a20302010aa3643062304da103020102a24604443042a003020111a23b04390293e19ac19041b5723f7fa5\
                     ae8096962d29ac80f9b7e9442adb46273c1624af9e9861d01951bfe929ca99cf4e5b3ec76d7c867444fd5bdefa3011a10402020080a20904073005a0\
                     030101ffa481a33081a0a00703050000810010a1123010a003020101a10930071b05616c696365a20d1b0b4558414d504c452e434f4da320301ea003\
                     020102a11730151b066b72627467741b0b4558414d504c452e434f4da511180f32303236313133303136353135355aa611180f323032363131333031\
                     36353135355aa70602042ab4305aa8083006020112020111a91830163014a003020114a10d040b776f726b73746174696f6e",
            reply: Reply::Octets(
                "000003426b82033e3082033aa003020105a10302010ba22a30283026a103020113a21f041d301b3019a003020112a1121b104558414d504c452e434f\
                     4d616c696365a30d1b0b4558414d504c452e434f4da4123010a003020101a10930071b05616c696365a58201c6618201c2308201bea003020105a10d\
                     1b0b4558414d504c452e434f4da220301ea003020102a11730151b066b72627467741b0b4558414d504c452e434f4da382018430820180a003020112\
                     a103020101a28201720482016e52e9559427cc28ed59794fe82b6b0cd983778b10fb1f737963fec98d631bccda0e49bdbed4c49b75cfcff674f1ba49\
                     2bef86f07e56fadf40e3befe70e94e697d4b56afaaba2866e6e92311f7f8848769e3c584c1d424fd79eb015062366ae0ab82ec12582771eb01bb3e72\
                     3a59dd79642b108a14362949bcb805bda13eeef424986a1c35b92ec1a414d2488688d8960f02699840ce826a4dcda2116fea95505f6bbb4e20eeb4c9\
                     6f345b6154e12d79d673977e7ee915d05c75c12cd089ba97970b11b56b1d3beb567355963ba4415cdd6c3572a140d06887d9f24d482cdbfab522e785\
                     5e09a8096fbeff2a3c5eaf4ca3a3bf1bead2f4370aa28ba86764e6e1958bcd2e049a41362d11189ecc56d8a97babb000a6b22b61f28c79b29546f955\
                     505602ab2deb21a1c495be44a9d10cb76b522c450f9fe67765c4d5186d05d912df2b65c74d172bf6826805a5b64e565aa5bea1a1ebd8a3598404d93e\
                     c2750a570f7654f59fd5312b6cbea90269de48a68201133082010fa003020112a2820106048201020f299bb379c065bcaf69234175072cabf11f1f67\
                     3c0130ec5df741a0dc7357ee30f57331ef8c19ba0eaaaeabdc5915a6b0402e2d9544311a19b7a9c15b52ad9cba68a9aa8dcf93c7beb68929491e26af\
                     302cc6cbab60c8fc9400a855a1451a034ada0e27d28f3379550b477d2c11d0ba183a939c9f7b5be39e4d0fa5412b7f8f1cd0b1d32738abcc99dccbe2\
                     12168f5ae22e417f5ea0973e3432c8359ec8cd033da4068fefbdaa26ca700229a67c1711f65be470a240c7c8e6b2250f61154ecba3c652a6e45fab6e\
                     6755fbb2467283146d5e3c6304c1d9c31094de17eca03d91ae3e43548cdf7d14af5fabf5c02dee8636c778c96fb68cc99c13b5b92f648feb7aa8",
            ),
        },
    ],
    end: "",
};
