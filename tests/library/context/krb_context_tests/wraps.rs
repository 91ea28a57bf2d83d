//! Messages that are sealed with the confounder 00 to 0f, and how a second implementation seals them.

use super::ends::{ACCEPTOR, End, INITIATOR, SHORT_ACCEPTOR};
use super::rows::Row;
use krb_context::Rules;
use sspi_core::Cause;

pub fn wraps() -> &'static [Row] {
    &WRAPS
}

static WRAPS: [Row; 13] = [
    // Eighteen octets, and just the room that the token needs.
    Row {
        end: INITIATOR,
        before: "T::60 D:736f6d6520706c61696e206d657373616765",
        after: "T:050406ff0000001c00000000000004d337cfe6113628ffb62e5a44d02e1287dfa571feb04eef2994105a3614f51e1a956250a70b8338d587b858435e D:2df2883e99d74674c5dca867e964c6c0170f",
        refusal: None,
    },
    // One octet less of room.
    Row {
        end: INITIATOR,
        before: "T::59 D:736f6d6520706c61696e206d657373616765",
        after: "T: D:736f6d6520706c61696e206d657373616765",
        refusal: Some(Cause::TooSmall),
    },
    // Beside a stream.
    Row {
        end: INITIATOR,
        before: "T::60 D:736f6d6520706c61696e206d657373616765 S:",
        after: "T: D:736f6d6520706c61696e206d657373616765 S:",
        refusal: Some(Cause::Buffers),
    },
    // Without a token.
    Row {
        end: INITIATOR,
        before: "D:736f6d6520706c61696e206d657373616765",
        after: "D:736f6d6520706c61696e206d657373616765",
        refusal: Some(Cause::Buffers),
    },
    // Nothing, by an acceptor with a filler: the last number before they go round.
    Row {
        end: End {
            number: 4294967294,
            ..SHORT_ACCEPTOR
        },
        before: "T::76 D:",
        after: "T:050407ff0010001c00000000ffffffff2e40f6848bf6e3c637aaba2b3a2ffabdf0fafc1df10f3e8428acebfbd0296c9ff9b04248066b7c9c6752aa0abd7790c8d992c8722ae8ddd86e5818a4 D:",
        refusal: None,
    },
    // The number after it.
    Row {
        end: End {
            number: 4294967295,
            ..SHORT_ACCEPTOR
        },
        before: "T::76 D:",
        after: "T:050407ff0010001c00000000000000005f85b35b11b8846f2e8b5c0ddf56a9c1f0fafc1df10f3e8428acebfbd0296c9f061c9cd228781cb8137c1dcfbd7790c8d992c8722ae8ddd86e5818a4 D:",
        refusal: None,
    },
    // Between parts that are covered and not sealed.
    Row {
        end: End {
            number: 7,
            ..ACCEPTOR
        },
        before: "R:686561646572 D:736f6d6520706c61696e206d657373616765 T::60 R:747261696c6572",
        after: "R:686561646572 D:1c5f2b9995cdc376d2f6d39064ce25057cf9 T:050407ff0000001c00000000000000081d27ab3544cd8faddc61d037d96a913225ca98aae1a675d92d61021223bd1f2824d7dc953587493a6b0cedd5 R:747261696c6572",
        refusal: None,
    },
    // Seventeen octets under the shorter key.
    Row {
        end: End {
            acceptor: false,
            ec: 0,
            ..SHORT_ACCEPTOR
        },
        before: "D:4142434445464748494a4b4c4d4e4f5051 T::100",
        after: "D:784260dc0400c584223fc6de821c4f4c7d T:050406ff0000001c00000000000000011337a427627572bfb47eb8a77a3e44bff07dbdab03d0f56f0b61108cb2c5e9fc85e9933ed944c688bc124739",
        refusal: None,
    },
    // By an end whose key did not come in an AP-REP, which says so.
    Row {
        end: End {
            rules: Some(Rules::SUBKEY_FLAG_BY_ORIGIN),
            ..INITIATOR
        },
        before: "T::60 D:736f6d6520706c61696e206d657373616765",
        after: "T:050402ff0000001c00000000000004d352155048a50d1ee037f68bc9a89abcfc55da5dd9024c6e96cef98227f51e1a956250a70b8338d587b858435e D:2df2883e99d74674c5dca867e964c6c08ca2",
        refusal: None,
    },
    // By its acceptor.
    Row {
        end: End {
            number: 7,
            rules: Some(Rules::SUBKEY_FLAG_BY_ORIGIN),
            ..ACCEPTOR
        },
        before: "T::60 D:736f6d6520706c61696e206d657373616765",
        after: "T:050403ff0000001c0000000000000008c99303e05f9b53caeb80fe6df3310d1103577a7c77a8d9fa86a0e09c23bd1f2824d7dc953587493a6b0cedd5 D:1c5f2b9995cdc376d2f6d39064ce2505269b",
        refusal: None,
    },
    // By both where the key came in an AP-REP.
    Row {
        end: End {
            acceptor_subkey: true,
            rules: Some(Rules::SUBKEY_FLAG_BY_ORIGIN),
            ..INITIATOR
        },
        before: "T::60 D:736f6d6520706c61696e206d657373616765",
        after: "T:050406ff0000001c00000000000004d337cfe6113628ffb62e5a44d02e1287dfa571feb04eef2994105a3614f51e1a956250a70b8338d587b858435e D:2df2883e99d74674c5dca867e964c6c0170f",
        refusal: None,
    },
    Row {
        end: End {
            number: 7,
            acceptor_subkey: true,
            rules: Some(Rules::SUBKEY_FLAG_BY_ORIGIN),
            ..ACCEPTOR
        },
        before: "T::60 D:736f6d6520706c61696e206d657373616765",
        after: "T:050407ff0000001c00000000000000081d27ab3544cd8faddc61d037d96a91329de0d8924449daf3abdb742d23bd1f2824d7dc953587493a6b0cedd5 D:1c5f2b9995cdc376d2f6d39064ce25057cf9",
        refusal: None,
    },
    // By one with another rule.
    Row {
        end: End {
            rules: Some(Rules::EXTRA_COUNT_BY_TOKEN),
            ..INITIATOR
        },
        before: "T::60 D:736f6d6520706c61696e206d657373616765",
        after: "T:050406ff0000001c00000000000004d337cfe6113628ffb62e5a44d02e1287dfa571feb04eef2994105a3614f51e1a956250a70b8338d587b858435e D:2df2883e99d74674c5dca867e964c6c0170f",
        refusal: None,
    },
];
