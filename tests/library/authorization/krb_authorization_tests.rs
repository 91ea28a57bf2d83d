//! Authorization data in DER, by hand, from the ASN.1 of RFC 4120, section 5.2.6, with explicit tags.

use krb_authorization::{AuthorizationData, AuthorizationDataElement, element_at, element_type};
use krb_der::{Asn1, Fault};
use std::alloc::Global;
use std::test::Fail;

/// Authorization data in hex, and its elements, each with its type.
static DATA: [(&str, &str); 14] = [
    ("3000", ""),
    ("300d300ba00402020080a103040101", " 128:01"),
    (
        "3018300aa003020140a1030401aa300aa003020141a1030401bb",
        " 64:aa 65:bb",
    ),
    ("300c300aa0030201ffa1030401aa", " -1:aa"),
    // A type that is no Int32.
    ("3010300ea00702050100000001a1030401aa", " none:aa"),
    // As in a ticket of Windows: an AD-IF-RELEVANT with a PAC.
    (
        "3021301fa003020101a118041630143012a00402020080a10a04080400000000000000",
        " 128:0400000000000000",
    ),
    // Two elements in an AD-IF-RELEVANT, between two others.
    (
        "303d300aa003020140a1030401aa3023a003020101a11c041a3018300aa003020142a1030401cc300aa003020143a1030401dd300aa003020141a1030401bb",
        " 64:aa 66:cc 67:dd 65:bb",
    ),
    // An AD-IF-RELEVANT without an element, alone and before another element.
    ("300d300ba003020101a10404023000", ""),
    (
        "3019300ba003020101a10404023000300aa003020141a1030401bb",
        " 65:bb",
    ),
    // An AD-IF-RELEVANT in an AD-IF-RELEVANT.
    (
        "30263024a003020101a11d041b30193017a003020101a110040e300c300aa003020142a1030401cc",
        " 1:300c300aa003020142a1030401cc",
    ),
    // AD-IF-RELEVANTs of other contents: a NULL without its length, bytes after the SEQUENCE, no bytes.
    ("300c300aa003020101a103040105", " 1:05"),
    ("300e300ca003020101a1050403300000", " 1:300000"),
    ("300b3009a003020101a1020400", " 1:"),
    // Type 2 (not assigned by RFC 4120) with the contents of an AD-IF-RELEVANT.
    (
        "30193017a003020102a110040e300c300aa003020142a1030401cc",
        " 2:300c300aa003020142a1030401cc",
    ),
];

fn data() -> &'static [(&'static str, &'static str)] {
    &DATA
}

fn read(alloc: Global, digits: &str) -> Result<AuthorizationData, Fault> {
    let Ok(octets) = hex::decode(alloc, digits) else {
        return Err(Fault::Shape);
    };
    AuthorizationData::read(alloc, &octets)
}

/// An element as ` TYPE:HEX`.
fn text_of(alloc: Global, element: &AuthorizationDataElement) -> Result<String, Fail> {
    let digits = hex::encode(alloc, element.ad_data.as_slice())?;
    let text = match element_type(element) {
        Some(number) => format!(in alloc; " {number}:{}", digits.as_str())?,
        None => format!(in alloc; " none:{}", digits.as_str())?,
    };
    Ok(text)
}

/// The elements from the first place on, up to the first place that has none, and how many these are.
fn elements_of(alloc: Global, data: &AuthorizationData) -> Result<(String, usize), Fail> {
    let mut text = String::new(alloc);
    for place in 0..16 {
        let Some(element) = element_at(alloc, data, place)? else {
            return Ok((text, place));
        };
        let one = text_of(alloc, &element)?;
        text.push_str(one.as_str())?;
    }
    Ok((text, 16))
}

fn are_the_elements(alloc: Global, digits: &str, expected: &str) -> Result<bool, Fail> {
    let data = read(alloc, digits)?;
    let (text, count) = elements_of(alloc, &data)?;
    let mut is_none = true;
    for past in [0, 1, 1_000_000, usize::MAX - 16] {
        is_none = is_none && element_at(alloc, &data, count + past)?.is_none();
    }
    Ok(is_none && text.as_str() == expected)
}

#[test]
fn elements_inside_an_if_relevant_are_counted(rt: HostRuntime) -> Result<(), Fail> {
    for (digits, expected) in data() {
        assert!(rt; are_the_elements(rt.alloc(), digits, expected)?, "{digits}");
    }
    Ok(())
}
