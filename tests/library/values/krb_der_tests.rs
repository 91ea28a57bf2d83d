//! Octets from the standards and written out by hand.

ghost use Rattle.std.specs.Prelude.{◌≤◌, length};

use krb_der::{
    Asn1, Bits, ErrorCode, Fault, IntegerAsn1, Items, Name, Octets, OutOfMemory, Reader, Shape,
    Text, Time, TryCopy, Writer,
};
use std::alloc::Global;

/// The boundaries of each form of a length (X.690 8.1.3.4, 8.1.3.5): contents, and the octets before them.
static LENGTHS: [(usize, &[u8]); 6] = [
    (127, &[0x04, 0x7f]),
    (128, &[0x04, 0x81, 0x80]),
    (255, &[0x04, 0x81, 0xff]),
    (256, &[0x04, 0x82, 0x01, 0x00]),
    (65535, &[0x04, 0x82, 0xff, 0xff]),
    (65536, &[0x04, 0x83, 0x01, 0x00, 0x00]),
];

fn lengths() -> &'static [(usize, &'static [u8])] {
    &LENGTHS
}

fn octet_string(alloc: Global, contents: &[u8]) -> Result<Octets, Fault>
    requires { length contents.now ≤ 65536 }
{
    let mut writer = Writer::new(alloc);
    writer.octets(contents)?;
    Ok(writer.finish())
}

/// Whether these contents are written after the header, and read again.
fn is_headed(alloc: Global, contents: &[u8], header: &[u8]) -> Result<bool, Fault>
    requires { length contents.now ≤ 65536 }
{
    let octets = octet_string(alloc, contents)?;
    let mut reader = Reader::new(octets.as_slice());
    let same = reader.octets() == Ok(contents);
    Ok(same && reader.is_empty() && octets.as_slice().starts_with(header))
}

#[test]
fn a_length_takes_its_shortest_form(rt: HostRuntime) {
    let zeros = [0u8; 65536];
    for (length, header) in lengths() {
        assert!(rt; *length <= 65536);
        assert!(rt;
            is_headed(rt.alloc(), &zeros[..*length], header) == Ok(true),
            "{length}"
        );
    }
}

/// Octets that are not in the grammar: too short, a longer length than needed, a leading zero octet, 80, 85 and the indefinite
/// form, another tag.
static REFUSED: [&[u8]; 9] = [
    &[],
    &[0x02],
    &[0x02, 0x00],
    &[0x02, 0x02, 0x05],
    &[0x02, 0x81, 0x01, 0x05],
    &[0x02, 0x82, 0x00, 0x01, 0x05],
    &[0x02, 0x80, 0x05, 0x00, 0x00],
    &[0x02, 0x85, 0x00, 0x00, 0x00, 0x00, 0x01, 0x05],
    &[0x04, 0x01, 0x05],
];

fn refused() -> &'static [&'static [u8]] {
    &REFUSED
}

/// Whether the octets are refused, and the reader has not moved.
fn is_refused(octets: &[u8]) -> bool {
    let mut reader = Reader::new(octets);
    reader.integer() == Err(Shape) && reader.rest() == octets
}

#[test]
fn octets_outside_the_grammar_are_refused(rt: HostRuntime) {
    for octets in refused() {
        assert!(rt; is_refused(octets));
    }
    let mut reader = Reader::new(&[0x02, 0x02, 0x00, 0x05, 0x05]);
    assert!(rt; reader.integer() == Ok(&[0x00, 0x05]));
    assert!(rt; reader.end() == Err(Shape));
}

/// INTEGERs, some with octets 00 and ff that their number does not need.
static INTEGERS: [&[u8]; 5] = [
    &[0x02, 0x01, 0x05],
    &[0x02, 0x02, 0x00, 0x05],
    &[0x02, 0x02, 0x00, 0x80],
    &[0x02, 0x01, 0x80],
    &[0x02, 0x02, 0xff, 0x80],
];

fn integers() -> &'static [&'static [u8]] {
    &INTEGERS
}

/// The octets of the INTEGER that was read.
fn integer_written_again(alloc: Global, octets: &[u8]) -> Result<Octets, Fault> {
    let contents = Reader::new(octets).integer()?;
    let mut writer = Writer::new(alloc);
    writer.integer(contents)?;
    Ok(writer.finish())
}

fn is_written_again(alloc: Global, octets: &[u8]) -> Result<bool, Fault> {
    let again = integer_written_again(alloc, octets)?;
    Ok(again.as_slice() == octets)
}

#[test]
fn integers_are_written_as_they_were_read(rt: HostRuntime) {
    for octets in integers() {
        assert!(rt; is_written_again(rt.alloc(), octets) == Ok(true));
    }
}

/// BOOLEANs (X.690 8.2.2, 11.1).
static BOOLEANS: [(&[u8], Result<bool, Shape>); 3] = [
    (&[0x01, 0x01, 0xff], Ok(true)),
    (&[0x01, 0x01, 0x00], Ok(false)),
    (&[0x01, 0x01, 0x01], Err(Shape)),
];

fn booleans() -> &'static [(&'static [u8], Result<bool, Shape>)] {
    &BOOLEANS
}

/// A BIT STRING with its unused bits and its octets.
type ReadBits = Result<(u8, &'static [u8]), Shape>;

/// BIT STRINGs: the example of X.690 8.6.4.2, and two that are refused.
static BIT_STRINGS: [(&[u8], ReadBits); 3] = [
    (
        &[0x03, 0x07, 0x04, 0x0a, 0x3b, 0x5f, 0x29, 0x1c, 0xd0],
        Ok((4, &[0x0a, 0x3b, 0x5f, 0x29, 0x1c, 0xd0])),
    ),
    (&[0x03, 0x02, 0x08, 0x00], Err(Shape)),
    (&[0x03, 0x00], Err(Shape)),
];

fn bit_strings() -> &'static [(&'static [u8], ReadBits)] {
    &BIT_STRINGS
}

#[test]
fn single_values_are_read(rt: HostRuntime) {
    for (octets, value) in booleans() {
        assert!(rt; Reader::new(octets).boolean() == *value);
    }
    for (octets, value) in bit_strings() {
        assert!(rt; Reader::new(octets).bits() == *value);
    }
}

#[test]
fn texts_and_lists_are_read(rt: HostRuntime) {
    assert!(rt; Reader::new(&[0x1b, 0x02, b'A', b'B']).text() == Ok(b"AB"));
    assert!(rt; Reader::new(&[0x1b, 0x01, 0x80]).text() == Err(Shape));
    assert!(rt; Reader::new(&[0x30, 0x00]).optional(0xa0) == Ok(None));
    assert!(rt; Reader::new(&[0xa0, 0x00]).optional(0xa0) == Ok(Some(&[])));
    let mut items = Reader::new(&[0x30, 0x03, 0x02, 0x01, 0x07]).sequence_of();
    assert!(rt; items.map(|mut items| items.integer()) == Ok(Ok(&[0x07])));
}

/// The values TRUE, the bits of X.690 8.6.4.2, 5 with an octet 00 before it, `A`, and 2023-11-14T22:13:20Z.
static WRITTEN: [u8; 36] = [
    0x01, 0x01, 0xff, 0x03, 0x07, 0x04, 0x0a, 0x3b, 0x5f, 0x29, 0x1c, 0xd0, 0x02, 0x02, 0x00, 0x05,
    0x1b, 0x01, 0x41, 0x18, 0x0f, 0x32, 0x30, 0x32, 0x33, 0x31, 0x31, 0x31, 0x34, 0x32, 0x32, 0x31,
    0x33, 0x32, 0x30, 0x5a,
];

fn written() -> &'static [u8] {
    &WRITTEN
}

fn single_values(alloc: Global) -> Result<Octets, Fault> {
    let mut writer = Writer::new(alloc);
    writer.boolean(true)?;
    writer.bits(4, &[0x0a, 0x3b, 0x5f, 0x29, 0x1c, 0xd0])?;
    writer.integer(&[0x00, 0x05])?;
    writer.text(&[0x41])?;
    writer.time(Time::new(1_700_000_000))?;
    Ok(writer.finish())
}

#[test]
fn single_values_are_written(rt: HostRuntime) -> Result<(), Fault> {
    let octets = single_values(rt.alloc())?;
    assert!(rt; octets.as_slice() == written());
    Ok(())
}

/// Octets, and the moment of the calendar that they are.
static MOMENTS: [(&[u8], Option<i64>); 19] = [
    (b"19700101000000Z", Some(0)),
    (b"19691231235959Z", Some(-1)),
    (b"20231114221320Z", Some(1_700_000_000)),
    (b"20000229000000Z", Some(951_782_400)),
    (b"19000229000000Z", None),
    (b"20240229000000Z", Some(1_709_164_800)),
    (b"20230229000000Z", None),
    (b"20230001000000Z", None),
    (b"20231301000000Z", None),
    (b"20230100000000Z", None),
    (b"20230101240000Z", None),
    (b"20230101006000Z", None),
    (b"20230101000060Z", None),
    (b"00000101000000Z", Some(-62_167_219_200)),
    (b"00000229000000Z", Some(-62_162_121_600)),
    (b"99991231235959Z", Some(253_402_300_799)),
    (b"20231114221320", None),
    (b"20231114221320z", None),
    (b"2023111422132:Z", None),
];

fn moments() -> &'static [(&'static [u8], Option<i64>)] {
    &MOMENTS
}

/// The seconds of the moment that the octets are, where they are its own.
fn moment(octets: &[u8]) -> Option<i64> {
    match Time::from_octets(octets) {
        Ok(time) if time.to_octets().as_slice() == octets => Some(time.seconds()),
        _ => None,
    }
}

#[test]
fn moments_of_the_calendar(rt: HostRuntime) {
    for (octets, seconds) in moments() {
        assert!(rt; moment(octets) == *seconds);
    }
    assert!(rt; Time::new(-1).microseconds() == -1_000_000);
}

/// The octets of an INTEGER, and its value (X.690 8.3.3).
static VALUES: [(&[u8], Option<i64>); 11] = [
    (&[0x00], Some(0)),
    (&[0x7f], Some(127)),
    (&[0x80], Some(-128)),
    (&[0xff], Some(-1)),
    (&[0x00, 0x80], Some(128)),
    (&[0xff, 0x7f], Some(-129)),
    (&[0x00, 0x00, 0x05], Some(5)),
    (
        &[0x7f, 0xff, 0xff, 0xff, 0xff, 0xff, 0xff, 0xff],
        Some(i64::MAX),
    ),
    (&[0x80, 0, 0, 0, 0, 0, 0, 0], Some(i64::MIN)),
    (&[0x00, 0x80, 0, 0, 0, 0, 0, 0, 0], None),
    (&[0xff, 0x7f, 0, 0, 0, 0, 0, 0, 0], None),
];

fn values() -> &'static [(&'static [u8], Option<i64>)] {
    &VALUES
}

fn value(alloc: Global, octets: &[u8]) -> Result<Option<i64>, OutOfMemory> {
    let integer = IntegerAsn1::from_bytes_be(Vec::from_slice(alloc, octets)?);
    Ok(integer.value())
}

#[test]
fn integers_have_their_value(rt: HostRuntime) {
    for (octets, number) in values() {
        assert!(rt; value(rt.alloc(), octets) == Ok(*number));
    }
}

/// Unsigned numbers, and their INTEGER.
static UNSIGNED: [(&[u8], &[u8]); 3] = [
    (&[0x80], &[0x00, 0x80]),
    (&[0x7f], &[0x7f]),
    (&[0xff, 0xff, 0xff, 0xff], &[0x00, 0xff, 0xff, 0xff, 0xff]),
];

fn unsigned() -> &'static [(&'static [u8], &'static [u8])] {
    &UNSIGNED
}

fn is_unsigned(alloc: Global, octets: &[u8], expected: &[u8]) -> Result<bool, OutOfMemory> {
    let integer = IntegerAsn1::from_bytes_be_unsigned(alloc, octets)?;
    Ok(integer.into_inner().as_slice() == expected)
}

/// The number of an error, where there is one.
fn error_code(alloc: Global, octets: &[u8]) -> Result<Option<u32>, OutOfMemory> {
    let integer = IntegerAsn1::from_bytes_be(Vec::from_slice(alloc, octets)?);
    Ok(ErrorCode::new(integer).map(|code| code.value()))
}

#[test]
fn unsigned_numbers_are_integers(rt: HostRuntime) {
    let alloc = rt.alloc();
    for (octets, expected) in unsigned() {
        assert!(rt; is_unsigned(alloc, octets, expected) == Ok(true));
    }
    assert!(rt; error_code(alloc, &[0x00, 0xff, 0xff, 0xff, 0xff]) == Ok(Some(u32::MAX)));
    assert!(rt; error_code(alloc, &[0xff]) == Ok(None));
}

/// A principal's name of RFC 4120 5.2.2, `krbtgt` and `A.COM` with type 2.
static PRINCIPAL: [u8; 26] = [
    0x30, 0x18, 0xa0, 0x03, 0x02, 0x01, 0x02, 0xa1, 0x11, 0x30, 0x0f, 0x1b, 0x06, 0x6b, 0x72, 0x62,
    0x74, 0x67, 0x74, 0x1b, 0x05, 0x41, 0x2e, 0x43, 0x4f, 0x4d,
];

fn principal() -> &'static [u8] {
    &PRINCIPAL
}

/// The value of the first field.
fn name_type(alloc: Global, fields: &mut Reader<'_>) -> Result<Option<i64>, Fault> {
    let name_type: IntegerAsn1 = fields.required_field(alloc, 0)?;
    Ok(name_type.value())
}

fn has_names(names: &[Name]) -> bool {
    names.len() == 2 && names[0].as_str() == "krbtgt" && names[1].as_slice() == b"A.COM".as_slice()
}

#[test]
fn the_fields_of_a_principal_are_read(rt: HostRuntime) -> Result<(), Fault> {
    let mut fields = Reader::of_sequence(Reader::new(principal()).tlv(0x30)?);
    assert!(rt; name_type(rt.alloc(), &mut fields) == Ok(Some(2)));
    let names: Items<Name> = fields.required_field(rt.alloc(), 1)?;
    assert!(rt; has_names(names.as_slice()));
    assert!(rt; fields.end().is_ok());
    Ok(())
}

/// Bits with the first one set, in this many octets of these two.
fn first_bit(alloc: Global, count: usize) -> Result<Bits, OutOfMemory> {
    let octets: &[u8] = if count == 1 { &[0x40] } else { &[0x40, 0x00] };
    Ok(Bits {
        unused: 0,
        octets: Octets::from_slice(alloc, octets)?,
    })
}

#[test]
fn bits_are_copied_and_in_their_order(rt: HostRuntime) -> Result<(), OutOfMemory> {
    let low = first_bit(rt.alloc(), 1)?;
    let high = first_bit(rt.alloc(), 2)?;
    let copy = high.copy(rt.alloc())?;
    assert!(rt; low < high && copy == high);
    Ok(())
}

#[test]
fn a_text_is_copied(rt: HostRuntime) -> Result<(), OutOfMemory> {
    let text = Text::from_str(rt.alloc(), "é")?;
    let copy = text.copy(rt.alloc())?;
    assert!(rt; copy == text && copy.as_str() == "é");
    Ok(())
}
