//! Credential caches of three other implementations.

mod files;

use files::{HEIMDAL, JAVA, MIT, MIT_ADDRESSES, MIT_REMOVED, MIT_THREE, MIT_USER};
use krb_ccache::{Ccache, CcacheError, Credential, TimeOffset, Version, is_option};
use krb_der::{Items, Octets};
use std::alloc::Global;
use std::test::Fail;

fn read(alloc: Global, file: &str) -> Result<Ccache, Fail> {
    let octets = hex::decode(alloc, file)?;
    match Ccache::read(alloc, &octets) {
        Ok(cache) => Ok(cache),
        Err(_) => Err(Fail::from("no cache")),
    }
}

fn pair(alloc: Global, first: &[u8], second: &[u8]) -> Result<Items<Octets>, Fail> {
    let mut names = Vec::new(alloc);
    names.push(Octets::from_slice(alloc, first)?)?;
    names.push(Octets::from_slice(alloc, second)?)?;
    Ok(Items::new(names))
}

fn is_written_again(alloc: Global, file: &str) -> Result<bool, Fail> {
    let cache = read(alloc, file)?;
    if !cache.is_writable() {
        return Ok(false);
    }
    let octets = cache.write(alloc)?;
    Ok(octets.as_slice() == hex::decode(alloc, file)?.as_slice())
}

#[test]
fn files_are_written_as_they_were_read(rt: HostRuntime) -> Result<(), Fail> {
    let alloc = rt.alloc();
    for file in [
        MIT,
        MIT_REMOVED,
        MIT_THREE,
        MIT_USER,
        MIT_ADDRESSES,
        HEIMDAL,
        JAVA,
    ] {
        assert!(rt; is_written_again(alloc, file)?);
    }
    Ok(())
}

fn counts(cache: &Ccache) -> (usize, usize) {
    let all = cache.credentials.as_slice();
    let options = all
        .iter()
        .filter(|credential| is_option(credential))
        .count();
    (all.len(), options)
}

#[test]
fn files_have_these_entries(rt: HostRuntime) -> Result<(), Fail> {
    let alloc = rt.alloc();
    assert_eq!(rt; counts(&read(alloc, MIT)?), (5, 2));
    assert_eq!(rt; counts(&read(alloc, MIT_REMOVED)?), (5, 1));
    assert_eq!(rt; counts(&read(alloc, MIT_THREE)?), (4, 2));
    assert_eq!(rt; counts(&read(alloc, MIT_USER)?), (4, 2));
    assert_eq!(rt; counts(&read(alloc, MIT_ADDRESSES)?), (3, 2));
    assert_eq!(rt; counts(&read(alloc, HEIMDAL)?), (5, 2));
    assert_eq!(rt; counts(&read(alloc, JAVA)?), (1, 0));
    Ok(())
}

/// The end and the size of the ticket that is found, or zeros.
fn found(
    alloc: Global,
    file: &str,
    first: &[u8],
    second: &[u8],
    seconds: u32,
) -> Result<(u32, usize), Fail> {
    let cache = read(alloc, file)?;
    let components = pair(alloc, first, second)?;
    match cache.find(&components, seconds) {
        None => Ok((0, 0)),
        Some(credential) => Ok((credential.times.end, credential.ticket.as_slice().len())),
    }
}

#[test]
fn tickets_are_found(rt: HostRuntime) -> Result<(), Fail> {
    let alloc = rt.alloc();
    let host = b"server.example.com";
    assert_eq!(rt;
        found(alloc, MIT, b"host", host, 1_796_096_853)?,
        (1_796_183_253, 451)
    );
    assert_eq!(rt; found(alloc, MIT, b"host", host, 1_796_096_852)?, (0, 0));
    assert_eq!(rt; found(alloc, MIT, b"host", host, 1_796_183_253)?, (0, 0));
    assert_eq!(rt; found(alloc, MIT, b"pop", host, 1_796_096_853)?, (0, 0));
    assert_eq!(rt;
        found(alloc, MIT_REMOVED, b"host", host, 1_796_096_853)?,
        (0, 0)
    );
    assert_eq!(rt;
        found(alloc, MIT_REMOVED, b"imap", host, 1_796_096_853)?,
        (1_796_183_253, 451)
    );
    assert_eq!(rt;
        found(alloc, MIT_THREE, b"krbtgt", b"EXAMPLE.COM", 1_796_096_870)?,
        (1_796_183_270, 446)
    );
    assert_eq!(rt;
        found(alloc, HEIMDAL, b"host", host, 1_796_096_870)?,
        (1_796_183_270, 451)
    );
    assert_eq!(rt;
        found(alloc, JAVA, b"krbtgt", b"EXAMPLE.COM", 1_796_096_914)?,
        (1_796_183_314, 409)
    );
    Ok(())
}

/// The ends of the tickets that are found for a host by `find_tgt` and `find_or_tgt`, or zeros.
fn ends(alloc: Global, file: &str, service: &[u8], seconds: u32) -> Result<(u32, u32), Fail> {
    let cache = read(alloc, file)?;
    let components = pair(alloc, service, b"server.example.com")?;
    let end = |found: Option<&Credential>| found.map_or(0, |credential| credential.times.end);
    Ok((
        end(cache.find_tgt(seconds)),
        end(cache.find_or_tgt(&components, seconds)),
    ))
}

/// The size of the ticket that is found for a host by `find_or_tgt`, or 0.
fn size(alloc: Global, file: &str, service: &[u8], seconds: u32) -> Result<usize, Fail> {
    let cache = read(alloc, file)?;
    let components = pair(alloc, service, b"server.example.com")?;
    match cache.find_or_tgt(&components, seconds) {
        None => Ok(0),
        Some(credential) => Ok(credential.ticket.as_slice().len()),
    }
}

#[test]
fn the_tgt_is_found_where_the_service_has_no_ticket(rt: HostRuntime) -> Result<(), Fail> {
    let alloc = rt.alloc();
    assert_eq!(rt; size(alloc, MIT, b"host", 1_796_096_853)?, 451);
    assert_eq!(rt; size(alloc, MIT, b"pop", 1_796_096_853)?, 409);
    assert_eq!(rt; size(alloc, MIT_REMOVED, b"host", 1_796_096_853)?, 409);
    assert_eq!(rt; size(alloc, MIT_THREE, b"pop", 1_796_096_870)?, 446);
    assert_eq!(rt; size(alloc, HEIMDAL, b"host", 1_796_096_870)?, 451);
    assert_eq!(rt; size(alloc, JAVA, b"host", 1_796_096_914)?, 409);
    assert_eq!(rt; size(alloc, JAVA, b"host", 1_796_096_913)?, 0);
    let end = 1_796_183_253;
    assert_eq!(rt; ends(alloc, MIT, b"pop", end - 1)?, (end, end));
    assert_eq!(rt; ends(alloc, MIT, b"pop", end)?, (0, 0));
    Ok(())
}

/// MIT's cache with the entry of Java's after its own.
fn joined(alloc: Global) -> Result<Ccache, Fail> {
    let mut entries = read(alloc, JAVA)?.credentials.into_inner();
    let mut cache = read(alloc, MIT)?;
    match entries.pop() {
        None => Err(Fail::from("no entry")),
        Some(entry) => match cache.push(alloc, entry) {
            Ok(()) => Ok(cache),
            Err(_) => Err(Fail::from("no memory")),
        },
    }
}

#[test]
fn an_entry_that_is_pushed_is_found_and_written(rt: HostRuntime) -> Result<(), Fail> {
    let alloc = rt.alloc();
    let cache = joined(alloc)?;
    assert_eq!(rt; counts(&cache), (6, 2));
    let end = cache
        .find_tgt(1_796_096_914)
        .map_or(0, |credential| credential.times.end);
    assert_eq!(rt; end, 1_796_183_314);
    assert!(rt; cache.is_writable());
    // Java's entry is two octets shorter here, where the type of its key is written once.
    let (mit, java, head) = (MIT.len() / 2, JAVA.len() / 2, 34);
    assert_eq!(rt; cache.write(alloc)?.as_slice().len(), mit + java - head - 2);
    Ok(())
}

/// The principal of MIT's and Heimdal's options.
const TGS: &[u8] = b"krbtgt/EXAMPLE.COM@EXAMPLE.COM";

/// Whether an option has this value, or is not there.
fn has_option(cache: &Ccache, name: &[u8], principal: Option<&[u8]>, value: Option<&[u8]>) -> bool {
    cache
        .option(name, principal)
        .map(|octets| octets.as_slice())
        == value
}

#[test]
fn options_have_their_values(rt: HostRuntime) -> Result<(), Fail> {
    let alloc = rt.alloc();
    for file in [MIT, MIT_THREE, MIT_USER, MIT_ADDRESSES, HEIMDAL] {
        let cache = read(alloc, file)?;
        assert!(rt; has_option(&cache, b"fast_avail", Some(TGS), Some(b"yes")));
        assert!(rt; has_option(&cache, b"fast_avail", None, None));
    }
    let mit = read(alloc, MIT)?;
    assert!(rt; has_option(&mit, b"pa_type", Some(TGS), Some(b"2")));
    assert!(rt; has_option(&mit, b"pa_type", Some(b"krbtgt/EXAMPLE.COM"), None));
    assert!(rt; has_option(&mit, b"pa_typ", Some(TGS), None));
    let removed = read(alloc, MIT_REMOVED)?;
    assert!(rt; has_option(&removed, b"fast_avail", Some(TGS), None));
    assert!(rt; has_option(&removed, b"pa_type", Some(TGS), Some(b"2")));
    let heimdal = read(alloc, HEIMDAL)?;
    assert!(rt; has_option(&heimdal, b"start_realm", None, Some(b"EXAMPLE.COM")));
    assert!(rt; has_option(&heimdal, b"start_realm", Some(TGS), None));
    let java = read(alloc, JAVA)?;
    assert!(rt; has_option(&java, b"fast_avail", Some(TGS), None));
    Ok(())
}

#[test]
fn an_option_of_another_client_is_not_the_cache_s(rt: HostRuntime) -> Result<(), Fail> {
    let alloc = rt.alloc();
    let mut cache = read(alloc, MIT)?;
    cache.principal.realm = Octets::from_slice(alloc, b"EXAMPLE.ORG")?;
    assert!(rt; has_option(&cache, b"fast_avail", Some(TGS), None));
    Ok(())
}

/// The time offset of MIT's cache with another header.
fn offset_with(alloc: Global, header: &str) -> Result<Option<(i32, i32)>, Fail> {
    let mut cache = read(alloc, MIT)?;
    cache.version = Version::Four(Octets::new(hex::decode(alloc, header)?));
    Ok(parts(cache.time_offset()))
}

fn parts(offset: Option<TimeOffset>) -> Option<(i32, i32)> {
    offset.map(|offset| (offset.seconds, offset.microseconds))
}

#[test]
fn files_tell_the_time_offset(rt: HostRuntime) -> Result<(), Fail> {
    let alloc = rt.alloc();
    for file in [MIT, MIT_REMOVED, MIT_USER, MIT_ADDRESSES] {
        assert_eq!(rt; parts(read(alloc, file)?.time_offset()), Some((0, 0)));
    }
    for file in [MIT_THREE, HEIMDAL, JAVA] {
        assert_eq!(rt; parts(read(alloc, file)?.time_offset()), None);
    }
    Ok(())
}

#[test]
fn headers_tell_the_time_offset(rt: HostRuntime) -> Result<(), Fail> {
    let alloc = rt.alloc();
    for (header, offset) in [
        ("000100080000012c0007a120", Some((300, 500_000))),
        ("00010008fffffed4fff85ee0", Some((-300, -500_000))),
        (
            "000100087fffffff80000000",
            Some((2_147_483_647, -2_147_483_648)),
        ),
        ("00020003aabbcc000100080000000100000002", Some((1, 2))),
        (
            "000100080000000100000002000100080000000300000004",
            Some((1, 2)),
        ),
        ("000100080000000100000002ff", Some((1, 2))),
        ("0001000400000001", None),
        ("0001000400000001000100080000000100000002", None),
        ("0001000800000001000000", None),
        ("00020008000100080000000100000002", None),
        ("000100", None),
        ("", None),
    ] {
        assert_eq!(rt; offset_with(alloc, header)?, offset);
    }
    Ok(())
}

/// The refusal of a file that is cut at this octet: 0 is no version, 1 no head, otherwise the place of a credential; a whole file is 2.
fn refusal(alloc: Global, octets: &[u8]) -> usize {
    match Ccache::read(alloc, octets) {
        Ok(_) => 2,
        Err(CcacheError::Version) => 0,
        Err(CcacheError::Head) => 1,
        Err(CcacheError::Credential { place }) => place,
        Err(CcacheError::OutOfMemory) => 3,
    }
}

#[test]
fn files_that_are_cut_are_refused(rt: HostRuntime) -> Result<(), Fail> {
    let alloc = rt.alloc();
    let octets = hex::decode(alloc, MIT)?;
    let places = [48, 223, 393, 957, 1568, 2179];
    for size in 0..octets.len() {
        let answer = refusal(alloc, &octets[..size]);
        let wanted = if size < 2 {
            0
        } else if size < 48 {
            1
        } else if places.contains(&size) {
            2
        } else {
            places
                .iter()
                .copied()
                .filter(|place| *place < size)
                .max()
                .unwrap_or(0)
        };
        assert_eq!(rt; answer, wanted);
    }
    Ok(())
}
