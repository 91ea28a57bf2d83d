//! Where KDCs are asked: at all addresses that krb5.conf names for a realm, over UDP first.

use crate::krb5::Krb5;
use menolavuri::{Error, Initiator};
use std::fs::read_to_string;

/// The realms of krb5.conf, and the addresses of their KDCs as it has them.
pub struct Kdcs(Vec<(String, Vec<String>)>);

/// The files that are read if KRB5_CONFIG names no others.
const USUAL: &str = "/etc/krb5.conf:/usr/local/etc/krb5.conf";

/// The URLs of an address, as "127.0.0.1:88", "tcp/127.0.0.1" or "http://proxy.example.com/KdcProxy".
fn urls_of(address: &str) -> Vec<String> {
    if address.contains("://") {
        return vec![address.to_owned()];
    }
    match address.split_once('/') {
        Some((protocol, host)) => vec![format!("{protocol}://{host}")],
        None => vec![format!("udp://{address}"), format!("tcp://{address}")],
    }
}

/// The host of a URL with its port, if the URL has one.
fn host(url: &str) -> &str {
    url.split_once("://")
        .map_or(url, |it| it.1)
        .trim_end_matches('/')
}

/// The order in which a realm's KDCs are asked: each over UDP, and then each over TCP.
fn rank(url: &str) -> usize {
    let schemes = ["udp://", "tcp://"];
    let place = schemes.iter().position(|it| url.starts_with(it));
    place.unwrap_or(schemes.len())
}

impl Kdcs {
    pub fn of(krb5: &Krb5) -> Kdcs {
        Kdcs(krb5.kdcs())
    }

    /// Gives the initiator the texts of krb5.conf, and of each realm the first KDC that MIT krb5 finds there: further files, groups within
    /// groups, and addresses with a protocol are no part of what the library reads.
    pub fn tell(&self, initiator: &mut Initiator, config: Option<&str>) -> Result<(), Error> {
        if let Some(config) = config {
            initiator.variable("KRB5_CONFIG", config)?;
        }
        for path in config.unwrap_or(USUAL).split(':') {
            if let Ok(text) = read_to_string(path) {
                initiator.file(path, &text)?;
            }
        }
        for (realm, addresses) in &self.0 {
            let first = &urls_of(&addresses[0])[0];
            initiator.variable(&format!("SSPI_KDC_URL_{realm}"), first)?;
        }
        Ok(())
    }

    /// The places at which the KDC of this URL is asked: all of its realm.
    pub fn places(&self, url: &str) -> Vec<String> {
        let has = |addresses: &[String]| {
            let mut urls = addresses.iter().flat_map(|it| urls_of(it));
            urls.any(|it| host(&it) == host(url))
        };
        let realm = self.0.iter().find(|it| has(&it.1));
        let mut places: Vec<String> = match realm {
            Some((_, addresses)) => addresses.iter().flat_map(|it| urls_of(it)).collect(),
            None if url.starts_with("http") => vec![url.to_owned()],
            None => urls_of(host(url)),
        };
        places.sort_by_key(|it| rank(it));
        places
    }
}

#[cfg(test)]
mod tests {
    use super::*;

    #[test]
    fn the_first_kdc_is_that_of_mit() {
        let text =
            "[realms]\nEXAMPLE.COM = {\n auth_to_local_names = {\n  a = b\n }\n kdc = other\n}\n";
        let path = format!("{}/krb5.conf", crate::store::tests::room("kdcs"));
        std::fs::write(&path, text).unwrap();
        for (address, url) in [
            ("kdc.example.com", "udp://kdc.example.com"),
            ("KDC.example.com:89", "udp://KDC.example.com:89"),
            ("[2001:db8::1]:88", "udp://[2001:db8::1]:88"),
            ("tcp/kdc.example.com", "tcp://kdc.example.com"),
            ("http://proxy/KdcProxy", "http://proxy/KdcProxy"),
        ] {
            let kdcs = Kdcs(vec![(
                "EXAMPLE.COM".into(),
                vec![address.into(), "b".into()],
            )]);
            let mut it = Initiator::new("host/a", "desk", menolavuri::Flags::USUAL).unwrap();
            it.password("alice", "EXAMPLE.COM", "secret").unwrap();
            kdcs.tell(&mut it, Some(&path)).unwrap();
            it.start().unwrap();
            assert_eq!(it.url().unwrap(), url);
            assert!(
                kdcs.places(url).iter().any(|it| it.contains("://b")),
                "{url}"
            );
        }
    }

    #[test]
    fn all_kdcs_of_a_realm_are_asked() {
        let texts = |all: &[&str]| all.iter().map(|it| (*it).to_owned()).collect::<Vec<_>>();
        let kdcs = Kdcs(vec![
            ("A".into(), texts(&["a:88", "tcp/b", "udp/c:89"])),
            ("B".into(), texts(&["http://proxy/KdcProxy"])),
        ]);
        let wanted = ["udp://a:88", "udp://c:89", "tcp://a:88", "tcp://b"];
        assert_eq!(kdcs.places("tcp://a:88"), texts(&wanted));
        assert_eq!(kdcs.places("udp://c:89/"), texts(&wanted));
        assert_eq!(
            kdcs.places("http://proxy/KdcProxy"),
            texts(&["http://proxy/KdcProxy"])
        );
        assert_eq!(kdcs.places("tcp://d"), texts(&["udp://d", "tcp://d"]));
        assert_eq!(kdcs.places("http://e/x"), texts(&["http://e/x"]));
    }
}
