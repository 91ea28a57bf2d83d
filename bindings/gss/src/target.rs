//! The service that an initiator is to reach, as the name of a program says.

/// A service of a host.
#[derive(Debug, PartialEq)]
pub struct Target {
    /// As "host/server.example.com".
    pub service: String,
    /// Empty if the name has none: then the user's KDC finds it.
    pub realm: String,
}

/// The service of a name as RFC 1964, section 2.1.1, has it: "host/server.example.com@EXAMPLE.COM", with two components of visible ASCII. Other
/// names have nothing here, those of ticket-granting services among them.
pub fn of(name: &str) -> Option<Target> {
    let (service, realm) = name.rsplit_once('@').unwrap_or((name, ""));
    let (first, host) = service.split_once('/')?;
    let is_plain = |part: &str| {
        let is_plain = |it: char| it.is_ascii_graphic() && !matches!(it, '/' | '@' | '\\');
        part.chars().all(is_plain)
    };
    let is_whole = !first.is_empty() && !host.is_empty() && first != "krbtgt";
    let is_plain = is_whole && is_plain(first) && is_plain(host) && is_plain(realm);
    is_plain.then(|| Target {
        service: service.to_owned(),
        realm: realm.to_owned(),
    })
}

#[cfg(test)]
mod tests {
    use super::*;

    #[test]
    fn services_of_hosts_are_targets() {
        let row = |name| of(name).map(|it| (it.service, it.realm));
        let is = |service: &str, realm: &str| Some((service.to_owned(), realm.to_owned()));
        assert_eq!(row("host/a.example@X"), is("host/a.example", "X"));
        assert_eq!(row("host/a.example@"), is("host/a.example", ""));
        assert_eq!(row("HTTP/a"), is("HTTP/a", ""));
        for name in [
            "alice@X",
            "krbtgt/X@X",
            "a/b/c@X",
            "/b@X",
            "a/@X",
            "a\\/b@X",
            "a/b\\@c@X",
            "a/ü@X",
            "a/b c@X",
            "",
            "a/b@X Y",
        ] {
            assert_eq!(of(name), None, "{name}");
        }
    }
}
