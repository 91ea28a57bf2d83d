//! Answers written out by hand. Beside each is the rule that decides it.

use krb_conf::{
    ConfigFile, Env, KerberosConfig, Krb5Conf, detect_kdc_host, detect_kdc_url,
    get_client_principal_name, get_client_principal_name_type, get_client_principal_realm,
    parse_kdc_url, parse_target_name,
};
use krb_der::{Items, OutOfMemory, Text, TryCopy, boxed};
use sspi_core::Username;
use std::alloc::Global;
use std::test::Fail;
use url::Url;

/// A file as MIT's documentation and distributions have it.
const MIT: &str = "# To opt out of the system crypto-policies configuration of krb5\n\
    includedir /etc/krb5.conf.d/\r\n\
    stray = outside\n\
    \r\n\
    [logging]\r\n\
    \tdefault = FILE:/var/log/krb5libs.log\r\n\
    \t; kdc = FILE:/var/log/krb5kdc.log\r\n\
    \n\
    [libdefaults]\n\
    \tdns_lookup_realm = false   # do not ask\n\
    \x20   default_realm=EXAMPLE.COM\n\
    \x20   rdns = true = false\n\
    [realms]\n\
    \x20EXAMPLE.COM = {\n\
    \t\tkdc = kerberos.example.com\n\
    \t\tkdc\t=\tkerberos-1.example.com:750\t\n\
    \t\tauth_to_local_names = {\n\
    \t\t\tfred = freddie\n\
    \t\t}\n\
    \t\tadmin_server = kerberos.example.com\n\
    \x20}\n\
    \x20ATHENA.MIT.EDU =\n\
    \x20{\n\
    \t\tkdc = kerberos.mit.edu\n\
    \x20}\n\
    [domain_realm]\n\
    \x20.example.com = EXAMPLE.COM\n\
    \x20example.com = EXAMPLE.COM";

/// A value with braces, as Fedora's file has it.
const BRACES: &str = "[libdefaults]\n\
    default_ccache_name = KEYRING:persistent:%{uid}\n\
    rdns = false\n\
    [realms]\n\
    A = {\n\
    kdc = a\n\
    }\n\
    x = y\n\
    z = %{uid}\n\
    [plugins]*\n\
    w = v";

const AD: &str = "[libdefaults]\n\
    default_realm = AD.IT-HELP.NINJA\n\
    [realms]\n\
    AD.IT-HELP.NINJA = {\n\
    kdc = IT-HELP-DC.ad.it-help.ninja:88\n\
    }\n\
    x = y";

/// The value, or `none`.
fn shown(value: &Option<Text>) -> &str {
    match value {
        Some(value) => value.as_str(),
        None => "none",
    }
}

/// A text, a path, and the value there.
static VALUES: [(&str, &[&str], &str); 21] = [
    // Outside every section nothing is read.
    (MIT, &["stray"], "none"),
    // A tab before, a carriage return after.
    (MIT, &["logging", "default"], "FILE:/var/log/krb5libs.log"),
    // A comment that is indented.
    (MIT, &["logging", "; kdc"], "none"),
    // A comment after a value is part of it.
    (
        MIT,
        &["libdefaults", "dns_lookup_realm"],
        "false   # do not ask",
    ),
    (MIT, &["libdefaults", "default_realm"], "EXAMPLE.COM"),
    // The name ends at the first sign.
    (MIT, &["libdefaults", "rdns"], "true = false"),
    // The first value counts, and the case of letters does not.
    (
        MIT,
        &["Realms", "example.com", "KDC"],
        "kerberos.example.com",
    ),
    // The inner brace opens a group of its own ..
    (MIT, &["realms", "auth_to_local_names", "fred"], "freddie"),
    // .. and when it is closed no group is left.
    (MIT, &["realms", "admin_server"], "kerberos.example.com"),
    (MIT, &["realms", "EXAMPLE.COM", "admin_server"], "none"),
    // Without a brace on its line a name has an empty value, and a brace alone does nothing.
    (MIT, &["realms", "ATHENA.MIT.EDU"], ""),
    (MIT, &["realms", "kdc"], "kerberos.mit.edu"),
    // A value with a brace opens a group.
    (
        BRACES,
        &["libdefaults", "default_ccache_name", "rdns"],
        "false",
    ),
    // A section's line within a brace names the section, and no group is left.
    (BRACES, &["realms", "A", "kdc"], "a"),
    (BRACES, &["realms", "x"], "y"),
    // Within a brace, a line that ends with one closes it.
    (BRACES, &["realms", "z"], "none"),
    // A section's line that does not end with a bracket leads outside.
    (BRACES, &["plugins", "w"], "none"),
    (AD, &["libdefaults", "default_realm"], "AD.IT-HELP.NINJA"),
    (AD, &["realms", "x"], "y"),
    ("", &["realms"], "none"),
    ("a = b\nc = {\nd = e\n}", &["a"], "none"),
];

fn values() -> &'static [(&'static str, &'static [&'static str], &'static str)] {
    &VALUES
}

fn has_value(alloc: Global, conf: &Krb5Conf, path: &[&str], expected: &str) -> Result<bool, Fail> {
    let value = conf.get_value(alloc, path)?;
    Ok(shown(&value) == expected)
}

fn text_has_value(alloc: Global, text: &str, path: &[&str], expected: &str) -> Result<bool, Fail> {
    let conf = boxed(alloc, Krb5Conf::new_from_data(alloc, text)?)?;
    has_value(alloc, &conf, path, expected)
}

#[test]
fn values_are_those_of_the_rules(rt: HostRuntime) -> Result<(), Fail> {
    for (text, path, expected) in values() {
        assert!(rt;
            text_has_value(rt.alloc(), text, path, expected)?,
            "{expected}"
        );
    }
    Ok(())
}

/// A file, dropped after its copy.
fn copied_file(alloc: Global, text: &str) -> Result<Box<ConfigFile>, OutOfMemory> {
    let text = Text::from_str(alloc, text)?;
    let file = boxed(alloc, ConfigFile::new(alloc, text)?)?;
    boxed(alloc, file.copy(alloc)?)
}

#[test]
fn the_copy_of_a_file_has_its_text_and_its_values(rt: HostRuntime) -> Result<(), Fail> {
    let copy = copied_file(rt.alloc(), AD)?;
    assert_eq!(rt; copy.as_str(), AD);
    assert!(rt; has_value(rt.alloc(), copy.conf(), &["realms", "x"], "y")?);
    Ok(())
}

/// Whether these are the values below the path; none where there is no section.
fn has_section(
    alloc: Global,
    conf: &Krb5Conf,
    path: &[&str],
    expected: &[(&str, &str)],
) -> Result<bool, Fail> {
    let found = conf.get_values_in_section(alloc, path)?;
    let Some(found) = found else {
        return Ok(expected.is_empty());
    };
    let found = found.as_slice();
    let mut same = found.len() == expected.len();
    for (entry, wanted) in found.iter().zip(expected) {
        same = same && entry.0.as_str() == wanted.0 && entry.1.as_str() == wanted.1;
    }
    Ok(same)
}

#[test]
fn a_section_gives_its_values_in_their_order(rt: HostRuntime) -> Result<(), Fail> {
    let conf = Krb5Conf::new_from_data(rt.alloc(), MIT)?;
    let kdcs = [
        ("kdc", "kerberos.example.com"),
        ("kdc", "kerberos-1.example.com:750"),
    ];
    assert!(rt; has_section(rt.alloc(), &conf, &["realms", "example.com"], &kdcs)?);
    assert!(rt; has_section(rt.alloc(), &conf, &["realms", "EXAMPLE"], &[])?);
    Ok(())
}

fn pair(alloc: Global, name: &str, value: &str) -> Result<(Text, Text), OutOfMemory> {
    let name = Text::from_str(alloc, name)?;
    Ok((name, Text::from_str(alloc, value)?))
}

fn pairs(alloc: Global, pairs: &[(&str, &str)]) -> Result<Items<(Text, Text)>, OutOfMemory> {
    let mut items = Vec::new(alloc);
    for (name, value) in pairs {
        items.push(pair(alloc, name, value)?)?;
    }
    Ok(Items::new(items))
}

fn file(alloc: Global, path: &str, text: &str) -> Result<(Text, ConfigFile), OutOfMemory> {
    let (path, text) = pair(alloc, path, text)?;
    Ok((path, ConfigFile::new(alloc, text)?))
}

fn files(alloc: Global, files: &[(&str, &str)]) -> Result<Items<(Text, ConfigFile)>, OutOfMemory> {
    let mut items = Vec::new(alloc);
    for (path, text) in files {
        items.push(file(alloc, path, text)?)?;
    }
    Ok(Items::new(items))
}

/// Two files, of which the usual path has the first only.
fn env(alloc: Global, vars: &[(&str, &str)]) -> Result<Box<Env>, OutOfMemory> {
    let mapped = "[domain_realm]\n\
        .dev.tbt.com = TEST.TBT.COM\n\
        .dev.tbt.com = LATER\n\
        host.org = HOST.ORG\n\
        .org = ORG";
    let all = [
        ("/etc/krb5.conf", AD),
        ("/b", MIT),
        ("/b", ""),
        ("/c", mapped),
    ];
    let vars = pairs(alloc, vars)?;
    let files = files(alloc, &all)?;
    boxed(alloc, Env { vars, files })
}

/// A user, a domain that is given, and the realm.
static REALMS: [(&str, &str, &str); 11] = [
    ("", "C1.DEV.TBT.COM", "TEST.TBT.COM"),
    // A mapping with a dot does not fit the domain without.
    ("", "DEV.TBT.COM", "DEV.TBT.COM"),
    ("", "xdev.tbt.com", "XDEV.TBT.COM"),
    // One without a dot fits the domain itself, and what ends with a dot and it.
    ("", "HOST.org", "HOST.ORG"),
    ("", "a.host.org", "HOST.ORG"),
    // The order of the lines decides.
    ("", "ghost.org", "ORG"),
    // A dot in the middle is no end.
    ("", "a.dev.tbt.com.net", "A.DEV.TBT.COM.NET"),
    // The domain is what follows the last sign.
    ("user@dept@tbt.com", "", "TBT.COM"),
    ("user@example.com", "", "EXAMPLE.COM"),
    // A given domain counts before the name's.
    ("user@example.com", "tbt.com", "TBT.COM"),
    ("user", "", ""),
];

fn realms() -> &'static [(&'static str, &'static str, &'static str)] {
    &REALMS
}

fn has_realm(
    alloc: Global,
    env: &Env,
    username: &str,
    domain: &str,
    expected: &str,
) -> Result<bool, Fail> {
    let realm = get_client_principal_realm(alloc, env, username, domain)?;
    Ok(realm.as_str() == expected)
}

#[test]
fn realms_are_those_of_the_first_mapping(rt: HostRuntime) -> Result<(), Fail> {
    let vars = [("KRB5_CONFIG", "/absent:/b:/c"), ("KRB5_CONFIG", "/b")];
    let env = env(rt.alloc(), &vars)?;
    for (username, domain, expected) in realms() {
        assert!(rt;
            has_realm(rt.alloc(), &env, username, domain, expected)?,
            "{expected}"
        );
    }
    Ok(())
}

/// The variable of all realms, and that of one.
const BOTH: &[(&str, &str)] = &[
    ("SSPI_KDC_URL", "udp://all"),
    ("SSPI_KDC_URL_B.ORG", "no url"),
];

/// Variables, a realm, the address of its KDC, and its URL.
static KDCS: [(&[(&str, &str)], &str, &str, &str); 5] = [
    (
        &[],
        "AD.IT-HELP.NINJA",
        "tcp://IT-HELP-DC.ad.it-help.ninja:88",
        "tcp://IT-HELP-DC.ad.it-help.ninja:88",
    ),
    (&[], "EXAMPLE.COM", "none", "none"),
    (
        &[("KRB5_CONFIG", "/c:/b")],
        "example.com",
        "tcp://kerberos.example.com",
        "tcp://kerberos.example.com",
    ),
    (BOTH, "AD.IT-HELP.NINJA", "udp://all", "udp://all"),
    (BOTH, "B.ORG", "no url", "none"),
];

fn kdcs() -> &'static [(
    &'static [(&'static str, &'static str)],
    &'static str,
    &'static str,
    &'static str,
)] {
    &KDCS
}

fn has_host(alloc: Global, env: &Env, domain: &str, expected: &str) -> Result<bool, Fail> {
    let found = detect_kdc_host(alloc, env, domain)?;
    Ok(shown(&found) == expected)
}

fn has_url(alloc: Global, env: &Env, domain: &str, expected: &str) -> Result<bool, Fail> {
    let found = detect_kdc_url(alloc, env, domain)?;
    Ok(shown_url(&found) == expected)
}

/// Whether this host and this URL are found where these variables are set.
fn is_found(
    alloc: Global,
    vars: &[(&str, &str)],
    domain: &str,
    host: &str,
    url: &str,
) -> Result<bool, Fail> {
    let env = env(alloc, vars)?;
    Ok(has_host(alloc, &env, domain, host)? && has_url(alloc, &env, domain, url)?)
}

#[test]
fn a_kdc_is_the_first_that_is_named(rt: HostRuntime) -> Result<(), Fail> {
    for (vars, domain, host, url) in kdcs() {
        assert!(rt; is_found(rt.alloc(), vars, domain, host, url)?, "{domain}");
    }
    Ok(())
}

/// The URL, or `none`.
fn shown_url(url: &Option<Url>) -> &str {
    match url {
        Some(url) => url.as_str(),
        None => "none",
    }
}

/// An address that a client is configured with, its URL, and the URL that the client uses.
static ADDRESSES: [(&str, &str, &str); 3] = [
    (
        "kdc.example:88",
        "tcp://kdc.example:88",
        "tcp://kdc.example:88",
    ),
    (
        "https://p.example/k",
        "https://p.example/k",
        "https://p.example/k",
    ),
    ("://", "none", "udp://all"),
];

fn addresses() -> &'static [(&'static str, &'static str, &'static str)] {
    &ADDRESSES
}

fn is_url(alloc: Global, address: &str, expected: &str) -> Result<bool, Fail> {
    let url = parse_kdc_url(alloc, address)?;
    Ok(shown_url(&url) == expected)
}

/// A copy of a configuration with this address.
fn configured(alloc: Global, address: &str) -> Result<Box<KerberosConfig>, OutOfMemory> {
    let name = Text::from_str(alloc, "host")?;
    let config = boxed(alloc, KerberosConfig::new(alloc, address, name)?)?;
    boxed(alloc, config.copy(alloc)?)
}

/// Whether a client with this address uses the URL.
fn is_used(alloc: Global, address: &str, env: &Env, expected: &str) -> Result<bool, Fail> {
    let config = configured(alloc, address)?;
    let named = config.client_computer_name.as_str() == "host";
    let url = Box::into_inner(config).get_kdc_url(alloc, env, "EXAMPLE.COM")?;
    Ok(named && shown_url(&url) == expected)
}

#[test]
fn a_configured_kdc_counts_first(rt: HostRuntime) -> Result<(), Fail> {
    let env = env(rt.alloc(), &[("SSPI_KDC_URL", "udp://all")])?;
    for (address, own, used) in addresses() {
        assert!(rt; is_url(rt.alloc(), address, own)?, "{address}");
        assert!(rt; is_used(rt.alloc(), address, &env, used)?, "{address}");
    }
    Ok(())
}

/// A user, its name as a client, its domain, and the type of the name.
static NAMES: [(&str, &str, &str, u8); 4] = [
    ("user@example.com", "user@example.com", "example.com", 10),
    ("a@b@example.com", "a@b@example.com", "example.com", 10),
    ("EXAMPLE\\user", "user", "EXAMPLE", 1),
    ("user", "user", "", 1),
];

fn names() -> &'static [(&'static str, &'static str, &'static str, u8)] {
    &NAMES
}

fn has_parts(
    alloc: Global,
    whole: &str,
    name: &str,
    domain: &str,
    name_type: u8,
) -> Result<bool, Fail> {
    let username = Username::parse(alloc, whole)?;
    let client = get_client_principal_name(&username);
    Ok(client.name == name && client.realm_domain == domain && client.name_type == name_type)
}

#[test]
fn names_have_their_parts(rt: HostRuntime) -> Result<(), Fail> {
    for (whole, name, domain, name_type) in names() {
        assert!(rt;
            has_parts(rt.alloc(), whole, name, domain, *name_type)?,
            "{whole}"
        );
        assert!(rt;
            get_client_principal_name_type(whole, domain) == *name_type,
            "{whole}"
        );
    }
    Ok(())
}

/// A target, its service and its host; both empty where it is refused.
static TARGETS: [(&str, &str, &str); 8] = [
    ("EXAMPLE/p10", "EXAMPLE", "p10"),
    ("E/p10", "E", "p10"),
    ("A/B/C", "A", "B/C"),
    ("EXAMPLEp10", "", ""),
    ("EXAMPLE/", "", ""),
    ("/p10", "", ""),
    ("/", "", ""),
    ("", "", ""),
];

fn targets() -> &'static [(&'static str, &'static str, &'static str)] {
    &TARGETS
}

#[test]
fn targets_have_their_parts(rt: HostRuntime) {
    for (target, service, host) in targets() {
        let parts = parse_target_name(target).unwrap_or(("", ""));
        assert!(rt; parts.0 == *service && parts.1 == *host, "{target}");
    }
}
