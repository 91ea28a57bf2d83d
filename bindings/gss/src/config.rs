//! The settings: a file of lines `word = value`, at the path in MENOLAVURI_GSS_CONF, otherwise /etc/menolavuri/gss.conf. It is read once.
//! man/menolavuri_gss.5 has each word. If it cannot be read, or a line is not understood, nobody is admitted.

use crate::behind::secure_getenv;
use menolavuri::Rules;
use std::ffi::{CStr, CString};
use std::sync::OnceLock;
use std::time::Duration;

pub const DEFAULT_PATH: &str = "/etc/menolavuri/gss.conf";
const DEFAULT_FOLDER: &str = "/run/menolavuri";

/// The place of the records of admitted clients.
#[derive(Clone, Debug, PartialEq)]
pub enum Place {
    /// A folder of this machine.
    Folder(String),
    /// A Redis at this address.
    Redis(String),
}

/// The place of the log.
#[derive(Clone, Debug, PartialEq)]
pub enum Target {
    Off,
    Syslog,
    Stderr,
    File(String),
}

#[derive(Clone, Debug, PartialEq)]
pub struct Settings {
    pub keytab: Option<String>,
    pub store: Place,
    /// The folder of the counters; none are kept if it is empty.
    pub status: String,
    pub skew: Duration,
    /// The rules of sessions, if they differ from those that the library begins with.
    pub rules: Option<Rules>,
    pub log: Target,
    /// True if the proved initiator begins contexts, as far as it can.
    pub initiate: bool,
    /// True if each call is logged.
    pub trace: bool,
}

impl Settings {
    fn new() -> Settings {
        Settings {
            keytab: None,
            store: Place::Folder(DEFAULT_FOLDER.into()),
            status: DEFAULT_FOLDER.into(),
            skew: Duration::from_secs(300),
            rules: None,
            log: Target::Syslog,
            initiate: false,
            trace: false,
        }
    }

    fn take(&mut self, word: &str, value: &str) -> Result<(), String> {
        match word {
            "keytab" => self.keytab = Some(value.to_owned()),
            "store" => self.store = place(value)?,
            "status" => self.status = folder(value)?,
            "skew" => self.skew = seconds(value)?,
            "rules" => self.rules = Some(rules(value)?),
            "log" => self.log = target(value)?,
            "initiate" => self.initiate = is_yes(value)?,
            "trace" => self.trace = is_yes(value)?,
            _ => return Err("there is no such word".into()),
        }
        Ok(())
    }
}

fn place(value: &str) -> Result<Place, String> {
    match value.split_once(':') {
        Some(("redis", address)) if address.contains(':') => Ok(Place::Redis(address.to_owned())),
        Some(("file", path)) => Ok(Place::Folder(folder(path)?)),
        _ => Err("a store is file:/FOLDER or redis:HOST:PORT".into()),
    }
}

fn folder(path: &str) -> Result<String, String> {
    if path.starts_with('/') {
        return Ok(path.to_owned());
    }
    Err("a folder begins with /".into())
}

fn seconds(value: &str) -> Result<Duration, String> {
    match value.parse() {
        Ok(count @ 1..=3600) => Ok(Duration::from_secs(count)),
        _ => Err("the skew is 1 to 3600 seconds".into()),
    }
}

fn rules(value: &str) -> Result<Rules, String> {
    let mut all = Rules::NONE;
    for word in value.split_whitespace() {
        let named = match word {
            "RFC" => Some(Rules::RFC),
            "NONE" => Some(Rules::NONE),
            word => Rules::named(word),
        };
        all = all | named.ok_or_else(|| format!("there is no rule {word}"))?;
    }
    Ok(all)
}

fn target(value: &str) -> Result<Target, String> {
    match value {
        "off" => Ok(Target::Off),
        "syslog" => Ok(Target::Syslog),
        "stderr" => Ok(Target::Stderr),
        path if path.starts_with('/') => Ok(Target::File(path.to_owned())),
        _ => Err("a log is syslog, stderr, off or a path that begins with /".into()),
    }
}

fn is_yes(value: &str) -> Result<bool, String> {
    match value {
        "yes" => Ok(true),
        "no" => Ok(false),
        _ => Err("it is yes or no".into()),
    }
}

/// The settings of a file's text. `#` begins a comment, and a word comes once.
pub fn parse(text: &str) -> Result<Settings, String> {
    let mut settings = Settings::new();
    let mut words = Vec::new();
    for (number, line) in text.lines().enumerate() {
        let line = line.split('#').next().unwrap_or_default().trim();
        if line.is_empty() {
            continue;
        }
        let wrong = |reason: String| format!("line {}: {reason}", number + 1);
        let (word, value) = line
            .split_once('=')
            .ok_or_else(|| wrong("it has no =".into()))?;
        let (word, value) = (word.trim(), value.trim());
        if value.is_empty() || words.contains(&word) {
            return Err(wrong(format!("{word} has no value, or comes twice")));
        }
        settings
            .take(word, value)
            .map_err(|it| wrong(format!("{word}: {it}")))?;
        words.push(word);
    }
    match &settings.store {
        Place::Folder(folder) if !words.contains(&"status") => settings.status = folder.clone(),
        _ => {}
    }
    Ok(settings)
}

/// A variable of the environment, which a setuid program has not.
pub fn variable(name: &str) -> Option<String> {
    let name = CString::new(name).ok()?;
    // SAFETY: the name ends with 0, and what comes back is null or such a text; it is copied at once.
    unsafe {
        let at = secure_getenv(name.as_ptr());
        if at.is_null() {
            return None;
        }
        Some(CStr::from_ptr(at).to_string_lossy().into_owned())
    }
}

/// The settings at a path, with the log that MENOLAVURI_TRACE names.
pub fn read(path: &str, trace: Option<&str>) -> Result<Settings, String> {
    let text = std::fs::read_to_string(path).map_err(|error| format!("{path}: {error}"))?;
    let mut settings = parse(&text).map_err(|error| format!("{path}: {error}"))?;
    if let Some(trace) = trace {
        settings.log = target(trace).map_err(|error| format!("MENOLAVURI_TRACE: {error}"))?;
        settings.trace = true;
    }
    Ok(settings)
}

pub fn path() -> String {
    variable("MENOLAVURI_GSS_CONF").unwrap_or_else(|| DEFAULT_PATH.into())
}

static SETTINGS: OnceLock<Result<Settings, String>> = OnceLock::new();

/// The settings of this process, or why there are none.
pub fn get() -> Result<&'static Settings, &'static str> {
    let settings = SETTINGS.get_or_init(|| read(&path(), variable("MENOLAVURI_TRACE").as_deref()));
    settings.as_ref().map_err(|it| it.as_str())
}

#[cfg(test)]
mod tests {
    use super::*;

    #[test]
    fn a_file_is_read() {
        let text = "# of sshd\nkeytab = FILE:/etc/krb5.keytab\nstore=redis:127.0.0.1:6379 # shared\n\
                    skew = 60\nlog = stderr\ntrace = yes\nrules = RFC\nstatus = /run/x\ninitiate = yes\n";
        let settings = parse(text).unwrap();
        assert_eq!(settings.keytab.as_deref(), Some("FILE:/etc/krb5.keytab"));
        assert_eq!(settings.store, Place::Redis("127.0.0.1:6379".into()));
        assert_eq!(settings.skew, Duration::from_secs(60));
        assert_eq!(settings.log, Target::Stderr);
        assert_eq!(settings.rules, Some(Rules::RFC));
        assert_eq!(settings.status, "/run/x");
        assert!(settings.trace && settings.initiate);
    }

    #[test]
    fn an_empty_file_has_the_defaults() {
        let settings = parse("\n # nothing\n").unwrap();
        assert_eq!(settings, Settings::new());
        assert_eq!(settings.store, Place::Folder("/run/menolavuri".into()));
        assert_eq!(parse("store = file:/a").unwrap().status, "/a");
    }

    #[test]
    fn what_is_not_understood_is_refused() {
        for text in [
            "keytab",
            "keytab =",
            "keytap = /x",
            "store = /run/x",
            "store = redis:6379",
            "store = file:run",
            "skew = 0",
            "skew = 99999",
            "skew = -1",
            "rules = ANY_NAME",
            "log = nowhere",
            "trace = 1",
            "initiate = maybe",
            "skew = 60\nskew = 60",
            "status = x",
        ] {
            assert!(parse(text).is_err(), "{text}");
        }
        assert!(read("/nonexistent/gss.conf", None).is_err());
    }
}
