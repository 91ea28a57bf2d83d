//! Carries the requests of `krb_run` to KDCs. Each line of input that is its reply `ask PROTOCOL URL HEX` is answered by the rest of
//! an event, `reply HEX` or `fault 1`, and why it failed is printed on standard error:
//!
//!     cargo run --offline --example carry 127.0.0.1:1088 < asks
//!
//! The arguments are the KDCs that are asked, by the same protocol, where the one of the line does not answer.

#[path = "parts/telling.rs"]
mod telling;

use std::io::{self, Write};
use std::process::ExitCode;
use std::{env, error::Error};

type Answer<T> = Result<T, Box<dyn Error + Send + Sync>>;

fn octets(hex: &str) -> Option<Vec<u8>> {
    let pairs = hex.as_bytes().chunks(2);
    pairs
        .map(|pair| u8::from_str_radix(std::str::from_utf8(pair).ok()?, 16).ok())
        .collect()
}

fn hex(octets: &[u8]) -> String {
    octets.iter().map(|octet| format!("{octet:02x}")).collect()
}

/// The rest of the event that answers a line.
fn answer(line: &str, others: &[String]) -> Answer<String> {
    let ["ask", protocol, url, request] = *line.split(' ').collect::<Vec<_>>() else {
        let words = format!("a line is `ask PROTOCOL URL HEX`, and not {line:?}");
        return Err(words.into());
    };
    let others: Vec<String> = others
        .iter()
        .map(|host| format!("{protocol}://{host}"))
        .collect();
    let urls = [url].into_iter().chain(others.iter().map(String::as_str));
    let request =
        octets(request).ok_or_else(|| format!("a request is in hex, and not {request:?}"))?;
    match menolavuri::carrier::carry(url, &request, urls) {
        Ok(answer) => Ok(format!("reply {}", hex(&answer))),
        Err(error) => {
            telling::complain(&error.to_string());
            Ok("fault 1".to_owned())
        }
    }
}

fn run(others: &[String]) -> Answer<()> {
    for line in io::stdin().lines() {
        writeln!(io::stdout(), "{}", answer(&line?, others)?)?;
    }
    Ok(())
}

fn main() -> ExitCode {
    let others: Vec<String> = env::args().skip(1).collect();
    telling::end(run(&others))
}
