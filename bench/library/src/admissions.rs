//! Admissions, by one thread.

use crate::Service;
use crate::mit::{self, Credential, MUTUAL, Octets};
use crate::timing::{Outcome, a_second, least};
use menolavuri::Acceptor;

/// Admits each client by this library: its name, the answer to it and its session are made and given back.
pub fn by_this(acceptor: &Acceptor, tokens: &[Octets]) -> Outcome<()> {
    for token in tokens {
        acceptor.accept(token)?;
    }
    Ok(())
}

/// Admissions by MIT's library.
pub fn by_mit(credential: &Credential, tokens: &[Octets]) -> Outcome<()> {
    for token in tokens {
        mit::accept(credential, token)?;
    }
    Ok(())
}

/// Measures admissions of clients that ask for no answer, and of clients that do.
pub fn measure(service: &Service, count: usize) -> Outcome<()> {
    let credential = service.credential()?;
    for (flags, words) in [(0, "without"), (MUTUAL, "with")] {
        let acceptor = service.acceptor()?;
        let [own, mit] = least(
            || service.tokens(flags, count),
            [&mut |tokens| by_this(&acceptor, tokens), &mut |tokens| {
                by_mit(&credential, tokens)
            }],
        )?;
        println!(
            "admissions {words} an answer: {:.0} a second, by MIT's library {:.0}",
            a_second(count, own),
            a_second(count, mit)
        );
    }
    Ok(())
}
