//! Admissions without an answer, by one thread, two and four: all clients at one acceptor, with one replay book.

use crate::Service;
use crate::admissions::{by_mit, by_this};
use crate::mit::Octets;
use crate::timing::{Outcome, a_second, least};
use menolavuri::Acceptor;
use std::thread;

/// Work by this many threads at once, each over its part of the tokens.
fn share(
    threads: usize,
    tokens: &[Octets],
    work: impl Fn(&[Octets]) -> Outcome<()> + Sync,
) -> Outcome<()> {
    let work = &work;
    thread::scope(|scope| {
        let parts = tokens.chunks(tokens.len().div_ceil(threads));
        let started: Vec<_> = parts.map(|part| scope.spawn(move || work(part))).collect();
        let mut ended = started
            .into_iter()
            .map(|thread| thread.join().expect("no thread panics"));
        ended.try_for_each(|outcome| outcome)
    })
}

/// The checks of each token before the replay book's, which share nothing but the copies of the keys.
fn judge(acceptor: &Acceptor, tokens: &[Octets]) -> Outcome<()> {
    for token in tokens {
        acceptor.judge(token)?;
    }
    Ok(())
}

/// Measures four times as many admissions as `count`, by each number of threads.
pub fn measure(service: &Service, count: usize) -> Outcome<()> {
    let count = 4 * count;
    for (threads, words) in [(1, "one thread"), (2, "two threads"), (4, "four threads")] {
        let acceptor = service.acceptor()?;
        let [judged, admitted, mit] = least(
            || service.tokens(0, count),
            [
                &mut |tokens| share(threads, tokens, |part| judge(&acceptor, part)),
                &mut |tokens| share(threads, tokens, |part| by_this(&acceptor, part)),
                &mut |tokens| share(threads, tokens, |part| by_mit(&service.credential()?, part)),
            ],
        )?;
        println!(
            "admissions by {words}: judged {:.0} a second, judged and admitted {:.0}, by MIT's library {:.0}",
            a_second(count, judged),
            a_second(count, admitted),
            a_second(count, mit)
        );
    }
    Ok(())
}
