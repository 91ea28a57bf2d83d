//! Four threads over one acceptor: each token is admitted once, whichever thread brings it first.

mod client;

use client::{Client, NOW};
use menolavuri::{Acceptor, Cause, Error};
use std::time::{Duration, UNIX_EPOCH};

const KEY: [u8; 32] = [0x73; 32];
const TOKENS: usize = 200;
const THREADS: usize = 4;

/// How many of the tokens one thread has admitted, and how many are refused as replays. Each thread starts at another token.
fn bring(acceptor: &Acceptor, tokens: &[Vec<u8>], thread: usize) -> (usize, usize) {
    let moment = UNIX_EPOCH + Duration::from_secs(NOW);
    let (mut admitted, mut replayed) = (0, 0);
    for i in 0..tokens.len() {
        let token = &tokens[(7 * i + 31 * thread) % tokens.len()];
        match acceptor.accept_at(token, moment, [thread as u8 + 1; 64]) {
            Ok(session) => {
                assert_eq!(session.peer(), "alice@example.com");
                assert_eq!(session.client(), Some("alice@EXAMPLE.COM"));
                assert_eq!(
                    session.ends(),
                    Some(moment + Duration::from_secs(24 * 3600))
                );
                admitted += 1;
            }
            Err(error) => {
                assert_eq!(error.cause(), Some(Cause::Replayed), "{error}");
                replayed += 1;
            }
        }
    }
    (admitted, replayed)
}

#[test]
fn each_token_is_admitted_once() -> Result<(), Error> {
    let acceptor = Acceptor::new("host/server.example.com", &KEY, Duration::from_secs(300))?;
    let client = Client::new(&KEY, "alice");
    let tokens: Vec<_> = (0..TOKENS)
        .map(|i| client.token("alice", i as u32))
        .collect();
    let told: Vec<_> = std::thread::scope(|scope| {
        let threads: Vec<_> = (0..THREADS)
            .map(|thread| {
                scope.spawn({
                    let (acceptor, tokens) = (&acceptor, &tokens);
                    move || bring(acceptor, tokens, thread)
                })
            })
            .collect();
        threads
            .into_iter()
            .map(|thread| thread.join().expect("the thread ends"))
            .collect()
    });
    assert_eq!(told.iter().map(|x| x.0).sum::<usize>(), TOKENS);
    assert_eq!(
        told.iter().map(|x| x.1).sum::<usize>(),
        (THREADS - 1) * TOKENS
    );
    assert_eq!(acceptor.kept(), TOKENS as u64);
    Ok(())
}
