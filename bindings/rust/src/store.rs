//! Admission by a store that several machines or processes share, in the place of a book.

use crate::{Acceptor, Error, Judged, Session};
use std::time::{Duration, SystemTime};

/// The reply of a store to a record.
#[derive(Clone, Copy, Debug, PartialEq, Eq, Hash)]
pub struct Told {
    /// The store's own time when it replied: one clock for all machines that share it.
    pub now: SystemTime,
    /// True if the store had the record before.
    pub seen: bool,
}

impl Acceptor {
    /// Admits the client by a store that several machines share, such as Redis, in the place of the book, which is not asked.
    ///
    /// `ask` gets the [`record`](Judged::record) of the client, and the time for which the store has to keep it at least. In one step it
    /// inserts the record and finds out if the store had it. If it returns an error, because the store does not reply, nobody is admitted,
    /// and this call returns that error.
    ///
    /// ```
    /// use menolavuri::{Acceptor, Error, Session, Told};
    /// use std::collections::HashSet;
    /// use std::time::SystemTime;
    ///
    /// /// A set of this process, which keeps each record for ever, is the store.
    /// fn serve(acceptor: &Acceptor, store: &mut HashSet<Vec<u8>>, token: &[u8]) -> Result<Session, Error> {
    ///     let judged = acceptor.judge(token)?;
    ///     acceptor.admit_by_store(judged, |record, _keep| {
    ///         let seen = !store.insert(record.to_vec());
    ///         Ok(Told { now: SystemTime::now(), seen })
    ///     })
    /// }
    /// ```
    ///
    /// All machines that share the store have one skew.
    pub fn admit_by_store<E: From<Error>>(
        &self,
        mut judged: Judged,
        ask: impl FnOnce(&[u8], Duration) -> Result<Told, E>,
    ) -> Result<Session, E> {
        let record = judged.record()?;
        let Told { now, seen } = ask(&record, self.keep())?;
        Ok(self.admit_told(judged, now, seen)?)
    }

    /// A client's clock may be ahead by the skew, and its token is good for the skew after that. The rest is for the store's clock.
    fn keep(&self) -> Duration {
        3 * self.skew() + Duration::from_secs(1)
    }
}
