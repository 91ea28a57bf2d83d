//! Messages of one connection, by one thread, under keys that are kept.

use crate::Service;
use crate::mit::{self, Context};
use crate::timing::{Outcome, least, microseconds};
use menolavuri::Session;

const SIZES: [usize; 4] = [64, 1 << 10, 1 << 14, 1 << 20];

/// How many octets of text a round has, where it has no more than `MOST` messages.
const OCTETS: usize = 1 << 24;
const MOST: usize = 20_000;

/// A text, and how many messages of it a round has.
struct Load<'a> {
    text: &'a [u8],
    count: usize,
}

impl Load<'_> {
    /// Measures work by this library and by MIT's over the same inputs, of which each is made before the clock starts.
    fn measure<T>(
        &self,
        action: &str,
        mut make: impl FnMut() -> Outcome<T>,
        mut own: impl FnMut(&T) -> Outcome<()>,
        mut mit: impl FnMut(&T) -> Outcome<()>,
    ) -> Outcome<()> {
        let [own, mit] = least(
            || (0..self.count).map(|_| make()).collect(),
            [
                &mut |inputs| inputs.iter().try_for_each(&mut own),
                &mut |inputs| inputs.iter().try_for_each(&mut mit),
            ],
        )?;
        println!(
            "{action} of {} octets: {:.2} µs, by MIT's library {:.2}",
            self.text.len(),
            microseconds(self.count, own),
            microseconds(self.count, mit)
        );
        Ok(())
    }
}

/// A client of MIT's, and the service's end by both libraries, over one token.
struct Connection {
    client: Context,
    own: Session,
    mit: Context,
}

impl Connection {
    fn new(service: &Service) -> Outcome<Connection> {
        let (client, token) = mit::begin(&service.name, 0)?;
        Ok(Connection {
            client,
            own: service.acceptor()?.accept(&token)?,
            mit: mit::accept(&service.credential()?, &token)?,
        })
    }

    fn measure_sealed(&mut self, load: &Load) -> Outcome<()> {
        let Connection { client, own, mit } = self;
        let text = load.text;
        load.measure(
            "wrap",
            || Ok(()),
            |()| Ok(own.wrap(text).map(drop)?),
            |()| Ok(mit.wrap(text).map(drop)?),
        )?;
        load.measure(
            "unwrap",
            || Ok(client.wrap(text)?),
            |message| Ok(own.unwrap(message).map(drop)?),
            |message| Ok(mit.unwrap(message).map(drop)?),
        )
    }

    fn measure_signed(&mut self, load: &Load) -> Outcome<()> {
        let Connection { client, own, mit } = self;
        let text = load.text;
        load.measure(
            "MIC",
            || Ok(()),
            |()| Ok(own.mic(text).map(drop)?),
            |()| Ok(mit.mic(text).map(drop)?),
        )?;
        load.measure(
            "verification",
            || Ok(client.mic(text)?),
            |mic| Ok(own.verify(mic, text)?),
            |mic| Ok(mit.verify(mic, text)?),
        )
    }
}

/// Measures messages of each size.
pub fn measure(service: &Service) -> Outcome<()> {
    let mut connection = Connection::new(service)?;
    for size in SIZES {
        let text = vec![7; size];
        let load = Load {
            text: &text,
            count: (OCTETS / size).min(MOST),
        };
        connection.measure_sealed(&load)?;
        connection.measure_signed(&load)?;
    }
    Ok(())
}
