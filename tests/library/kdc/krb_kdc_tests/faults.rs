//! A network of one KDC: a request to another URL fails with 1, and one for which there is no draw fails with 2.

use super::parties::{draw_at, new_kdc};
use krb_crypto::CipherSuite;
use krb_der::{Items, Octets, Text};
use krb_kdc::KdcNet;
use sspi_core::NetworkProtocol;
use sspi_generator::{NetFault, NetworkClient, NetworkRequest};
use std::alloc::Global;
use std::test::Fail;
use url::Url;

const HERE: &str = "tcp://kdc.example:88";

const ELSEWHERE: &str = "tcp://other.example:88";

/// To whom a request goes, what becomes of it (`None` is a reply), and how often the network has failed then.
struct Row {
    url: &'static str,
    failure: Option<u32>,
    faults: u64,
}

/// There are two draws, and the first request takes one though nobody answers it.
static ROWS: [Row; 4] = [
    Row {
        url: ELSEWHERE,
        failure: Some(1),
        faults: 1,
    },
    Row {
        url: HERE,
        failure: None,
        faults: 1,
    },
    Row {
        url: HERE,
        failure: Some(2),
        faults: 2,
    },
    Row {
        url: ELSEWHERE,
        failure: Some(1),
        faults: 3,
    },
];

/// A network of one KDC, with two draws.
fn net(alloc: Global) -> Result<KdcNet, Fail> {
    let kdc = new_kdc(
        alloc,
        "EXAMPLE.COM",
        CipherSuite::Aes256CtsHmacSha196,
        &[1; 32],
    )?;
    let mut pairs = Vec::new(alloc);
    pairs.push((Text::from_str(alloc, HERE)?, Box::into_inner(kdc)))?;
    let draws = vec![in alloc; draw_at(0, 10), draw_at(0, 20)]?;
    Ok(KdcNet::new(Items::new(pairs), Items::new(draws)))
}

/// A request of one octet, which any KDC answers with an error.
fn request(alloc: Global, url: &str) -> Result<NetworkRequest, Fail> {
    let Ok(url) = Url::parse(alloc, url) else {
        return Err("a URL".into());
    };
    Ok(NetworkRequest {
        protocol: NetworkProtocol::Tcp,
        url,
        payload: Octets::from_slice(alloc, &[0])?,
    })
}

fn failure_of(answer: Result<Octets, NetFault>) -> Result<Option<u32>, Fail> {
    match answer {
        Ok(_) => Ok(None),
        Err(NetFault::Failed(code)) => Ok(Some(code)),
        Err(NetFault::OutOfMemory) => Err("there is memory".into()),
    }
}

/// Whether each row ends as it should, one after the other.
pub fn failures_are_told(alloc: Global) -> Result<bool, Fail> {
    let mut net = net(alloc)?;
    for row in &ROWS {
        let request = request(alloc, row.url)?;
        let failure = failure_of(net.send(&request))?;
        if failure != row.failure || net.faults() != row.faults {
            return Ok(false);
        }
    }
    Ok(true)
}
