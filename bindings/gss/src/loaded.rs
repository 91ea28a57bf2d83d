//! Checks that the interposer is loaded in the environment of this program, for `menolavuri-status --loaded` before a service starts.

use crate::abi::{BufferDesc, COMPLETE, OidDesc};
use crate::behind::{gss_release_buffer, gssspi_mech_invoke};
use crate::buffers::text;
use crate::config;
use crate::oids::KRB5;

/// The OID of libmenolavuri_gss.conf, 1.3.6.1.4.1.32473.4120.1, with a 1 after it. (32473 is the number for examples of RFC 5612: the OID
/// is known to this machine's configuration alone, and is in no token.)
static QUESTION: OidDesc = OidDesc::of(b"\x2b\x06\x01\x04\x01\x81\xfd\x59\xa0\x18\x01\x01");

/// Returns the interposer's words about itself, or why there are none.
pub fn ask() -> Result<String, String> {
    config::get()?;

    let (mut minor, mut told) = (0, BufferDesc::EMPTY);
    // SAFETY: the OIDs are ours, and the buffer is the mechglue's until it is given back.
    unsafe {
        let status = gssspi_mech_invoke(&mut minor, &KRB5, &QUESTION, &mut told);
        if status != COMPLETE {
            return Err(format!(
                "the interposer is not loaded here ({status:#x}): MIT's mechanism would decide"
            ));
        }
        let words = text(&mut told);
        gss_release_buffer(&mut minor, &mut told);
        Ok(words)
    }
}
