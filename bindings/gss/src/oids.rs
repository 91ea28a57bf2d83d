//! Object identifiers, and the names by which MIT's mechanism is called.

use crate::abi::{Oid, OidDesc, OidSet, OidSetDesc};
use crate::buffers::slice;
use std::sync::OnceLock;

pub static KRB5: OidDesc = OidDesc::of(b"\x2a\x86\x48\x86\xf7\x12\x01\x02\x02");
pub static KRB5_OLD: OidDesc = OidDesc::of(b"\x2b\x05\x01\x05\x02");
pub static KRB5_WRONG: OidDesc = OidDesc::of(b"\x2a\x86\x48\x82\xf7\x12\x01\x02\x02");
pub static IAKERB: OidDesc = OidDesc::of(b"\x2b\x06\x01\x05\x02\x05");
/// All of Kerberos. If one were not interposed, a client could name it, and MIT's mechanism would admit it.
pub static FAMILY: [&OidDesc; 4] = [&KRB5, &KRB5_OLD, &KRB5_WRONG, &IAKERB];

/// GSS_KRB5_NT_PRINCIPAL_NAME
pub static NT_PRINCIPAL: OidDesc = OidDesc::of(b"\x2a\x86\x48\x86\xf7\x12\x01\x02\x02\x01");
/// GSS_KRB5_GET_TKT_FLAGS_OID
pub const TICKET_FLAGS: &[u8] = b"\x2a\x86\x48\x86\xf7\x12\x01\x02\x02\x05\x01";
/// GSS_C_INQ_SSPI_SESSION_KEY
pub const SESSION_KEY: &[u8] = b"\x2a\x86\x48\x86\xf7\x12\x01\x02\x02\x05\x05";
/// GSS_KRB5_REGISTER_ACCEPTOR_IDENTITY_X_OID
pub const REGISTER_IDENTITY: &[u8] = b"\x2a\x86\x48\x86\xf7\x12\x01\x02\x02\x05\x09";
/// GSS_KRB5_CCACHE_NAME_OID
pub const CCACHE_NAME: &[u8] = b"\x2a\x86\x48\x86\xf7\x12\x01\x02\x02\x05\x03";
/// GSS_C_SEC_CONTEXT_SASL_SSF
pub const SASL_SSF: &[u8] = b"\x2a\x86\x48\x86\xf7\x12\x01\x02\x02\x05\x0f";
/// GSS_KRB5_SESSION_KEY_ENCTYPE_OID without its last arc, the encryption type.
pub const KEY_TYPE: &[u8] = b"\x2a\x86\x48\x86\xf7\x12\x01\x02\x02\x04";

/// This interposer's own, which its line in the configuration of the mechglue has.
static OWN: OnceLock<Vec<u8>> = OnceLock::new();
/// The special ones, for as long as the process lives.
static SPECIAL: OnceLock<[Vec<u8>; 4]> = OnceLock::new();

impl OidDesc {
    pub const fn of(octets: &'static [u8]) -> OidDesc {
        OidDesc {
            length: octets.len() as u32,
            elements: octets.as_ptr().cast(),
        }
    }
}

/// The octets of an OID; none if there is no OID.
///
/// # Safety
/// It is null or one of the mechglue's.
pub unsafe fn octets<'a>(oid: Oid) -> &'a [u8] {
    if oid.is_null() {
        return &[];
    }
    // SAFETY: of the caller.
    unsafe { slice((*oid).elements.cast(), (*oid).length as usize) }
}

fn of_family(index: usize) -> &'static [u8] {
    // SAFETY: one of ours.
    unsafe { octets(FAMILY[index]) }
}

/// Learns the OID of this interposer.
///
/// # Safety
/// It is null or one of the mechglue's.
pub unsafe fn learn(oid: Oid) {
    // SAFETY: of the caller.
    let _ = OWN.set(unsafe { octets(oid) }.to_vec());
}

/// Returns true if an OID is this interposer's own with these octets after it.
pub fn is_own(oid: &[u8], further: &[u8]) -> bool {
    let own = OWN.get().map_or(&[][..], |it| it);
    !own.is_empty() && oid.strip_prefix(own) == Some(further)
}

/// The OID by which MIT's mechanism is named in turn: the mechglue makes it of this interposer's and of the mechanism's.
///
/// # Safety
/// The OID is null or one of the mechglue's.
pub unsafe fn special(mech: Oid) -> OidDesc {
    let own = OWN.get().map_or(&[][..], |it| it);
    let all = SPECIAL.get_or_init(|| std::array::from_fn(|it| [own, of_family(it)].concat()));
    // SAFETY: of the caller.
    let wanted = unsafe { octets(mech) };
    let index = (0..FAMILY.len()).find(|it| of_family(*it) == wanted);
    OidDesc::of(&all[index.unwrap_or(0)])
}

/// The special OIDs of a set of mechanisms; of Kerberos' alone if there is no set.
pub struct Specials(Vec<OidDesc>);

impl Specials {
    /// # Safety
    /// The set is null or one of the mechglue's.
    pub unsafe fn of(mechs: OidSet) -> Specials {
        // SAFETY: of the caller.
        unsafe {
            if mechs.is_null() {
                return Specials(vec![special(&KRB5)]);
            }
            let of = |n| special((*mechs).elements.add(n));
            Specials((0..(*mechs).count).map(of).collect())
        }
    }

    /// As the mechglue has a set, for as long as this lives.
    pub fn set(&mut self) -> OidSetDesc {
        OidSetDesc {
            count: self.0.len(),
            elements: self.0.as_mut_ptr(),
        }
    }
}

/// An OID for a log: its octets in hex.
///
/// # Safety
/// It is null or one of the mechglue's.
pub unsafe fn shown(oid: Oid) -> String {
    // SAFETY: of the caller.
    let octets = unsafe { octets(oid) };
    octets.iter().map(|it| format!("{it:02x}")).collect()
}
