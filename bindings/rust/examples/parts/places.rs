//! The places of those who are served at a time.

use std::collections::HashMap;
use std::net::{IpAddr, Ipv6Addr};
use std::sync::{Mutex, MutexGuard, PoisonError};

/// This many places, and this many of them for one address.
pub struct Places {
    most: usize,
    most_of_one: usize,
    taken: Mutex<HashMap<IpAddr, usize>>,
}

/// A place that is taken. It is given back however its thread ends.
pub struct Place<'a> {
    places: &'a Places,
    holder: IpAddr,
}

/// The part of an address that counts as one client: of IPv6 its first 64 bits, since a client has all addresses of those.
fn holder(address: IpAddr) -> IpAddr {
    match address.to_canonical() {
        IpAddr::V6(address) => Ipv6Addr::from_bits(address.to_bits() >> 64 << 64).into(),
        address => address,
    }
}

impl Places {
    pub fn new(most: usize, most_of_one: usize) -> Places {
        Places {
            most,
            most_of_one,
            taken: Mutex::default(),
        }
    }

    fn lock(&self) -> MutexGuard<'_, HashMap<IpAddr, usize>> {
        self.taken.lock().unwrap_or_else(PoisonError::into_inner)
    }

    /// A place for a client from this address, or why there is none.
    pub fn take(&self, address: IpAddr) -> Result<Place<'_>, String> {
        let mut taken = self.lock();
        if taken.values().sum::<usize>() >= self.most {
            return Err(format!("all {} places are taken", self.most));
        }
        let holder = holder(address);
        let count = taken.entry(holder).or_default();
        if *count >= self.most_of_one {
            return Err(format!("its address has {count} places already"));
        }
        *count += 1;
        Ok(Place {
            places: self,
            holder,
        })
    }
}

impl Drop for Place<'_> {
    fn drop(&mut self) {
        let mut taken = self.places.lock();
        if let Some(count) = taken.get_mut(&self.holder) {
            *count -= 1;
        }
        taken.retain(|_, count| *count > 0);
    }
}

#[cfg(test)]
mod tests {
    use super::*;

    fn ip(text: &str) -> IpAddr {
        text.parse().unwrap()
    }

    #[test]
    fn places_are_counted() {
        let places = Places::new(3, 2);
        let first = places.take(ip("192.0.2.1"));
        let _second = places.take(ip("::ffff:192.0.2.1"));
        assert!(places.take(ip("192.0.2.1")).is_err());
        let _third = places.take(ip("192.0.2.2"));
        assert!(places.take(ip("192.0.2.3")).is_err());
        drop(first);
        drop(places.take(ip("192.0.2.1")).unwrap());
        let _fourth = places.take(ip("192.0.2.3")).unwrap();
        assert!(places.take(ip("192.0.2.4")).is_err());
        assert_eq!(places.lock().len(), 3);
    }

    #[test]
    fn a_network_of_ipv6_counts_as_one() {
        assert_eq!(holder(ip("2001:db8::1")), holder(ip("2001:db8::2:0:0:0")));
        assert_ne!(holder(ip("2001:db8::1")), holder(ip("2001:db8:0:1::1")));
    }
}
