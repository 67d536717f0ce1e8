//! The ring of a view, made of its silos' points alone. Owners are found by looking at all points.

use crate::members::Member;
use crate::world::Silo;

/// How many hashes there are.
const CIRCLE: u64 = 1 << 32;

/// A point, in the order in which points stand in a ring: by place, then by the silo's address, then by index.
#[derive(Clone, Copy, PartialEq, Eq, PartialOrd, Ord)]
pub struct RingPoint {
    pub place: u32,
    pub endpoint: u32,
    pub generation: u32,
    pub index: u8,
    pub silo: Silo,
}

/// The points of those who are Active in the view of a version, sorted anew.
pub fn ring_at(members: &[Member], version: u64) -> Vec<RingPoint> {
    let mut ring = Vec::new();
    for (silo, member) in members.iter().enumerate().filter(|(_, member)| member.is_active(version)) {
        let Member { endpoint, generation, .. } = *member;
        let places = member.places.iter().zip(0..);
        ring.extend(places.map(|(place, index)| RingPoint { place: *place, endpoint, generation, index, silo: silo as Silo }));
    }
    ring.sort_unstable();
    ring
}

/// The silo that owns a hash: that of the point the fewest steps back, of several the first in the ring.
pub fn owner(ring: &[RingPoint], hash: u32) -> Option<Silo> {
    ring.iter().min_by_key(|point| hash.wrapping_sub(point.place)).map(|point| point.silo)
}

/// How many steps back from a hash the nearest point is; all round the circle where there is none.
pub fn nearest(ring: &[RingPoint], hash: u32) -> u64 {
    ring.iter().map(|point| u64::from(hash.wrapping_sub(point.place))).min().unwrap_or(CIRCLE)
}

/// Whether the silo owns each hash of a range: the first one, and each at which the owner may change.
pub fn owns_all(ring: &[RingPoint], silo: Silo, start: u32, size: u64) -> bool {
    let is_inside = |point: &&RingPoint| u64::from(point.place.wrapping_sub(start)) < size;
    owner(ring, start) == Some(silo) && ring.iter().filter(is_inside).all(|point| owner(ring, point.place) == Some(silo))
}

/// How many hashes the silo owns.
pub fn owned_size(ring: &[RingPoint], silo: Silo) -> u64 {
    let firsts = ring.chunk_by(|one, next| one.place == next.place).map(|at_place| at_place[0]);
    firsts.filter(|point| point.silo == silo).map(|point| gap_after(ring, point.place)).sum()
}

/// How many hashes lie from a place up to the next one.
fn gap_after(ring: &[RingPoint], place: u32) -> u64 {
    let ahead = ring.iter().map(|point| u64::from(point.place.wrapping_sub(place)));
    ahead.filter(|ahead| *ahead != 0).min().unwrap_or(CIRCLE)
}
