//! The circle of hashes, and on it the ring of each view.

use super::identities::{Address, Silo};
use super::views::{Version, Views};
use std::collections::BTreeMap;
use std::rc::{Rc, Weak};

/// A range with at least one hash: where it starts, and how many steps forward its last hash comes.
#[derive(Clone, Copy, PartialEq, Eq)]
pub struct Range {
    pub start: u32,
    last: u32,
}

/// A point of a silo. Points are ordered by place, then silo by address, then index.
#[derive(Clone, Copy)]
pub struct Point {
    pub place: u32,
    pub silo: Silo,
    pub index: u8,
}

/// The points of a view's Active silos, in order. Of several points at one place the first owns what follows.
#[derive(Default)]
pub struct Ring {
    pub points: Vec<Point>,
    /// The places at which there is a point, and the owner of each.
    places: Vec<u32>,
    owners: Vec<Silo>,
    /// The indices of a silo's places stand together, those of silo `n` from `firsts[n]` on.
    indices: Vec<u32>,
    firsts: Vec<u32>,
}

/// The rings that are in use: silos that have seen the same version share its ring.
#[derive(Default)]
pub struct Rings {
    by_version: BTreeMap<Version, Weak<Ring>>,
}

impl Range {
    pub fn size(&self) -> u64 {
        u64::from(self.last) + 1
    }

    pub fn holds(&self, hash: u32) -> bool {
        hash.wrapping_sub(self.start) <= self.last
    }

    /// How many steps forward from the start a hash comes.
    pub fn steps_to(&self, hash: u32) -> u32 {
        hash.wrapping_sub(self.start)
    }

    /// The hash behind the last one.
    pub fn end(&self) -> u32 {
        self.start.wrapping_add(self.last).wrapping_add(1)
    }

    /// From a hash up to the one before another; the full circle where they are the same.
    fn between(start: u32, end: u32) -> Range {
        Range { start, last: end.wrapping_sub(start).wrapping_sub(1) }
    }

    /// The hash and those behind it, of a range that holds it.
    pub fn from(&self, hash: u32) -> Range {
        Range { start: hash, last: self.last - hash.wrapping_sub(self.start) }
    }

    /// The first and the last hash; and where the range goes on past the highest hash, up to there and then from 0.
    pub fn stretches(&self) -> (std::ops::RangeInclusive<u32>, Option<std::ops::RangeInclusive<u32>>) {
        match self.start.checked_add(self.last) {
            Some(last) => (self.start..=last, None),
            None => (self.start..=u32::MAX, Some(0..=self.start.wrapping_add(self.last))),
        }
    }
}

impl Ring {
    /// The owner of a hash: at the nearest place going back from it.
    pub fn owner(&self, hash: u32) -> Option<Silo> {
        self.index_of(hash).map(|index| self.owners[index])
    }

    fn index_of(&self, hash: u32) -> Option<usize> {
        let behind = self.places.partition_point(|place| *place <= hash);
        behind.checked_sub(1).or(self.places.len().checked_sub(1))
    }

    /// The point that owns a hash.
    pub fn owning_point(&self, hash: u32) -> Option<Point> {
        let place = self.places[self.index_of(hash)?];
        let first = self.points.partition_point(|point| point.place < place);
        Some(self.points[first])
    }

    fn range_at(&self, index: usize) -> Range {
        let next = if index + 1 == self.places.len() { 0 } else { index + 1 };
        Range::between(self.places[index], self.places[next])
    }

    /// Every range with its owner, in the order of places.
    pub fn ranges(&self) -> impl Iterator<Item = (Range, Silo)> + '_ {
        (0..self.places.len()).map(|index| (self.range_at(index), self.owners[index]))
    }

    /// The ranges of a silo, in the order of places.
    pub fn ranges_of(&self, silo: Silo) -> impl Iterator<Item = Range> + '_ {
        let silo = silo as usize;
        let indices = match (self.firsts.get(silo), self.firsts.get(silo + 1)) {
            (Some(first), Some(end)) => &self.indices[*first as usize..*end as usize],
            _ => &[],
        };
        indices.iter().map(|index| self.range_at(*index as usize))
    }

    /// Tells each part of a range, cut at the places inside it, with the owner of its hashes.
    pub fn cut(&self, range: Range, mut tell: impl FnMut(Range, Option<Silo>)) {
        let Some(mut index) = self.index_of(range.start) else {
            return tell(range, None);
        };
        let mut rest = range;
        loop {
            let owner = self.owners[index];
            index = if index + 1 == self.places.len() { 0 } else { index + 1 };
            let next = self.places[index];
            if next == rest.start || !rest.holds(next) || next == range.start {
                return tell(rest, Some(owner));
            }
            tell(Range::between(rest.start, next), Some(owner));
            rest = rest.from(next);
        }
    }

    /// The ring of a version, made of the ring of another one: the points of silos that are no longer Active go, and those of new
    /// ones are merged in.
    fn advanced(&self, seen: Version, version: Version, views: &Views) -> Ring {
        let mut new = new_points(seen, version, views).into_iter().peekable();
        let stays: Vec<bool> = (0..views.rows.len()).map(|silo| views.is_active(silo as Silo, version)).collect();
        let mut points = Vec::with_capacity(self.points.len() + new.len());
        for point in self.points.iter().filter(|point| stays[point.silo as usize]) {
            points.extend(std::iter::from_fn(|| new.next_if(|new| new.is_before(point, views))));
            points.push(*point);
        }
        points.extend(new);
        Ring::of(points, views.rows.len())
    }

    /// The ring of points in order.
    fn of(points: Vec<Point>, silos: usize) -> Ring {
        let mut ring = Ring::default();
        for at_place in points.chunk_by(|one, next| one.place == next.place) {
            ring.places.push(at_place[0].place);
            ring.owners.push(at_place[0].silo);
        }
        ring.points = points;
        (ring.firsts, ring.indices) = grouped(&ring.owners, silos);
        ring
    }
}

impl Point {
    fn key(&self, views: &Views) -> (u32, Address, u8) {
        (self.place, views.row(self.silo).address, self.index)
    }

    fn is_before(&self, other: &Point, views: &Views) -> bool {
        self.place < other.place || self.place == other.place && self.key(views) < other.key(views)
    }
}

/// The points of the silos that are Active in a version and weren't in another one, in order.
fn new_points(seen: Version, version: Version, views: &Views) -> Vec<Point> {
    let silos = views.active(version).filter(|silo| !views.is_active(*silo, seen));
    let points_of = |silo: Silo| {
        let places = views.row(silo).places.iter().zip(0..);
        places.map(move |(place, index)| Point { place: *place, silo, index })
    };
    let mut points: Vec<Point> = silos.flat_map(points_of).collect();
    points.sort_unstable_by_key(|point| point.key(views));
    points
}

/// The indices grouped by owner, each group in order, and where the group of each silo begins; that of the last one ends with them.
fn grouped(owners: &[Silo], silos: usize) -> (Vec<u32>, Vec<u32>) {
    let mut firsts = vec![0; silos + 1];
    owners.iter().for_each(|owner| firsts[*owner as usize + 1] += 1);
    (0..silos).for_each(|silo| firsts[silo + 1] += firsts[silo]);
    let mut next = firsts.clone();
    let mut indices = vec![0; owners.len()];
    for (owner, index) in owners.iter().zip(0..) {
        let place = &mut next[*owner as usize];
        indices[*place as usize] = index;
        *place += 1;
    }
    (firsts, indices)
}

impl Rings {
    /// The ring of a version: the one in use, or one made of that of the version before, if that is in use, or of the nearest one
    /// that the caller has.
    pub fn at(&mut self, version: Version, views: &Views, near: &Ring, near_version: Version) -> Rc<Ring> {
        let in_use = |version: &Version| self.by_version.get(version).and_then(Weak::upgrade);
        if let Some(ring) = in_use(&version) {
            return ring;
        }
        let before = version.checked_sub(1).as_ref().and_then(in_use);
        let ring = Rc::new(match before {
            Some(before) => before.advanced(version - 1, version, views),
            None => near.advanced(near_version, version, views),
        });
        self.by_version.insert(version, Rc::downgrade(&ring));
        ring
    }
}
