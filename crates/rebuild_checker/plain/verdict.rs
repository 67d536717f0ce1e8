//! The verdict on a dump: the first fault in the order of the rule, with the least silo or grain for which it is one.

use crate::dump::{Dump, Entry, Node, Phase, Piece, Row, State, least_twice};
use crate::names::{Grain, Id, Silo, Silos};
use std::collections::BTreeSet;
use std::convert::TryFrom;

pub enum Fault<'a> {
    RingDiffers(Silo),
    WrongRange(Silo),
    TwoFirm(Grain<'a>),
    MissingFirm(Grain<'a>),
    Stranger(Grain<'a>),
}

struct Judge<'d, 'a> {
    dump: &'d Dump<'a>,
    silos: &'d Silos,
    /// The nodes of silos that aren't Dead, with their numbers.
    live: Vec<(usize, &'d Node<'a>)>,
}

/// The silo and the count of the activation that an entry names, and its grain.
type Named<'a> = ((Id, u64), Grain<'a>);

pub fn verdict<'a>(dump: &Dump<'a>, silos: &Silos) -> Option<Fault<'a>> {
    let mut is_dead = vec![false; silos.named.len()];
    for row in &dump.rows {
        is_dead[row.silo as usize] = (1..=dump.current).contains(&row.dead);
    }
    let live = dump.nodes.iter().enumerate().filter(|(_, node)| !is_dead[node.silo as usize]).collect();
    let judge = Judge { dump, silos, live };
    if let Some(silo) = judge.wrong_ring() {
        return Some(Fault::RingDiffers(silo));
    }
    if let Some(silo) = judge.wrong_pieces() {
        return Some(Fault::WrongRange(silo));
    }
    judge.twice_firm().map(Fault::TwoFirm).or_else(|| judge.wrong_entry())
}

impl<'d, 'a> Judge<'d, 'a> {
    fn silo(&self, id: Id) -> Silo {
        self.silos.named[id as usize]
    }

    /// The first node whose ring isn't that of the view that it has seen. The views are gone through from the first to the last,
    /// and of each one the ring is made of the one before it.
    fn wrong_ring(&self) -> Option<Silo> {
        let mut changes = self.changes().into_iter().peekable();
        let mut by_version = self.live.clone();
        by_version.sort_by_key(|(_, node)| node.seen);
        let mut ring = BTreeSet::new();
        let mut wrong = Vec::new();
        for (number, node) in by_version {
            while let Some((_, is_coming, row)) = changes.next_if(|change| change.0 <= node.seen) {
                for point in self.points(row) {
                    // what it tells of the point isn't needed
                    let _ = if is_coming { ring.insert(point) } else { ring.remove(&point) };
                }
            }
            let points = node.ring.iter().map(|point| (point.place, self.silo(point.silo), point.index));
            if !points.eq(ring.iter().copied()) {
                wrong.push((number, self.silo(node.silo)));
            }
        }
        wrong.into_iter().min().map(|(_, silo)| silo)
    }

    /// The versions in which silos become Active, or are so no more, in order.
    fn changes(&self) -> Vec<(u64, bool, &'d Row)> {
        let mut changes = Vec::new();
        for row in &self.dump.rows {
            let end = [row.left, row.dead].iter().copied().filter(|version| *version > 0).min().unwrap_or(u64::MAX);
            if row.joined < end {
                changes.extend([(row.joined, true, row), (end, false, row)]);
            }
        }
        changes.sort_unstable_by_key(|change| change.0);
        changes
    }

    /// The points of a silo that is Active: place, silo, index.
    fn points(&self, row: &'d Row) -> impl Iterator<Item = (u32, Silo, u64)> + use<'d, 'a> {
        let silo = self.silo(row.silo);
        let hashed = if self.dump.is_stated { 0 } else { self.dump.points };
        let hashed = (0..hashed).map(move |index| silo.hashed_place(index));
        row.places.iter().copied().chain(hashed).zip(0..).map(move |(place, index)| (place, silo, index))
    }

    /// The first node whose pieces aren't what it owns, or whose entries aren't where they belong, or where a grain has two. If the
    /// rest is right no two pieces have a hash in common, so that only neighbours in a piece can be of one grain.
    fn wrong_pieces(&self) -> Option<Silo> {
        let is_right = |piece: &Piece| {
            let is_inside = |entry: &Entry| piece.range.holds(entry.grain.hash(self.dump.is_stated));
            piece.entries.iter().all(is_inside) && piece.entries.is_sorted_by(|one, next| one.grain != next.grain)
        };
        let is_wrong = |node: &Node| !has_its_ranges(node) || !node.pieces.iter().all(is_right);
        self.live.iter().find(|(_, node)| is_wrong(node)).map(|(_, node)| self.silo(node.silo))
    }

    /// The least grain that is firm on two nodes.
    fn twice_firm(&self) -> Option<Grain<'a>> {
        let held = self.live.iter().flat_map(|(_, node)| &node.held);
        least_twice(held.filter(|held| held.phase == Phase::Firm).map(|held| held.grain))
    }

    /// A firm activation without its entry, or else an entry that names an activation that nobody holds. Since rings and pieces are
    /// right, no two settled pieces of the current version have a hash in common, and an entry is where its grain's hash is.
    fn wrong_entry(&self) -> Option<Fault<'a>> {
        let current = self.live.iter().filter(|(_, node)| node.seen == self.dump.current);
        let is_settled = |piece: &&Piece| piece.state == State::Settled;
        let pieces: Vec<&Piece> = current.flat_map(|(_, node)| &node.pieces).filter(is_settled).collect();
        let (unentered, strangers) = self.compared(&pieces);
        let settled = intervals(&pieces);
        let missing = unentered.into_iter().filter(|grain| is_in(&settled, grain.hash(self.dump.is_stated)));
        missing.min().map(Fault::MissingFirm).or_else(|| strangers.into_iter().min().map(Fault::Stranger))
    }

    /// The grains of the firm activations that no entry of the pieces names, and of the entries that name what nobody holds: both in
    /// the order of silo and count, so that one walk compares them.
    fn compared(&self, pieces: &[&Piece<'a>]) -> (Vec<Grain<'a>>, Vec<Grain<'a>>) {
        let entries = pieces.iter().flat_map(|piece| &piece.entries);
        let mut named: Vec<Named> = entries.map(|entry| ((entry.silo, entry.count), entry.grain)).collect();
        named.sort_unstable_by_key(|named| named.0);
        let mut nodes: Vec<&Node> = self.live.iter().map(|(_, node)| *node).collect();
        nodes.sort_unstable_by_key(|node| node.silo);
        let (mut unentered, mut strangers) = (Vec::new(), Vec::new());
        let mut rest = named.as_slice();
        for held in nodes.into_iter().flat_map(|node| &node.held) {
            let activation = (held.silo, held.count);
            strangers.extend(take_while(&mut rest, |named| named.0 < activation).iter().map(|named| named.1));
            let its_own = take_while(&mut rest, |named| named.0 == activation).iter().map(|named| named.1);
            if held.phase == Phase::Firm && !its_own.clone().any(|grain| grain == held.grain) {
                unentered.push(held.grain);
            }
            strangers.extend(its_own.filter(|grain| *grain != held.grain));
        }
        strangers.extend(rest.iter().map(|named| named.1));
        (unentered, strangers)
    }
}

/// Takes off the front what passes the test.
fn take_while<'s, T>(rest: &mut &'s [T], test: impl Fn(&T) -> bool) -> &'s [T] {
    let length = rest.iter().position(|item| !test(item)).unwrap_or(rest.len());
    let (taken, left) = rest.split_at(length);
    *rest = left;
    taken
}

/// Whether the node's pieces have each hash once that its silo owns by its ring, and no other. This changes only at the places of
/// the ring and where pieces begin and end, so it is tested there.
fn has_its_ranges(node: &Node) -> bool {
    // Where another number of pieces may hold the hash than the one before it, and how many more do.
    let mut turns: Vec<(u32, i64)> = node.ring.iter().map(|point| (point.place, 0)).collect();
    let mut held = 0;
    for range in node.pieces.iter().map(|piece| piece.range).filter(|range| range.size > 0) {
        let end = (u64::from(range.start) + range.size) as u32;
        turns.extend([(range.start, 1), (end, -1)]);
        held += i64::from(u64::from(range.start) + range.size > u64::from(u32::MAX));
    }
    turns.sort_unstable();
    let mut owned = node.ring.last().map(|last| first_at(node, last.place));
    turns.chunk_by(|one, next| one.0 == next.0).all(|turns| {
        let hash = turns[0].0;
        held += turns.iter().map(|turn| turn.1).sum::<i64>();
        let here = node.ring.partition_point(|point| point.place < hash);
        if node.ring.get(here).is_some_and(|point| point.place == hash) {
            owned = Some(node.ring[here].silo);
        }
        held == i64::from(owned == Some(node.silo))
    })
}

/// The silo of the first point at a place where there is one.
fn first_at(node: &Node, place: u32) -> Id {
    node.ring[node.ring.partition_point(|point| point.place < place)].silo
}

/// What ranges that have no hash in common hold: from each first hash up to the last one, in order.
fn intervals(pieces: &[&Piece]) -> Vec<(u32, u32)> {
    let mut intervals = Vec::new();
    for range in pieces.iter().map(|piece| piece.range).filter(|range| range.size > 0) {
        let last = u64::from(range.start) + range.size - 1;
        if let Ok(last) = u32::try_from(last) {
            intervals.push((range.start, last));
        } else {
            intervals.extend([(range.start, u32::MAX), (0, last as u32)]);
        }
    }
    intervals.sort_unstable();
    intervals
}

fn is_in(intervals: &[(u32, u32)], hash: u32) -> bool {
    let up_to = intervals.partition_point(|interval| interval.0 <= hash);
    up_to > 0 && hash <= intervals[up_to - 1].1
}
