//! What a silo owns: pieces of the circle, and the snapshots that it keeps for others. All settled pieces have one table.

use crate::identities::{Address, Entry, Grain, Table, number};
use crate::ring::Range;
use crate::text::{Hex, lines_digest};
use crate::words::sides;
use std::collections::BTreeMap;

/// A range as letters tell it, which may have no hash.
#[derive(Clone, Copy, PartialEq, Eq)]
pub struct Span {
    pub start: u32,
    pub size: u64,
}

/// What is gathered of a snapshot.
#[derive(Default)]
pub struct Gathered {
    /// The number of the page that is wanted next.
    pub next: u64,
    /// How many pages there are and the digest, by the first page.
    pub whole: Option<(u64, Hex)>,
    pub entries: Vec<Entry>,
}

pub enum State {
    Settled,
    /// It awaits the next page of the previous owner's snapshot.
    Awaiting {
        from: Address,
        gathered: Gathered,
    },
    /// It awaits the last reports of silos, by address, each behind the grain up to which its silo has told, if it has told of any; and it
    /// has what all reported.
    Recovering {
        awaited: Vec<Address>,
        told: BTreeMap<Address, Grain>,
        reported: Table,
    },
}

pub struct Piece {
    pub range: Range,
    pub state: State,
}

/// The pieces in the order of their starts; no two have a hash in common.
#[derive(Default)]
pub struct Pieces(pub Vec<Piece>);

/// A snapshot, sealed for another silo, in the order of grains.
pub struct Snapshot {
    pub version: u64,
    pub range: Range,
    pub to: Address,
    pub entries: Vec<Entry>,
    pub digest: Hex,
}

/// How many entries a page has.
pub const PAGE: usize = 64;

impl Span {
    /// The range of that text; or 928.
    pub fn read(text: &[u8]) -> Result<Span, u16> {
        let plus = text.iter().position(|byte| *byte == b'+').ok_or(928u16)?;
        let start = number(&text[..plus], u32::MAX.into()).ok_or(928u16)? as u32;
        let size = number(&text[plus + 1..], 1 << 32).ok_or(928u16)?;
        Ok(Span { start, size })
    }

    pub fn holds(&self, hash: u32) -> bool {
        u64::from(hash.wrapping_sub(self.start)) < self.size
    }

    /// Where a grain of that hash stands in the order in which is reported: by how many hashes of the range come before its own, all of them
    /// where the range doesn't have it, and then by itself.
    pub fn standing<'a>(&self, hash: u32, grain: &'a [u8]) -> (u64, (&'a [u8], &'a [u8])) {
        let steps = u64::from(hash.wrapping_sub(self.start));
        (steps.min(self.size), sides(grain))
    }
}

impl From<Range> for Span {
    fn from(range: Range) -> Span {
        Span { start: range.start, size: range.size() }
    }
}

impl State {
    /// It awaits the first reports of these silos.
    pub fn recovering(awaited: Vec<Address>) -> State {
        State::Recovering { awaited, told: BTreeMap::new(), reported: Default::default() }
    }

    /// A silo that is awaited has told all; whether all have, so that the piece is settled. Of two entries of a grain the first stays.
    pub fn tell_all(&mut self, silo: Address, table: &mut Table) -> bool {
        let State::Recovering { awaited, told, reported } = self else {
            return false;
        };
        awaited.retain(|awaited| *awaited != silo);
        told.remove(&silo);
        if !awaited.is_empty() {
            return false;
        }
        table.extend(std::mem::take(reported));
        *self = State::Settled;
        true
    }

    pub fn is_settled(&self) -> bool {
        matches!(self, State::Settled)
    }
}

/// Of ranges that are in order and have no hash in common, the index of the one that has a hash.
pub fn index_of(hash: u32, count: usize, range: impl Fn(usize) -> Range) -> Option<usize> {
    let (mut low, mut high) = (0, count);
    while low < high {
        let middle = low.midpoint(high);
        if range(middle).start <= hash { low = middle + 1 } else { high = middle }
    }
    let index = low.checked_sub(1).or(count.checked_sub(1))?;
    range(index).holds(hash).then_some(index)
}

impl Pieces {
    /// The index of the piece that has a hash.
    pub fn index_of(&self, hash: u32) -> Option<usize> {
        index_of(hash, self.0.len(), |index| self.0[index].range)
    }

    /// The piece that has a hash.
    pub fn with(&self, hash: u32) -> Option<&Piece> {
        self.index_of(hash).map(|index| &self.0[index])
    }

    /// The piece of just that range.
    pub fn of_range(&mut self, range: Span) -> Option<&mut Piece> {
        let index = self.0.binary_search_by_key(&range.start, |piece| piece.range.start).ok()?;
        Some(&mut self.0[index]).filter(|piece| Span::from(piece.range) == range)
    }

    /// Whether every hash of the range is in settled pieces.
    pub fn are_settled_throughout(&self, range: Range) -> bool {
        let mut rest = range;
        loop {
            let Some(piece) = self.with(rest.start).filter(|piece| piece.state.is_settled()) else {
                return false;
            };
            if piece.range.from(rest.start).size() >= rest.size() {
                return true;
            }
            rest = rest.from(piece.range.end());
        }
    }
}

/// Brings entries into the order of their grains.
pub fn sort(entries: &mut [Entry]) {
    entries.sort_unstable_by(|one, other| sides(&one.0).cmp(&sides(&other.0)));
}

impl Snapshot {
    /// Without entries, until it is sealed.
    pub fn new(version: u64, range: Range, to: Address) -> Snapshot {
        Snapshot { version, range, to, entries: Vec::new(), digest: [0; 64] }
    }

    pub fn seal(&mut self) {
        sort(&mut self.entries);
        self.digest = lines_digest(&self.entries);
    }

    /// How many pages there are: one where there are no entries.
    pub fn pages(&self) -> u64 {
        self.entries.len().div_ceil(PAGE).max(1) as u64
    }

    /// The entries of a page that there is.
    pub fn page(&self, page: u64) -> &[Entry] {
        let first = page as usize * PAGE;
        &self.entries[first..self.entries.len().min(first + PAGE)]
    }
}
