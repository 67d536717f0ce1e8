//! The names of things: silos, grains and ranges, read from their one spelling.

use crate::sha256::{START, compress};
use std::cmp::Ordering;
use std::collections::BTreeMap;
use std::convert::TryInto;
use std::fmt;

/// The number of a silo among all that were named.
pub type Id = u32;

/// Silos are ordered by address, port and generation.
#[derive(Clone, Copy, PartialEq, Eq, PartialOrd, Ord)]
pub struct Silo {
    pub ip: u32,
    pub port: u16,
    pub generation: u32,
}

/// A grain's text, and where its kind ends.
#[derive(Clone, Copy, PartialEq, Eq)]
pub struct Grain<'a> {
    text: &'a [u8],
    kind: u8,
}

#[derive(Clone, Copy)]
pub struct Range {
    pub start: u32,
    pub size: u64,
}

/// All silos that were named, under their numbers.
#[derive(Default)]
pub struct Silos {
    pub named: Vec<Silo>,
    ids: BTreeMap<Silo, Id>,
}

impl Silos {
    pub fn silo(&mut self, text: &[u8]) -> Option<Id> {
        let mut rest = text;
        let silo = self.silo_before(&mut rest)?;
        rest.is_empty().then_some(silo)
    }

    /// An activation's silo and count.
    pub fn activation(&mut self, text: &[u8]) -> Option<(Id, u64)> {
        let mut rest = text;
        let silo = self.silo_before(&mut rest)?;
        take_mark(&mut rest, b'!')?;
        let count = number(rest, u64::MAX)?;
        Some((silo, count))
    }

    fn silo_before(&mut self, rest: &mut &[u8]) -> Option<Id> {
        let silo = Silo::take(rest)?;
        let next = self.named.len() as Id;
        let id = *self.ids.entry(silo).or_insert(next);
        if id == next {
            self.named.push(silo);
        }
        Some(id)
    }
}

impl Silo {
    /// Takes a silo's text off the front.
    fn take(rest: &mut &[u8]) -> Option<Silo> {
        let mut ip = 0;
        for mark in *b"...:" {
            ip = ip << 8 | take_number(rest, 255)? as u32;
            take_mark(rest, mark)?;
        }
        let port = take_number(rest, 65_535)? as u16;
        take_mark(rest, b'@')?;
        let generation = take_number(rest, 2_147_483_647)? as u32;
        (port > 0 && generation > 0).then_some(Silo { ip, port, generation })
    }

    /// The place of the silo's point of that index where points are hashed.
    pub fn hashed_place(&self, index: u64) -> u32 {
        hash_text(format!("{self}#{index}").as_bytes())
    }
}

impl fmt::Display for Silo {
    fn fmt(&self, f: &mut fmt::Formatter) -> fmt::Result {
        let [a, b, c, d] = self.ip.to_be_bytes();
        write!(f, "{a}.{b}.{c}.{d}:{}@{}", self.port, self.generation)
    }
}

impl<'a> Grain<'a> {
    pub fn parse(text: &'a [u8]) -> Option<Grain<'a>> {
        let kind = text.iter().position(|byte| *byte == b'/')?;
        let is_visible = text.iter().fold(true, |so_far, byte| so_far & (33..=126).contains(byte));
        let is_grain = is_visible && (1..=64).contains(&kind) && (1..=128).contains(&(text.len() - kind - 1));
        is_grain.then_some(Grain { text, kind: kind as u8 })
    }

    /// The hash that the key states if they are stated, and else that of the text.
    pub fn hash(&self, is_stated: bool) -> u32 {
        let stated = if is_stated { self.stated_hash() } else { None };
        stated.unwrap_or_else(|| hash_text(self.text))
    }

    /// The number that is all of the key after its last `#`.
    fn stated_hash(&self) -> Option<u32> {
        let key = &self.text[usize::from(self.kind)..];
        let sign = key.iter().rposition(|byte| *byte == b'#')?;
        number(&key[sign + 1..], u32::MAX.into()).map(|hash| hash as u32)
    }

    /// A number that tells most grains apart: words of eight bytes, mixed by one multiplication each.
    pub fn mixed(&self) -> u64 {
        let words = self.text.chunks_exact(8);
        let mut last = [0; 8];
        last[..words.remainder().len()].copy_from_slice(words.remainder());
        let words = words.map(|word| u64::from_le_bytes(word.try_into().unwrap())).chain([u64::from_le_bytes(last)]);
        words.fold(0, |mixed: u64, word| (mixed.rotate_left(5) ^ word).wrapping_mul(0x517c_c1b7_2722_0a95))
    }

    fn sides(&self) -> (&[u8], &[u8]) {
        self.text.split_at(usize::from(self.kind))
    }
}

/// Grains are ordered by kind, then key.
impl Ord for Grain<'_> {
    fn cmp(&self, other: &Self) -> Ordering {
        self.sides().cmp(&other.sides())
    }
}

impl PartialOrd for Grain<'_> {
    fn partial_cmp(&self, other: &Self) -> Option<Ordering> {
        Some(self.cmp(other))
    }
}

impl fmt::Display for Grain<'_> {
    fn fmt(&self, f: &mut fmt::Formatter) -> fmt::Result {
        f.write_str(&String::from_utf8_lossy(self.text))
    }
}

impl Range {
    pub fn parse(text: &[u8]) -> Option<Range> {
        let mut rest = text;
        let start = take_number(&mut rest, u32::MAX.into())? as u32;
        take_mark(&mut rest, b'+')?;
        let size = number(rest, 1 << 32)?;
        Some(Range { start, size })
    }

    pub fn holds(&self, hash: u32) -> bool {
        u64::from(hash.wrapping_sub(self.start)) < self.size
    }
}

/// Takes digits off the front: a number without leading zeros, of at most so much.
fn take_number(rest: &mut &[u8], most: u64) -> Option<u64> {
    let (mut number, mut length) = (0u64, 0);
    while let Some(digit) = rest.get(length).map(|byte| byte.wrapping_sub(b'0')).filter(|digit| *digit <= 9) {
        number = number.checked_mul(10)?.checked_add(digit.into())?;
        length += 1;
    }
    let is_number = length == 1 || (length > 1 && rest[0] != b'0');
    *rest = &rest[length..];
    (is_number && number <= most).then_some(number)
}

fn take_mark(rest: &mut &[u8], mark: u8) -> Option<()> {
    let (first, others) = rest.split_first()?;
    *rest = others;
    (*first == mark).then_some(())
}

fn number(word: &[u8], most: u64) -> Option<u64> {
    let mut rest = word;
    let number = take_number(&mut rest, most)?;
    rest.is_empty().then_some(number)
}

/// The first four bytes, big-endian, of a text's SHA-256.
pub fn hash_text(text: &[u8]) -> u32 {
    let mut state = START;
    let blocks = text.chunks_exact(64);
    let rest = blocks.remainder();
    blocks.for_each(|block| compress(&mut state, block));
    let mut last = [0u8; 128];
    last[..rest.len()].copy_from_slice(rest);
    last[rest.len()] = 0x80;
    let end = if rest.len() < 56 { 64 } else { 128 };
    last[end - 8..end].copy_from_slice(&(8 * text.len() as u64).to_be_bytes());
    last[..end].chunks_exact(64).for_each(|block| compress(&mut state, block));
    state[0]
}
