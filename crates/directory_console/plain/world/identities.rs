//! Silos, grains and activations: read from their one spelling, and from then on numbers.

pub use super::words::{Address, hash_text, number};

use super::words::{key_of, sides, stated_hash};
use std::num::NonZeroU32;

/// The number of a silo among all that were named, whether or not they joined.
pub type SiloName = u32;

/// The number of a silo among those that joined, in the order of their joins: 256 at most.
pub type Silo = u8;

/// The number of a grain among all that were named.
pub type Grain = u32;

/// An activation: its silo in the highest byte, and its count there in the rest. Counts begin at 1, and each belongs to an event that
/// was accepted, of which there are a million at most.
#[derive(Clone, Copy, PartialEq, Eq)]
pub struct Activation(NonZeroU32);

/// Texts, each once, under numbers from 0 in the order in which they came.
#[derive(Default)]
pub struct Texts {
    bytes: Vec<u8>,
    ends: Vec<u32>,
    /// A hash table without deletions, at most half full: the number of a text and one more, 0 for none, and half of what is mixed.
    slots: Vec<(u32, u32)>,
}

/// The silos that were named, and which of them joined.
#[derive(Default)]
pub struct Silos {
    texts: Texts,
    addresses: Vec<Address>,
    joined: Vec<Option<Silo>>,
}

/// The grains that were named, with their hashes.
pub struct Grains {
    texts: Texts,
    hashes: Vec<u32>,
    is_stated: bool,
}

impl Activation {
    pub fn new(silo: Silo, count: u32) -> Activation {
        debug_assert!(0 < count && count < 1 << 24);
        Activation(NonZeroU32::new(u32::from(silo) << 24 | count).expect("counts begin at 1"))
    }

    pub fn silo(self) -> Silo {
        (self.0.get() >> 24) as Silo
    }

    pub fn count(self) -> u32 {
        self.0.get() & 0xff_ffff
    }
}

/// A text as one word: eight bytes at a time, mixed by one multiplication each. The texts are the script's own.
fn mixed(text: &[u8]) -> u64 {
    let words = text.chunks_exact(8);
    let mut last = [0; 8];
    last[..words.remainder().len()].copy_from_slice(words.remainder());
    let words = words.map(|word| u64::from_le_bytes(word.try_into().unwrap())).chain([u64::from_le_bytes(last)]);
    let mixed = words.fold(text.len() as u64, |so_far, word| (so_far.rotate_left(5) ^ word).wrapping_mul(0x517c_c1b7_2722_0a95));
    mixed ^ mixed >> 32
}

impl Texts {
    pub fn text(&self, number: u32) -> &[u8] {
        let at = number as usize;
        let start = if at == 0 { 0 } else { self.ends[at - 1] };
        &self.bytes[start as usize..self.ends[at] as usize]
    }

    fn find(&self, mixed: u64, text: &[u8]) -> Option<u32> {
        if self.slots.is_empty() {
            return None;
        }
        let mask = self.slots.len() - 1;
        let mut at = mixed as usize & mask;
        loop {
            let (next, half) = self.slots[at];
            let number = next.checked_sub(1)?;
            if half == (mixed >> 32) as u32 && self.text(number) == text {
                return Some(number);
            }
            at = (at + 1) & mask;
        }
    }

    /// Enters a text that isn't there.
    fn enter(&mut self, mixed: u64, text: &[u8]) -> u32 {
        let number = self.ends.len() as u32;
        self.bytes.extend_from_slice(text);
        self.ends.push(self.bytes.len() as u32);
        if self.slots.len() < 2 * self.ends.len() {
            self.grow();
        } else {
            self.fill(mixed, number);
        }
        number
    }

    fn fill(&mut self, mixed: u64, number: u32) {
        let mask = self.slots.len() - 1;
        let mut at = mixed as usize & mask;
        while self.slots[at].0 != 0 {
            at = (at + 1) & mask;
        }
        self.slots[at] = (number + 1, (mixed >> 32) as u32);
    }

    fn grow(&mut self) {
        self.slots = vec![(0, 0); (4 * self.ends.len()).next_power_of_two()];
        for number in 0..self.ends.len() as u32 {
            self.fill(mixed(self.text(number)), number);
        }
    }
}

impl Silos {
    /// The silo of that text; or 101, 102 or 103.
    pub fn read(&mut self, text: &[u8]) -> Result<SiloName, u16> {
        let mixed = mixed(text);
        if let Some(name) = self.texts.find(mixed, text) {
            return Ok(name);
        }
        self.addresses.push(Address::read(text)?);
        self.joined.push(None);
        Ok(self.texts.enter(mixed, text))
    }

    pub fn text(&self, name: SiloName) -> &[u8] {
        self.texts.text(name)
    }

    pub fn address(&self, name: SiloName) -> Address {
        self.addresses[name as usize]
    }

    /// The silo's number, if it ever joined.
    pub fn silo(&self, name: SiloName) -> Option<Silo> {
        self.joined[name as usize]
    }

    pub fn has_joined(&mut self, name: SiloName, silo: Silo) {
        self.joined[name as usize] = Some(silo);
    }
}

impl Grains {
    pub fn new(is_stated: bool) -> Grains {
        Grains { texts: Texts::default(), hashes: Vec::new(), is_stated }
    }

    /// The grain of that text; or 111, 112 or 113.
    pub fn read(&mut self, text: &[u8]) -> Result<Grain, u16> {
        let mixed = mixed(text);
        if let Some(grain) = self.texts.find(mixed, text) {
            return Ok(grain);
        }
        let key = key_of(text)?;
        let stated = if self.is_stated { stated_hash(key) } else { None };
        self.hashes.push(stated.unwrap_or_else(|| hash_text(text)));
        Ok(self.texts.enter(mixed, text))
    }

    pub fn text(&self, grain: Grain) -> &[u8] {
        self.texts.text(grain)
    }

    pub fn hash(&self, grain: Grain) -> u32 {
        self.hashes[grain as usize]
    }

    /// Where the grain stands in the order of hashes; grains of one hash stand by number.
    pub fn key(&self, grain: Grain) -> u64 {
        u64::from(self.hash(grain)) << 32 | u64::from(grain)
    }

    /// The grain's kind and key, by which grains are ordered.
    pub fn sides(&self, grain: Grain) -> (&[u8], &[u8]) {
        sides(self.text(grain))
    }
}
