//! How silos, grains and numbers are spelt, and how texts are hashed.

use crate::sha256::{START, compress};

/// Silos are ordered by address, port and generation.
#[derive(Clone, Copy, PartialEq, Eq, PartialOrd, Ord, Hash)]
pub struct Address {
    pub ip: u32,
    pub port: u16,
    pub generation: u32,
}

impl Address {
    /// The silo of that text; or 101, 102 or 103.
    pub fn read(text: &[u8]) -> Result<Address, u16> {
        let words = silo_words(text).ok_or(101u16)?;
        if !words.iter().all(|word| is_numeral(word)) {
            return Err(102);
        }
        let value = |index: usize, most: u32| number(words[index], most.into()).map(|value| value as u32).ok_or(103u16);
        let ip = value(0, 255)? << 24 | value(1, 255)? << 16 | value(2, 255)? << 8 | value(3, 255)?;
        let (port, generation) = (value(4, 65_535)?, value(5, 2_147_483_647)?);
        if port == 0 || generation == 0 {
            return Err(103);
        }
        Ok(Address { ip, port: port as u16, generation })
    }

    pub fn shares_endpoint(&self, other: &Address) -> bool {
        (self.ip, self.port) == (other.ip, other.port)
    }
}

/// The words between the marks of a silo's text.
fn silo_words(text: &[u8]) -> Option<[&[u8]; 6]> {
    let mut words = [&text[..0]; 6];
    let mut rest = text;
    for (word, mark) in words.iter_mut().zip(*b"...:@") {
        let end = rest.iter().position(|byte| b".:@".contains(byte))?;
        if end == 0 || rest[end] != mark {
            return None;
        }
        *word = &rest[..end];
        rest = &rest[end + 1..];
    }
    words[5] = rest;
    let is_word = !rest.is_empty() && !rest.iter().any(|byte| b".:@".contains(byte));
    is_word.then_some(words)
}

/// The key of a grain's text; or 111 without a kind and a key, 112 where one is too long, 113 where a byte isn't visible.
pub fn key_of(text: &[u8]) -> Result<&[u8], u16> {
    let kind = text.iter().position(|byte| *byte == b'/').ok_or(111u16)?;
    let key = &text[kind + 1..];
    if kind == 0 || key.is_empty() {
        return Err(111);
    }
    if kind > 64 || key.len() > 128 {
        return Err(112);
    }
    if text.iter().any(|byte| !(33..=126).contains(byte)) {
        return Err(113);
    }
    Ok(key)
}

/// The number that is all of the key after its last `#`.
pub fn stated_hash(key: &[u8]) -> Option<u32> {
    let sign = key.iter().rposition(|byte| *byte == b'#')?;
    number(&key[sign + 1..], u32::MAX.into()).map(|hash| hash as u32)
}

fn is_numeral(word: &[u8]) -> bool {
    word.iter().all(u8::is_ascii_digit) && (word.len() == 1 || word.first().is_some_and(|digit| *digit != b'0'))
}

/// The number that a word is in decimal, without leading zeros, where it is no more than `most`.
pub fn number(word: &[u8], most: u64) -> Option<u64> {
    if !is_numeral(word) {
        return None;
    }
    let mut number = 0u64;
    for digit in word {
        number = number.checked_mul(10)?.checked_add(u64::from(digit - b'0'))?;
    }
    (number <= most).then_some(number)
}

/// The kind and the key of a grain's text, by which grains are ordered.
pub fn sides(text: &[u8]) -> (&[u8], &[u8]) {
    let slash = text.iter().position(|byte| *byte == b'/').unwrap_or(text.len());
    text.split_at(slash)
}

/// The first four bytes, big-endian, of a text's SHA-256.
pub fn hash_text(text: &[u8]) -> u32 {
    digest(text)[0]
}

/// A text's SHA-256.
pub fn digest(text: &[u8]) -> [u32; 8] {
    let mut state = START;
    let blocks = text.chunks_exact(64);
    let rest = blocks.remainder();
    blocks.for_each(|block| compress(&mut state, block));
    let mut last = [0u8; 128];
    last[..rest.len()].copy_from_slice(rest);
    last[rest.len()] = 0x80;
    let end = if rest.len() < 56 { 64 } else { 128 };
    last[end - 8..end].copy_from_slice(&(8 * text.len() as u64).to_be_bytes());
    last[..end].chunks_exact(64).for_each(|block| compress(&mut state, block));
    state
}
