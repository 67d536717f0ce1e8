//! What is written of silos, grains, ranges and letters.

use crate::identities::{Activation, Address, Entry, Grain};
use crate::output::Output;
use crate::pieces::Span;
use crate::views::Version;
use crate::words::digest;

/// A digest in digits 0 to 9 and a to f.
pub type Hex = [u8; 64];

/// What a request asks about a grain.
#[derive(Clone, Copy)]
pub enum Act {
    Register { activation: Activation, previous: Option<Activation> },
    Deregister { activation: Activation },
    Find,
}

impl Act {
    /// The kind of its letter.
    pub fn kind(self) -> &'static str {
        match self {
            Act::Register { .. } => "register",
            Act::Deregister { .. } => "deregister",
            Act::Find => "find",
        }
    }
}

impl Output {
    pub fn address(&mut self, address: Address) -> &mut Output {
        let [a, b, c, d] = address.ip.to_be_bytes();
        self.number(a).word(".").number(b).word(".").number(c).word(".").number(d);
        self.word(":").number(address.port).word("@").number(address.generation)
    }

    pub fn activation(&mut self, activation: Activation) -> &mut Output {
        self.address(activation.silo).word("!").number(activation.count)
    }

    pub fn span(&mut self, range: impl Into<Span>) -> &mut Output {
        let Span { start, size } = range.into();
        self.number(start).word("+").number(size)
    }

    /// A line of an activation and its grain, behind a word.
    pub fn about(&mut self, word: &str, activation: Activation, grain: &[u8]) -> &mut Output {
        self.word(word).word(" ").activation(activation).word(" ").text(grain)
    }

    /// The beginning of a letter's line, up to its kind.
    pub fn letter(&mut self, from: Address, to: Address, version: u64, kind: &str) -> &mut Output {
        self.word("letter ").address(from).word(" ").address(to).word(" ").number(version).word(" ").word(kind).word(" ")
    }

    pub fn request(&mut self, from: Address, to: Address, seen: Version, number: u64, grain: &[u8], act: Act) {
        self.letter(from, to, seen.into(), act.kind()).number(number).word(" ").text(grain);
        if let Act::Register { activation, .. } | Act::Deregister { activation } = act {
            self.word(" ").activation(activation);
        }
        if let Act::Register { previous: Some(previous), .. } = act {
            self.word(" ").activation(previous);
        }
        self.word("\n");
    }

    /// Entries at the end of a letter's line.
    pub fn entries(&mut self, entries: &[Entry]) {
        for (grain, activation) in entries {
            self.word(" ").text(grain).word(" ").activation(*activation);
        }
        self.word("\n");
    }

    /// The line of a query behind a grain, if one is named.
    pub fn query(&mut self, from: Address, to: Address, version: u64, range: impl Into<Span>, after: Option<&Grain>) {
        self.letter(from, to, version, "query").span(range).after(after.map(|grain| &grain[..])).word("\n");
    }

    pub fn after(&mut self, after: Option<&[u8]>) -> &mut Output {
        match after {
            Some(grain) => self.word(" ").text(grain),
            None => self,
        }
    }

    pub fn refusal(&mut self, number: u16) {
        self.word("refused ").number(number).word("\n");
    }

    pub fn fault(&mut self, number: u16) {
        self.word("fault ").number(number).word("\n");
    }
}

/// The digest of the lines of entries: a grain, a space, its activation.
pub fn lines_digest(entries: &[Entry]) -> Hex {
    let mut lines = Output::default();
    for (grain, activation) in entries {
        lines.text(grain).word(" ").activation(*activation).word("\n");
    }
    let mut hex = [0; 64];
    let digits = digest(&lines.0).into_iter().flat_map(|word| (0..8).rev().map(move |at| (word >> (4 * at) & 15) as usize));
    hex.iter_mut().zip(digits).for_each(|(digit, value)| *digit = b"0123456789abcdef"[value]);
    hex
}
