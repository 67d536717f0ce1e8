//! What a storm remembers of the letters: when each was sent, of which grain it is, and whether it has come or was lost.

use crate::world::Silo;
use crate::world::mail::{Body, Mail};
use std::collections::BTreeSet;

/// A letter: after how many events it was sent, by whom, whose it is, of which grain, and whether it neither has come nor was lost.
pub struct Sent {
    pub after: u64,
    pub from: Silo,
    pub to: Silo,
    pub grain: Option<usize>,
    pub is_fresh: bool,
}

/// Letter `n` stands at `n - 1`.
#[derive(Default)]
pub struct Letters {
    sent: Vec<Sent>,
    /// The fresh letters to each silo.
    fresh: Vec<BTreeSet<u64>>,
}

impl Letters {
    /// How many were sent.
    pub fn count(&self) -> u64 {
        self.sent.len() as u64
    }

    /// The letter of a number, if it was ever sent.
    pub fn get(&self, number: u64) -> Option<&Sent> {
        self.sent.get(usize::try_from(number.checked_sub(1)?).ok()?)
    }

    /// The least fresh letter to a silo.
    pub fn least_fresh_to(&self, silo: Silo) -> Option<u64> {
        self.fresh.get(usize::from(silo))?.first().copied()
    }

    /// The fresh letters to a silo.
    pub fn fresh_to(&self, silo: Silo) -> impl Iterator<Item = u64> + '_ {
        self.fresh.get(usize::from(silo)).into_iter().flatten().copied()
    }

    /// The least fresh letter of the link that a fresh letter is of: those of the same sender to the same silo.
    pub fn least_fresh_of_link(&self, number: u64) -> Option<u64> {
        let Sent { from, to, .. } = *self.get(number)?;
        self.fresh_to(to).find(|number| self.get(*number).is_some_and(|sent| sent.from == from))
    }

    /// All letters of the mail that aren't remembered yet were sent after so many events; those that tell no grain, as replies, are of
    /// the grain of the letter that came.
    pub fn note_sent(&mut self, mail: &Mail, after: u64, answered: Option<usize>) {
        for number in self.count() + 1..=mail.sent() as u64 {
            let letter = mail.letter(number).expect("a letter that was just sent");
            let to = usize::from(letter.to);
            if self.fresh.len() <= to {
                self.fresh.resize_with(to + 1, BTreeSet::new);
            }
            self.fresh[to].insert(number);
            let grain = grain_of(&letter.body).or(answered);
            self.sent.push(Sent { after, from: letter.from, to: letter.to, grain, is_fresh: true });
        }
    }

    /// The letter has come, or is lost.
    pub fn note_gone(&mut self, number: u64) {
        let sent = &mut self.sent[number as usize - 1];
        sent.is_fresh = false;
        self.fresh[usize::from(sent.to)].remove(&number);
    }
}

/// The grain that a letter tells.
fn grain_of(body: &Body) -> Option<usize> {
    match *body {
        Body::Register { grain, .. } | Body::Deregister { grain, .. } | Body::Find { grain } | Body::Offer { grain, .. } => {
            Some(grain as usize)
        }
        _ => None,
    }
}
