//! A cache of hints, the most recent first: a list whose links are slots, and a map from grains to slots.

use crate::identities::{Activation, Address, Grain};
use crate::mixer::Map;

const NONE: u32 = u32::MAX;

struct Hint {
    grain: Grain,
    activation: Activation,
    newer: u32,
    older: u32,
}

pub struct Cache {
    capacity: usize,
    slots: Map<Grain, u32>,
    hints: Vec<Hint>,
    free: Vec<u32>,
    newest: u32,
    oldest: u32,
}

impl Cache {
    pub fn new(capacity: usize) -> Cache {
        Cache { capacity, slots: Map::default(), hints: Vec::new(), free: Vec::new(), newest: NONE, oldest: NONE }
    }

    /// The hint of a grain, which comes to the front.
    pub fn use_hint(&mut self, grain: &[u8]) -> Option<Activation> {
        let slot = *self.slots.get(grain)?;
        self.bring_to_front(slot);
        Some(self.hints[slot as usize].activation)
    }

    /// Learns a hint, in place of that of its grain or, where there are too many, of the last one.
    pub fn learn(&mut self, grain: &[u8], activation: Activation) {
        if let Some(slot) = self.slots.get(grain).copied() {
            self.hints[slot as usize].activation = activation;
            return self.bring_to_front(slot);
        }
        if self.slots.len() == self.capacity {
            self.drop_slot(self.oldest);
        }
        let grain = Grain::from(grain);
        let hint = Hint { grain: grain.clone(), activation, newer: NONE, older: NONE };
        let slot = if let Some(slot) = self.free.pop() {
            self.hints[slot as usize] = hint;
            slot
        } else {
            self.hints.push(hint);
            self.hints.len() as u32 - 1
        };
        self.slots.insert(grain, slot);
        self.link_in_front(slot);
    }

    /// Drops the hint of a grain, and tells whether there was one.
    pub fn forget(&mut self, grain: &[u8]) -> bool {
        let slot = self.slots.get(grain).copied();
        slot.map(|slot| self.drop_slot(slot)).is_some()
    }

    /// Drops the hints at silos that pass the test.
    pub fn drop_at(&mut self, is_dead: impl Fn(Address) -> bool) {
        let mut slot = self.newest;
        while slot != NONE {
            let hint = &self.hints[slot as usize];
            let (older, goes) = (hint.older, is_dead(hint.activation.silo));
            if goes {
                self.drop_slot(slot);
            }
            slot = older;
        }
    }

    fn drop_slot(&mut self, slot: u32) {
        self.unlink(slot);
        self.slots.remove(&self.hints[slot as usize].grain);
        self.free.push(slot);
    }

    fn bring_to_front(&mut self, slot: u32) {
        if self.newest != slot {
            self.unlink(slot);
            self.link_in_front(slot);
        }
    }

    fn unlink(&mut self, slot: u32) {
        let Hint { newer, older, .. } = self.hints[slot as usize];
        match newer {
            NONE => self.newest = older,
            newer => self.hints[newer as usize].older = older,
        }
        match older {
            NONE => self.oldest = newer,
            older => self.hints[older as usize].newer = newer,
        }
    }

    fn link_in_front(&mut self, slot: u32) {
        let older = self.newest;
        let hint = &mut self.hints[slot as usize];
        (hint.newer, hint.older) = (NONE, older);
        match older {
            NONE => self.oldest = slot,
            older => self.hints[older as usize].newer = slot,
        }
        self.newest = slot;
    }
}
