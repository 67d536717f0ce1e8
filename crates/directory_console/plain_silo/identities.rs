//! Silos, activations and grains, as lines name them.

pub use crate::words::{Address, hash_text, number};

use crate::mixer::Map;
use std::rc::Rc;

/// The number of a silo among those that are known, in the order in which they came to be.
pub type Silo = u32;

/// A grain, as its text.
pub type Grain = Rc<[u8]>;

#[derive(Clone, Copy, PartialEq, Eq)]
pub struct Activation {
    pub silo: Address,
    pub count: u64,
}

/// A grain that is entered, with its activation.
pub type Entry = (Grain, Activation);

/// Entries under their grains, with the grains' hashes.
pub type Table = Map<Grain, (u32, Activation)>;
