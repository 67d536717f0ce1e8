//! Silos that joined, as a storm remembers them.

/// The most points of a silo.
pub const MOST_POINTS: usize = 4;

/// A silo that joined: its text, its endpoint's number, its generation, the versions in which it joined, left and died, and the places
/// of its points.
pub struct Member {
    pub text: String,
    pub endpoint: u32,
    pub generation: u32,
    pub joined: u64,
    pub left: Option<u64>,
    pub dead: Option<u64>,
    pub places: Vec<u32>,
}

impl Member {
    /// Whether the silo is Active in the view of that version.
    pub fn is_active(&self, version: u64) -> bool {
        self.joined <= version && !is_by(self.left, version) && !is_by(self.dead, version)
    }

    /// Whether the silo is Dead in the view of that version.
    pub fn is_dead(&self, version: u64) -> bool {
        is_by(self.dead, version)
    }
}

/// Whether a thing happened up to that version.
fn is_by(happened: Option<u64>, version: u64) -> bool {
    happened.is_some_and(|at| at <= version)
}

/// The silo at the endpoint of a number, with that generation.
pub fn silo_text(endpoint: u32, generation: u32) -> String {
    format!("10.0.0.{endpoint}:1000@{generation}")
}
