//! The grains of a world, which are known by their indices: as they are the first that the cluster reads, these are its numbers too.

use crate::random::Random;

/// The most grains of a world that is no crowd: all of them are tested after each event.
pub const FEW: usize = 12;

/// A grain's text, and the hash that its key states.
pub struct Grain {
    pub text: String,
    pub hash: u32,
}

/// The grains of a world: 4 to 12, anywhere on the circle. In a crowd, which has a home, they are 300 to 459, and most of them are hashed
/// from there on, so that a range has more entries than a page.
pub fn drawn_grains(random: &mut Random, home: Option<u32>) -> Vec<Grain> {
    let count = match home {
        Some(_) => random.below(160) + 300,
        None => random.below(9) + 4,
    };
    let mut drawn = |number: u64| {
        let hash = match home {
            Some(home) if !random.once_in(6) => home.wrapping_add(random.draw() as u32 & 0x00ff_ffff),
            _ => random.place(),
        };
        Grain { text: format!("user/{number}#{hash}"), hash }
    };
    (0..count).map(&mut drawn).collect()
}

/// Eight grains, hashed to where the eighths of the circle begin.
pub fn eighths() -> Vec<Grain> {
    let stated = |hash: u32| Grain { text: format!("user/s#{hash}"), hash };
    (0..8).map(|eighth| stated(eighth << 29)).collect()
}
