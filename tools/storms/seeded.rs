//! Seeded storms: each turn draws one of sixteen things that is to happen, and then its arguments, without a thought for what will be
//! refused. So views overtake transfers all the time.

use crate::stage::Stage;
use crate::turn::Turn;
use crate::world::Silo;

/// What the fifth of the sixteen is: a silo sees its next view, as at the fourth, or it offers an activation.
#[derive(Clone, Copy, PartialEq, Eq)]
pub enum Course {
    Views,
    Offers,
}

/// The numbers of a seed: a multiplication and an addition modulo 2^64, of which the upper 31 bits are drawn.
struct Draws {
    state: u64,
}

pub struct Seeded {
    course: Course,
    draws: Draws,
}

impl Draws {
    fn below(&mut self, bound: u64) -> u64 {
        self.state = self.state.wrapping_mul(6_364_136_223_846_793_005).wrapping_add(1_442_695_040_888_963_407);
        (self.state >> 33) % bound
    }
}

impl Seeded {
    /// The draws of a seed, before the first one.
    pub fn new(course: Course, seed: u64) -> Seeded {
        Seeded { course, draws: Draws { state: seed } }
    }

    /// What is drawn, or nothing where it needs a silo or a letter and there is none.
    pub fn turn(&mut self, stage: &Stage) -> Option<Turn> {
        match self.draws.below(16) {
            0 => Some(self.join(stage)),
            kind @ 10.. => self.of_letter(stage, kind),
            kind => self.of_silo(stage, kind),
        }
    }

    /// A silo of the next generation at one of six endpoints, with two points.
    fn join(&mut self, stage: &Stage) -> Turn {
        let endpoint = self.draws.below(6) as u32 + 1;
        let places = vec![self.place(), self.place()];
        Turn::Join { endpoint, generation: stage.chronicle.next_generation(endpoint), places }
    }

    /// One of 65,536 places.
    fn place(&mut self) -> u32 {
        (self.draws.below(1 << 16) as u32) << 16
    }

    /// A letter of those that were sent is lost, or comes.
    fn of_letter(&mut self, stage: &Stage, kind: u64) -> Option<Turn> {
        let sent = stage.letters.count();
        if sent == 0 {
            return None;
        }
        let letter = self.draws.below(sent) + 1;
        Some(if kind == 10 { Turn::Lose { letter } } else { Turn::Deliver { letter } })
    }

    fn of_silo(&mut self, stage: &Stage, kind: u64) -> Option<Turn> {
        let silo = self.some_silo(stage)?;
        Some(match kind {
            1 => Turn::Leave { silo },
            2 => Turn::Kill { silo },
            4 if self.course == Course::Offers => {
                let grain = self.some_grain(stage);
                Turn::Offer { silo, grain, to: self.some_silo(stage)? }
            }
            3 | 4 => Turn::See { silo, version: stage.chronicle.living(silo)?.seen + 1 },
            5 => Turn::See { silo, version: stage.chronicle.version },
            6 => Turn::Wake { silo, grain: self.some_grain(stage) },
            7 => Turn::Close { silo, grain: self.some_grain(stage) },
            8 => Turn::Find { silo, grain: self.some_grain(stage) },
            _ => Turn::Nudge { silo },
        })
    }

    /// One of those that aren't Dead, in the order of their addresses.
    fn some_silo(&mut self, stage: &Stage) -> Option<Silo> {
        let live = stage.chronicle.by_address();
        if live.is_empty() { None } else { Some(live[self.draws.below(live.len() as u64) as usize]) }
    }

    fn some_grain(&mut self, stage: &Stage) -> usize {
        self.draws.below(stage.grains.len() as u64) as usize
    }
}
