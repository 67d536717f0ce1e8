//! What decides which events come to a world: its weather, which changes, and the numbers of its seed.

use crate::kinds::Weather;
use crate::mixture::Scene;
use crate::random::Random;
use crate::stage::Stage;
use crate::turn::Turn;

/// In weather of fewer turns than these a silo may see nothing.
const SHORT: u64 = 400;

/// One in so many gales and fogs has a quiet end.
const QUIET: u64 = 4;

pub struct Climate {
    random: Random,
    /// Where most grains of a crowd are hashed.
    home: Option<u32>,
    weather: Weather,
    /// The endpoint of a silo that sees nothing while this weather lasts; there may be none.
    laggard: u32,
    /// How many turns this weather lasts.
    lasts: u64,
}

impl Climate {
    /// That of a world before its first event, which has a home if it is a crowd.
    pub fn new(random: Random, home: Option<u32>) -> Climate {
        Climate { random, home, weather: Weather::Rush, laggard: 0, lasts: 200 }
    }

    /// What comes next, if anything does.
    pub fn turn(&mut self, stage: &Stage) -> Option<Turn> {
        let Climate { random, home, weather, laggard, .. } = self;
        Scene { stage, home: *home, weather: *weather, laggard: *laggard }.turn(random)
    }

    /// Goes on for a turn, and tells whether a quiet end comes before it.
    pub fn go_on(&mut self) -> bool {
        if self.lasts > 0 {
            self.lasts -= 1;
            return false;
        }
        let has_quiet_end = matches!(self.weather, Weather::Gale | Weather::Fog) && self.random.once_in(QUIET);
        self.change_weather();
        has_quiet_end
    }

    /// Other weather, and another laggard.
    fn change_weather(&mut self) {
        (self.weather, self.lasts) = match self.random.below(3) {
            0 => (Weather::Gale, self.random.below(30) + 5),
            1 => (Weather::Fog, self.random.below(120)),
            _ => self.fair_weather(),
        };
        self.laggard = if self.lasts < SHORT { self.random.below(10) as u32 } else { 0 };
    }

    /// Calm, or in a crowd a long rush, since it takes many events to wake all its grains.
    fn fair_weather(&mut self) -> (Weather, u64) {
        match self.home {
            Some(_) => (Weather::Rush, self.random.below(3_000)),
            None if self.random.once_in(4) => (Weather::Rush, self.random.below(1_000)),
            None => (Weather::Calm, self.random.below(900)),
        }
    }
}
