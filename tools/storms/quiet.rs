//! A quiet end, after which all is to have come back: each live silo that is behind sees the current view; and then, twice, all are nudged
//! and all letters come.

use crate::bound::most_letters;
use crate::fault::Fault;
use crate::random::Random;
use crate::returned::{judge_ranges, judge_return, judge_shown};
use crate::stage::Stage;
use crate::tally::Tally;
use crate::turn::Turn;

/// In which order letters come.
enum Order {
    /// The least first, as the command `settle` has it.
    Least,
    /// Those of each link in their order, and the links at random.
    Links(Random),
}

/// So many times all are nudged, and all letters come.
pub const ROUNDS: usize = 2;

impl Order {
    fn drawn(mut random: Random) -> Order {
        if random.once_in(2) { Order::Least } else { Order::Links(random) }
    }
}

impl Stage {
    /// Lets all come back, and tests that it has; what it took is kept in the tally. All is decided by the world alone.
    pub fn be_quiet(&mut self, tally: &mut Tally) -> Result<(), Fault> {
        let mut order = Order::drawn(Random::new(self.letters.count()));
        self.see_current()?;
        let (most, before) = (most_letters(self), self.letters.count());
        let mut needed = 0;
        for _ in 0..ROUNDS {
            needed += usize::from(judge_return(self).is_err());
            self.nudge_all()?;
            self.deliver_all(&mut order)?;
            judge_ranges(self)?;
        }
        judge_return(self)?;
        judge_shown(self)?;
        let letters = self.letters.count() - before;
        tally.quiet_ends.note(self.chronicle.active_count() > 0, needed, letters, most);
        if letters > most { Err(Fault::Letters) } else { Ok(()) }
    }

    fn see_current(&mut self) -> Result<(), Fault> {
        let version = self.chronicle.version;
        for silo in self.chronicle.by_address() {
            if self.chronicle.living(silo).is_some_and(|live| live.seen < version) {
                self.happen(&Turn::See { silo, version })?;
            }
        }
        Ok(())
    }

    fn nudge_all(&mut self) -> Result<(), Fault> {
        for silo in self.chronicle.by_address() {
            self.happen(&Turn::Nudge { silo })?;
        }
        Ok(())
    }

    fn deliver_all(&mut self, order: &mut Order) -> Result<(), Fault> {
        match order {
            Order::Least => self.settle(),
            Order::Links(random) => {
                while let Some(letter) = self.next_of_some_link(random) {
                    self.happen(&Turn::Deliver { letter })?;
                }
                Ok(())
            }
        }
    }

    /// The letters come by one command; so the dump is judged after the last one alone.
    fn settle(&mut self) -> Result<(), Fault> {
        self.write("settle");
        while let Some(letter) = self.deliverable().min() {
            if !self.play(&mut Tally::default(), &Turn::Deliver { letter }) {
                return Err(Fault::PlanRefused);
            }
            self.judge_headline()?;
        }
        self.check()
    }

    /// An event of the quiet end, which is to be accepted.
    fn happen(&mut self, turn: &Turn) -> Result<(), Fault> {
        if self.attempt(&mut Tally::default(), turn) { self.judge() } else { Err(Fault::PlanRefused) }
    }

    /// The least fresh letter to each live silo.
    fn deliverable(&self) -> impl Iterator<Item = u64> + '_ {
        self.chronicle.live.iter().filter_map(|live| self.letters.least_fresh_to(live.silo))
    }

    /// The first letter of a link that has one, of a live silo.
    fn next_of_some_link(&self, random: &mut Random) -> Option<u64> {
        let fresh: Vec<u64> = self.chronicle.live.iter().flat_map(|live| self.letters.fresh_to(live.silo)).collect();
        self.letters.least_fresh_of_link(*fresh.get(random.index(fresh.len()))?)
    }
}
