//! What quiet ends took.

use crate::quiet::ROUNDS;

#[derive(Default)]
pub struct QuietEnds {
    /// How many there were at which no silo was Active.
    unowned: u64,
    /// How many of the others needed so many rounds.
    needed: [u64; ROUNDS + 1],
    /// How many took as many letters as they may.
    at_most: u64,
    letters: u64,
    most: u64,
}

impl QuietEnds {
    /// One needed so many rounds, and took so many letters of those that it may.
    pub fn note(&mut self, has_owners: bool, needed: usize, letters: u64, most: u64) {
        if has_owners {
            self.needed[needed] += 1;
        } else {
            self.unowned += 1;
        }
        self.at_most += u64::from(letters == most);
        self.letters += letters;
        self.most += most;
    }

    /// Tells them on standard error.
    pub fn tell(&self) {
        let QuietEnds { unowned, needed: [none, one, two], at_most, letters, most } = self;
        eprintln!("{} quiet ends, and all had come back after each", unowned + none + one + two);
        eprintln!("{unowned} without an Active silo; of the others {none} needed no round, {one} needed one, and {two} needed two");
        eprintln!("{letters} messages of the {most} that they may take, and at {at_most} quiet ends just as many");
    }
}
