//! The same as `two_silos.c`, in Rust: two silos of one directory in one process, whose letters are carried from one to the other.

mod grain_directory;

use grain_directory::{Hashing, OpenError, Silo, State};
use std::collections::VecDeque;

const ADDRESSES: [&str; 2] = ["10.0.0.1:1000@1", "10.0.0.2:1000@1"];

/// Two silos, and the letters that are on their way, with their receivers.
struct Pair {
    silos: [Silo; 2],
    letters: VecDeque<(usize, String)>,
}

impl Pair {
    fn open() -> Result<Pair, OpenError> {
        let open = |address| Silo::open(address, None, Hashing::Stated, 30, 1024);
        Ok(Pair {
            silos: [open(ADDRESSES[0])?, open(ADDRESSES[1])?],
            letters: VecDeque::new(),
        })
    }

    /// Gives a silo a line, prints what it answers, and takes its letters.
    fn tell(&mut self, silo: usize, line: &str) {
        let number = silo + 1;
        println!("{number} < {line}");
        let (state, answer) = self.silos[silo].line(line.as_bytes());
        for answered in String::from_utf8_lossy(answer).lines() {
            println!("{number} > {answered}");
            if let Some(to) = receiver(answered) {
                self.letters.push_back((to, answered.to_string()));
            }
        }
        if state != State::GoesOn {
            println!("{number} returns {}", state as u32);
        }
    }

    /// Carries letters until there is none.
    fn carry(&mut self) {
        while let Some((to, letter)) = self.letters.pop_front() {
            self.tell(to, &letter);
        }
    }
}

/// Whose letter a line is, from `letter FROM TO ..`.
fn receiver(line: &str) -> Option<usize> {
    let mut words = line.strip_prefix("letter ")?.split(' ');
    let to = words.nth(1)?;
    ADDRESSES.iter().position(|address| *address == to)
}

fn main() -> Result<(), OpenError> {
    // What else opens no silo.
    assert_eq!(Silo::open("10.0.0.1:1000", None, Hashing::Sha256, 30, 1024).err(), Some(OpenError::NotASilo));
    assert_eq!(Silo::open(ADDRESSES[0], None, Hashing::Sha256, 0, 1024).err(), Some(OpenError::OutOfRange));
    assert_eq!(Silo::open(ADDRESSES[0], Some("a b"), Hashing::Sha256, 30, 1024).err(), Some(OpenError::NotAToken));

    let mut pair = Pair::open()?;

    // The first silo joins, and has all hashes; then the second one takes over half of them.
    pair.tell(0, "joined 1 10.0.0.1:1000@1 0");
    pair.tell(0, "see 1");
    pair.carry();
    pair.tell(1, "joined 1 10.0.0.1:1000@1 0");
    pair.tell(0, "joined 2 10.0.0.2:1000@1 2147483648");
    pair.tell(1, "joined 2 10.0.0.2:1000@1 2147483648");
    pair.tell(0, "see 2");
    pair.tell(1, "see 2");
    pair.carry();

    // An activation at the first silo, which the second one finds; by then it remembers.
    pair.tell(0, "wake user/ann#7");
    pair.carry();
    pair.tell(1, "find user/ann#7");
    pair.carry();
    pair.tell(1, "find user/ann#7");

    // The first silo is told that it is dead, and answers no more.
    pair.tell(0, "dead 3 10.0.0.1:1000@1");
    pair.tell(0, "show");
    Ok(())
}
