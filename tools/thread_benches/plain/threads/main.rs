//! The hand-over of `thread_benches` alone, in plain Rust: a driver and a thread for each silo, around one mutex and one condvar, with
//! no work. A look-up is a letter to one silo, whose delivery is a letter back. A silo's thread waits for a letter, lets the lock go,
//! takes it again and delivers the letter; whoever changes something wakes all.
//!
//! A line is a name, how many silos there are, after how many look-ups it is waited until all is quiet, how many events there were, and
//! the nanoseconds that they took.

use std::collections::VecDeque;
use std::sync::atomic::{AtomicU64, Ordering};
use std::sync::{Arc, Condvar, Mutex};
use std::thread;
use std::time::Instant;

const FINDS: usize = 5_000;

#[derive(Clone, Copy)]
enum Letter {
    Find { asker: usize },
    Found,
}

struct Board {
    letters: Vec<VecDeque<Letter>>,
    stops: bool,
}

impl Board {
    fn is_settled(&self) -> bool {
        self.letters.iter().all(VecDeque::is_empty)
    }
}

struct Site {
    board: Mutex<Board>,
    bell: Condvar,
    lent: AtomicU64,
}

impl Site {
    fn post(&self, to: usize, letter: Letter) {
        let mut board = self.board.lock().unwrap();
        board.letters[to].push_back(letter);
        drop(board);
        self.bell.notify_all();
    }

    fn settle(&self) {
        let board = self.board.lock().unwrap();
        let _settled = self.bell.wait_while(board, |board| !board.is_settled()).unwrap();
    }

    fn work(&self, silo: usize) {
        loop {
            let board = self.board.lock().unwrap();
            let board = self.bell.wait_while(board, |board| !board.stops && board.letters[silo].is_empty()).unwrap();
            if board.stops {
                return;
            }
            drop(board);
            self.lent.fetch_add(1, Ordering::SeqCst);
            let mut board = self.board.lock().unwrap();
            match board.letters[silo].pop_front() {
                Some(Letter::Find { asker }) => board.letters[asker].push_back(Letter::Found),
                Some(Letter::Found) | None => {}
            }
            drop(board);
            self.bell.notify_all();
        }
    }
}

fn measure(silos: usize, portion: usize) {
    let board = Board { letters: vec![VecDeque::new(); silos], stops: false };
    let site = Arc::new(Site { board: Mutex::new(board), bell: Condvar::new(), lent: AtomicU64::new(0) });
    let threads: Vec<_> = (0..silos)
        .map(|silo| {
            let site = site.clone();
            thread::spawn(move || site.work(silo))
        })
        .collect();
    let start = Instant::now();
    for turn in 0..FINDS {
        if turn % portion == 0 {
            site.settle();
        }
        // the grain's hash decides on its owner
        let owner = (turn.wrapping_mul(2_654_435_761) >> 16) % silos;
        site.post(owner, Letter::Find { asker: turn % silos });
    }
    site.settle();
    let spent = start.elapsed().as_nanos();
    assert_eq!(site.lent.load(Ordering::SeqCst), 2 * FINDS as u64);
    site.board.lock().unwrap().stops = true;
    site.bell.notify_all();
    for thread in threads {
        thread.join().unwrap();
    }
    println!("handed {silos} {portion} {} {spent}", 3 * FINDS);
}

fn main() {
    for silos in [1, 2, 4] {
        for portion in [1, 16, FINDS] {
            measure(silos, portion);
        }
    }
}
