//! What is known of an event before it happens.

use crate::chronicle::Chronicle;
use crate::judge::Touched;
use crate::letters::Letters;
use crate::pieces::{count_waiting, is_settled};
use crate::turn::Turn;
use crate::world::mail::{Body, Letter};
use crate::world::{Silo, World};

/// What an event may come to.
pub enum Sign {
    Nothing,
    /// A page, a report or an empty message comes to a silo whose table has so many entries.
    Transfer { silo: Silo, is_further_page: bool, entries: usize },
    /// A registration comes where the activation has the entry whose place it is to take.
    Replacing,
    /// A silo sees a view: so many of its pieces aren't settled yet, and grains of these hashes have entries on silos that are dead in it.
    Sight { silo: Silo, waiting: u64, dead: Vec<u32> },
}

pub struct Before {
    pub touched: Touched,
    pub sign: Sign,
    /// Whether a letter comes that had come before.
    pub is_again: bool,
}

/// What is known of what a turn has drawn.
pub fn look_before(world: &World, chronicle: &Chronicle, letters: &Letters, turn: &Turn) -> Before {
    if let Turn::Deliver { letter } = *turn {
        return before_delivery(world, letters, letter);
    }
    let (silo, grain) = turn.of();
    let sign = match *turn {
        Turn::See { silo, version } => sight_sign(world, chronicle, silo, version),
        _ => Sign::Nothing,
    };
    Before { touched: Touched { silo, grain }, sign, is_again: false }
}

fn before_delivery(world: &World, letters: &Letters, number: u64) -> Before {
    let (Some(letter), Some(sent)) = (world.mail().letter(number), letters.get(number)) else {
        return Before { touched: Touched::default(), sign: Sign::Nothing, is_again: false };
    };
    let touched = Touched { silo: Some(letter.to), grain: sent.grain };
    Before { touched, sign: letter_sign(world, letter), is_again: !sent.is_fresh }
}

fn letter_sign(world: &World, letter: &Letter) -> Sign {
    let Some(node) = world.node(letter.to) else {
        return Sign::Nothing;
    };
    let transfer = |is_further_page: bool| Sign::Transfer { silo: letter.to, is_further_page, entries: node.table.len() };
    match letter.body {
        Body::Page { page, .. } => transfer(page > 0),
        Body::Report { .. } | Body::Empty { .. } => transfer(false),
        Body::Register { grain, previous: Some(previous), .. } => {
            let key = world.grains().key(grain);
            let is_there = node.table.get(&key) == Some(&previous) && is_settled(node, world.grains().hash(grain));
            if is_there { Sign::Replacing } else { Sign::Nothing }
        }
        _ => Sign::Nothing,
    }
}

fn sight_sign(world: &World, chronicle: &Chronicle, silo: Silo, version: u64) -> Sign {
    let Some(node) = world.node(silo) else {
        return Sign::Nothing;
    };
    let dead = node.table.iter().filter(|(_, activation)| chronicle.is_dead(activation.silo(), version));
    Sign::Sight { silo, waiting: count_waiting(node) as u64, dead: dead.map(|(key, _)| (*key >> 32) as u32).collect() }
}
