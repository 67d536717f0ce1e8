//! How many letters the two rounds of a quiet end may take at the most: counted where all live silos have seen the current view, by what is
//! outstanding there.

use crate::stage::Stage;
use crate::world::mail::Body;
use crate::world::{Node, Range, State, World};

/// What is still to be answered, asked or told.
#[derive(Default)]
struct Outstanding {
    /// Answers to fresh requests, asks and queries, one each, and to fresh surveys, one for each range at most.
    questions: u64,
    /// Fresh offers, each of which may begin an activation.
    offers: u64,
    /// Requests that silos wait for.
    requests: u64,
    /// Reports that pieces miss, and those that all silos would make for the pieces that await a snapshot.
    reports: u64,
    instead: u64,
    /// Pieces that await a snapshot, and pages that they haven't had.
    snapshots: u64,
    pages: u64,
}

/// The most letters that two rounds take.
pub fn most_letters(stage: &Stage) -> u64 {
    let mut all = Outstanding::default();
    for live in &stage.chronicle.live {
        for number in stage.letters.fresh_to(live.silo) {
            all.add_letter(&stage.world, number);
        }
        if let Some(node) = stage.world.node(live.silo) {
            all.add_node(&stage.world, node);
        }
    }
    let Outstanding { questions, offers, requests, reports, instead, snapshots, pages } = all;
    let of_requests = 2 * offers + 2 * requests + 2 * (requests + offers);
    questions + of_requests + 2 * reports + 2 * snapshots + 2 * pages + 2 * instead
}

impl Outstanding {
    fn add_letter(&mut self, world: &World, number: u64) {
        match world.mail().letter(number).map(|letter| letter.body) {
            Some(Body::Register { .. } | Body::Deregister { .. } | Body::Find { .. }) => self.questions += 1,
            Some(Body::Ask { .. } | Body::Query { .. }) => self.questions += 1,
            Some(Body::Survey { ranges }) => self.questions += world.mail().ranges(ranges).len() as u64,
            Some(Body::Offer { .. }) => self.offers += 1,
            _ => {}
        }
    }

    fn add_node(&mut self, world: &World, node: &Node) {
        self.requests += node.host.outstanding() as u64;
        for piece in &node.pieces.0 {
            match &piece.state {
                State::Settled => {}
                State::Recovering { of, told, .. } => {
                    let awaited = live(world).filter(|teller| of.contains(teller.silo));
                    self.reports += awaited.map(|teller| reports(world, teller, piece.range, told.get(&teller.silo))).sum::<u64>();
                }
                State::Awaiting { from, page } => {
                    self.snapshots += 1;
                    self.instead += live(world).map(|teller| reports(world, teller, piece.range, None)).sum::<u64>();
                    let place = (node.seen, piece.range.start, node.silo);
                    let sealed = world.node(*from).and_then(|giver| giver.shelf.get(&place));
                    let pages = sealed.map_or(0, |sealed| world.commons.sealed[*sealed as usize].pages() as u64);
                    self.pages += pages.saturating_sub(u64::from(*page));
                }
            }
        }
    }
}

fn live(world: &World) -> impl Iterator<Item = &Node> {
    world.nodes()
}

/// How many reports it takes to tell what a silo has in a range behind a grain, if one is named.
fn reports(world: &World, teller: &Node, range: Range, after: Option<&u32>) -> u64 {
    let grains = world.grains();
    let standing = |grain: u32| (range.steps_to(grains.hash(grain)), grains.sides(grain));
    let is_told = |grain: u32| range.holds(grains.hash(grain)) && after.is_none_or(|after| standing(*after) < standing(grain));
    let told = teller.host.in_order().iter().filter(|held| is_told(held.grain)).count();
    told.div_ceil(world.settings.report_size).max(1) as u64
}
