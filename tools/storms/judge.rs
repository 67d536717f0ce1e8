//! The headline, tested of a world after an event. What is tested is known from the chronicle alone; of the cluster only what its nodes
//! have is read, and what they answer.

use crate::chronicle::{Chronicle, Live};
use crate::fault::Fault;
use crate::grains::{FEW, Grain};
use crate::pieces::{entered, held, is_settled, judge_entries, judge_held, judge_pieces, key};
use crate::ring::RingPoint;
use crate::world::mail::{Body, Letter};
use crate::world::{self, Activation, Node, Phase, Point, Silo, Version, World};

/// After so many events everything is tested.
const ROUND: u64 = 64;

/// So many grains of a crowd are tested after each event, in turn, besides the one that the event is of.
const WINDOW: usize = 8;

/// A number that no request has had, and a count that no activation has.
const UNKNOWN_NUMBER: u64 = 1 << 60;
const UNKNOWN_COUNT: u32 = (1 << 24) - 1;

/// Whom an event was of: the silo whose step it was, all where there is none, and the grain.
#[derive(Clone, Copy, Default)]
pub struct Touched {
    pub silo: Option<Silo>,
    pub grain: Option<usize>,
}

#[derive(Default)]
pub struct Judge {
    events: u64,
    turn: usize,
}

/// A world, and what it is tested by.
struct Case<'a> {
    world: &'a World,
    chronicle: &'a mut Chronicle,
    grains: &'a [Grain],
}

type Verdict<T = ()> = Result<T, Fault>;

impl Judge {
    /// Tests the world after an accepted event, and notes which grains are firm where.
    pub fn judge(&mut self, world: &World, chronicle: &mut Chronicle, grains: &[Grain], touched: Touched) -> Verdict {
        self.events += 1;
        let mut case = Case { world, chronicle, grains };
        case.judge_silos()?;
        if self.events.is_multiple_of(ROUND) {
            return case.judge_all();
        }
        let step = if grains.len() <= FEW { 1 } else { WINDOW };
        self.turn = (self.turn + step) % grains.len();
        case.judge_some(touched, self.turn)
    }
}

impl Case<'_> {
    fn node(&self, silo: Silo) -> Verdict<&Node> {
        self.world.node(silo).ok_or(Fault::Nodes)
    }

    /// Every silo, every grain and every answer.
    fn judge_all(&mut self) -> Verdict {
        self.judge_nodes(None)?;
        self.judge_answers(0, self.grains.len())?;
        self.judge_grains(0, self.grains.len())
    }

    /// The silo and the grain that the event was of, and the grains whose turn it is, from one on.
    fn judge_some(&mut self, touched: Touched, turn: usize) -> Verdict {
        self.judge_nodes(touched.silo)?;
        if let Some(grain) = touched.grain {
            self.judge_answers(grain, 1)?;
            self.judge_grains(grain, 1)?;
        }
        self.judge_answers(turn, 1)?;
        let count = self.grains.len();
        self.judge_grains(turn, if count <= FEW { count } else { WINDOW })
    }

    /// Each silo that lives has a node, which has seen what it was shown, with the ring of that view; and there is no other node.
    fn judge_silos(&self) -> Verdict {
        let mut count = 0;
        for node in self.world.nodes() {
            let live = self.chronicle.living(node.silo).ok_or(Fault::Nodes)?;
            let text = self.world.silos.text(self.world.views().row(node.silo).name);
            if text != self.chronicle.member(node.silo).text.as_bytes() {
                return Err(Fault::Nodes);
            }
            if u64::from(node.seen) != live.seen {
                return Err(Fault::Version);
            }
            if !is_ring(&node.ring.points, &live.ring) {
                return Err(Fault::Ring);
            }
            count += 1;
        }
        if count == self.chronicle.live.len() { Ok(()) } else { Err(Fault::Nodes) }
    }

    /// The pieces, entries and activations of a silo, or of all.
    fn judge_nodes(&self, only: Option<Silo>) -> Verdict {
        let is_meant = |live: &&Live| only.is_none_or(|silo| silo == live.silo);
        for live in self.chronicle.live.iter().filter(is_meant) {
            let node = self.node(live.silo)?;
            judge_pieces(node, live)?;
            judge_entries(node, self.grains)?;
            judge_held(node, self.grains)?;
        }
        Ok(())
    }

    /// The indices of so many grains from one on, going on with the first after the last.
    fn indices(&self, first: usize, count: usize) -> impl Iterator<Item = usize> + use<> {
        let all = self.grains.len();
        (first..first + count).map(move |index| index % all)
    }

    /// So many grains from one on; where each is firm is noted.
    fn judge_grains(&mut self, first: usize, count: usize) -> Verdict {
        for grain in self.indices(first, count) {
            self.chronicle.firm[grain] = self.judge_grain(grain)?;
        }
        Ok(())
    }

    /// A grain: where it is firm.
    fn judge_grain(&self, grain: usize) -> Verdict<Option<Activation>> {
        let firm = self.firm_of(grain)?;
        let last = self.chronicle.firm[grain];
        if last.is_some() && firm != last {
            return Err(Fault::LostFirm);
        }
        let hash = self.grains[grain].hash;
        let mut settled = 0;
        for live in &self.chronicle.live {
            let node = self.node(live.silo)?;
            if is_settled(node, hash) {
                settled += 1;
                self.judge_entry(grain, live, firm, entered(node, grain, hash))?;
            }
        }
        if settled > 1 { Err(Fault::TwoSettled) } else { Ok(firm) }
    }

    /// The grain's firm activation: there is one at most.
    fn firm_of(&self, grain: usize) -> Verdict<Option<Activation>> {
        let mut firm = None;
        for held in self.world.nodes().filter_map(|node| held(node, grain)) {
            if held.phase == Phase::Firm && firm.replace(held.activation).is_some() {
                return Err(Fault::TwoFirm);
            }
        }
        Ok(firm)
    }

    /// What a settled piece has of a grain: the firm activation, or else one that a silo holds, or nothing. Where the piece's silo lags it
    /// may also be on a silo that has died since.
    fn judge_entry(&self, grain: usize, live: &Live, firm: Option<Activation>, entry: Option<Activation>) -> Verdict {
        if firm.is_some() {
            return if entry == firm { Ok(()) } else { Err(Fault::MissingFirm) };
        }
        let Some(activation) = entry else {
            return Ok(());
        };
        let is_dead = |version: u64| self.chronicle.is_dead(activation.silo(), version);
        let is_late = live.seen < self.chronicle.version && is_dead(self.chronicle.version) && !is_dead(live.seen);
        if is_late || self.is_held(grain, activation) { Ok(()) } else { Err(Fault::Stranger) }
    }

    /// Whether a silo holds the activation.
    fn is_held(&self, grain: usize, activation: Activation) -> bool {
        let node = self.world.node(activation.silo());
        node.and_then(|node| held(node, grain)).is_some_and(|held| held.activation == activation)
    }

    /// What is answered of so many grains from one on, by each silo.
    fn judge_answers(&self, first: usize, count: usize) -> Verdict {
        for grain in self.indices(first, count) {
            for live in &self.chronicle.live {
                self.judge_answer(self.node(live.silo)?, grain, live)?;
            }
        }
        Ok(())
    }

    /// What is asked of the grain at the version that the silo has seen is answered by its entry where the silo has it settled, and
    /// otherwise by a retry, as is what is asked at another version.
    fn judge_answer(&self, node: &Node, grain: usize, live: &Live) -> Verdict {
        let (hash, current) = (self.grains[grain].hash, self.chronicle.version);
        if is_settled(node, hash) {
            judge_found(node, &find(live, live.seen, grain), grain, hash)?;
        } else {
            judge_unserved(node, live, live.seen, grain, hash)?;
        }
        if live.seen == current { Ok(()) } else { judge_unserved(node, live, current, grain, hash) }
    }
}

/// Whether these are the points.
fn is_ring(points: &[Point], ring: &[RingPoint]) -> bool {
    let is_same = |(point, anew): (&Point, &RingPoint)| (point.place, point.silo, point.index) == (anew.place, anew.silo, anew.index);
    points.len() == ring.len() && points.iter().zip(ring).all(is_same)
}

/// A request of that version isn't served.
fn judge_unserved(node: &Node, live: &Live, version: u64, grain: usize, hash: u32) -> Verdict {
    let is_served = |letter: &Letter| node.may_serve(letter, hash).is_ok();
    if is_served(&find(live, version, grain)) || is_served(&register(live, version, grain)) {
        return Err(Fault::Answered);
    }
    Ok(())
}

/// The look-up is answered by the entry.
fn judge_found(node: &Node, find: &Letter, grain: usize, hash: u32) -> Verdict {
    node.may_serve(find, hash).map_err(|_| Fault::WrongAnswer)?;
    let told = match node.look_up(key(grain, hash)).0 {
        Body::Found { by } => Some(by),
        Body::Nothing => None,
        _ => return Err(Fault::WrongAnswer),
    };
    if told == entered(node, grain, hash) { Ok(()) } else { Err(Fault::WrongAnswer) }
}

/// A look-up, as the silo itself would ask.
fn find(live: &Live, version: u64, grain: usize) -> Letter {
    let body = Body::Find { grain: grain as world::Grain };
    Letter::new(live.silo, live.silo, version as Version, UNKNOWN_NUMBER, body)
}

/// A registration under a number that no request has had.
fn register(live: &Live, version: u64, grain: usize) -> Letter {
    let activation = Activation::new(live.silo, UNKNOWN_COUNT);
    let body = Body::Register { grain: grain as world::Grain, activation, previous: None };
    Letter::new(live.silo, live.silo, version as Version, UNKNOWN_NUMBER, body)
}
