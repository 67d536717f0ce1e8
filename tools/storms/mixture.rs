//! Which event comes next in a world, in some weather.

use crate::chronicle::{Chronicle, Live};
use crate::kinds::{Kind, Weather, drawn_change, drawn_kind};
use crate::members::MOST_POINTS;
use crate::pieces::count_waiting;
use crate::random::Random;
use crate::ring::{RingPoint, nearest, owner};
use crate::stage::Stage;
use crate::turn::Turn;
use crate::world::{Held, Phase, Silo};

/// How many endpoints there are, and so the most silos at a time.
const ENDPOINTS: u64 = 6;

/// The least number of silos that a leave or a death leaves, but for a few.
const LEAST_SILOS: usize = 3;

/// How far back a letter is looked for, and how far back any may come from.
const RECENT: u64 = 64;
const ANY: u64 = 1_000;

/// What decides which event comes next.
pub struct Scene<'a> {
    pub stage: &'a Stage,
    pub home: Option<u32>,
    pub weather: Weather,
    pub laggard: u32,
}

impl Scene<'_> {
    fn chronicle(&self) -> &Chronicle {
        &self.stage.chronicle
    }

    /// What may come next, or nothing where there is none of the kind that was drawn.
    pub fn turn(&self, random: &mut Random) -> Option<Turn> {
        if self.chronicle().live.len() < LEAST_SILOS {
            return self.join(random);
        }
        match self.kind(random)? {
            Kind::Join => self.join(random),
            Kind::Leave => self.leave(random),
            Kind::Kill => self.kill(random),
            Kind::SeeNext => self.see_next(random),
            Kind::SeeAny => self.see_any(random),
            Kind::Wake => self.wake(random),
            Kind::Close => self.some_firm(random).map(|(silo, grain)| Turn::Close { silo, grain }),
            Kind::Cancel => self.some_waiting(random, true).map(|(silo, grain)| Turn::Cancel { silo, grain }),
            Kind::Offer => self.offer(random),
            Kind::Find => Some(Turn::Find { silo: self.someone(random)?.silo, grain: self.some_grain(random) }),
            Kind::Forget => Some(Turn::Forget { silo: self.someone(random)?.silo, grain: self.some_grain(random) }),
            Kind::Nudge => self.nudge(random).map(|silo| Turn::Nudge { silo }),
            Kind::NudgeGrain => self.some_waiting(random, false).map(|(silo, grain)| Turn::NudgeGrain { silo, grain }),
            Kind::NudgeRanges => self.nudge(random).map(|silo| Turn::NudgeRanges { silo }),
            Kind::DeliverRecent => self.deliver_recent(random),
            Kind::DeliverOldest => self.deliver_oldest(random),
            Kind::DeliverAny => Some(Turn::Deliver { letter: self.letter_back(random, ANY) }),
            Kind::Lose => Some(Turn::Lose { letter: self.letter_back(random, 2 * RECENT) }),
        }
    }

    // ---- Whether a kind of event is to come now.

    /// The kind that is drawn, unless it is to wait.
    fn kind(&self, random: &mut Random) -> Option<Kind> {
        let hurry = if self.weather == Weather::Rush { 240 } else { 4 };
        let kind =
            if random.once_in(hurry) && self.is_unseen() { drawn_change(random) } else { drawn_kind(random, self.weather) };
        (!self.is_to_wait(random, kind)).then_some(kind)
    }

    /// Whether nobody has seen the current version yet, and no piece waits: where another version follows at once, silos skip one with
    /// all their entries.
    fn is_unseen(&self) -> bool {
        self.all_agree(false)
    }

    /// Whether all silos have seen the current version, and all that they own is settled.
    fn is_settled(&self) -> bool {
        self.all_agree(true)
    }

    /// Whether all silos have seen the current version or, where none is to have, none has; and no piece waits.
    fn all_agree(&self, have_seen: bool) -> bool {
        let version = self.chronicle().version;
        self.stage.world.nodes().all(|node| (u64::from(node.seen) == version) == have_seen && count_waiting(node) == 0)
    }

    /// Whether an event of that kind is to wait in fair weather. There membership mostly changes, and grains mostly wake, close and are
    /// looked up, once everything is settled; and then hardly anyone is nudged.
    fn is_to_wait(&self, random: &mut Random, kind: Kind) -> bool {
        let patience = match self.weather {
            Weather::Calm => 4,
            Weather::Rush => 24,
            Weather::Gale | Weather::Fog => return false,
        };
        match kind {
            Kind::Join | Kind::Leave | Kind::Kill | Kind::Wake | Kind::Close | Kind::Offer | Kind::Find => {
                !random.once_in(patience) && !self.is_settled() && !self.is_unseen()
            }
            Kind::Nudge => !random.once_in(6) && self.is_settled(),
            _ => false,
        }
    }

    // ---- Membership.

    /// A silo joins at some endpoint, mostly at one that is free.
    fn join(&self, random: &mut Random) -> Option<Turn> {
        let endpoint = random.below(ENDPOINTS) as u32 + 1;
        if self.chronicle().occupant(endpoint).is_some() && !random.once_in(4) {
            return None;
        }
        let mut places = vec![self.first_place(random)];
        let further = random.index(MOST_POINTS);
        places.extend((0..further).map(|_| random.place()));
        Some(Turn::Join { endpoint, generation: self.chronicle().next_generation(endpoint), places })
    }

    /// Where a silo has its first point: in a crowd it mostly becomes the owner of the home.
    fn first_place(&self, random: &mut Random) -> u32 {
        match self.home {
            Some(home) if !random.once_in(4) => home.wrapping_sub(random.below(nearest(self.current_ring(), home)) as u32),
            _ => random.place(),
        }
    }

    /// The ring of a silo that has seen the current version.
    fn current_ring(&self) -> &[RingPoint] {
        let current = self.chronicle().live.iter().find(|live| live.seen == self.chronicle().version);
        current.map_or(&[], |live| &live.ring)
    }

    /// Who owns the home of a crowd, or anyone.
    fn home_owner(&self, random: &mut Random) -> Option<Silo> {
        match self.home {
            Some(home) if !random.once_in(3) => owner(self.current_ring(), home),
            _ => Some(self.someone(random)?.silo),
        }
    }

    /// Whether so many silos are there that one may go.
    fn may_go(&self, random: &mut Random) -> bool {
        self.chronicle().active_count() > LEAST_SILOS || random.once_in(16)
    }

    fn leave(&self, random: &mut Random) -> Option<Turn> {
        let silo = self.home_owner(random)?;
        self.may_go(random).then_some(Turn::Leave { silo })
    }

    /// A silo dies: of those that leave, most soon.
    fn kill(&self, random: &mut Random) -> Option<Turn> {
        let live = self.someone(random)?;
        (live.is_leaving || self.may_go(random)).then_some(Turn::Kill { silo: live.silo })
    }

    /// The version after the one that a silo has seen.
    fn see_next(&self, random: &mut Random) -> Option<Turn> {
        let live = self.lagging(random)?;
        Some(Turn::See { silo: live.silo, version: next_version(live) })
    }

    /// A version that the silo hasn't seen, mostly the current one.
    fn see_any(&self, random: &mut Random) -> Option<Turn> {
        let live = self.lagging(random)?;
        let (next, current) = (next_version(live), self.chronicle().version);
        let version = if random.once_in(3) { next + random.below(current.saturating_sub(next) + 1) } else { current };
        Some(Turn::See { silo: live.silo, version })
    }

    /// A silo that hasn't seen the current version, but for the laggard.
    fn lagging(&self, random: &mut Random) -> Option<&Live> {
        let live = &self.chronicle().live;
        let (before, after) = live.split_at(random.index(live.len()));
        let is_lagging = |live: &&Live| live.seen < self.chronicle().version && live.endpoint != self.laggard;
        after.iter().chain(before).find(is_lagging)
    }

    // ---- Grains.

    /// Some silo that isn't Dead.
    fn someone(&self, random: &mut Random) -> Option<&Live> {
        let live = &self.chronicle().live;
        live.get(random.index(live.len()))
    }

    fn some_grain(&self, random: &mut Random) -> usize {
        random.index(self.stage.grains.len())
    }

    /// Where the grain was last seen firm.
    fn firm_silo(&self, grain: usize) -> Option<Silo> {
        self.chronicle().firm[grain].map(|activation| activation.silo())
    }

    /// A grain is woken somewhere, mostly one that isn't firm.
    fn wake(&self, random: &mut Random) -> Option<Turn> {
        let silo = self.someone(random)?.silo;
        let mut grain = self.some_grain(random);
        for _ in 0..2 {
            if self.firm_silo(grain).is_some() {
                grain = self.some_grain(random);
            }
        }
        Some(Turn::Wake { silo, grain })
    }

    /// A grain and where it is firm.
    fn some_firm(&self, random: &mut Random) -> Option<(Silo, usize)> {
        (0..4).find_map(|_| {
            let grain = self.some_grain(random);
            self.firm_silo(grain).map(|silo| (silo, grain))
        })
    }

    fn is_leaving(&self, silo: Silo) -> bool {
        self.chronicle().living(silo).is_some_and(|live| live.is_leaving)
    }

    /// An activation is offered to another silo, mostly one on a silo that leaves.
    fn offer(&self, random: &mut Random) -> Option<Turn> {
        let (mut silo, mut grain) = self.some_firm(random)?;
        for _ in 0..4 {
            if !self.is_leaving(silo) {
                (silo, grain) = self.some_firm(random)?;
            }
        }
        Some(Turn::Offer { silo, grain, to: self.someone(random)?.silo })
    }

    /// A grain and a silo that mostly has an activation of it which asks, or closes where that will do.
    fn some_waiting(&self, random: &mut Random, asks: bool) -> Option<(Silo, usize)> {
        let mut found = (self.someone(random)?.silo, self.some_grain(random));
        for _ in 0..4 {
            let silo = self.someone(random)?.silo;
            let phases = |held: &Held| held.phase == Phase::Asking || !asks && held.phase == Phase::Closing;
            let held = self.stage.world.node(silo).map_or(Vec::new(), |node| node.host.in_order());
            let waiting: Vec<&Held> = held.iter().filter(|held| phases(held)).collect();
            if !waiting.is_empty() {
                found = (silo, waiting[random.index(waiting.len())].grain as usize);
                break;
            }
        }
        Some(found)
    }

    /// Who is to send something again, mostly a silo whose ranges wait.
    fn nudge(&self, random: &mut Random) -> Option<Silo> {
        let is_waiting = |silo: Silo| self.stage.world.node(silo).is_some_and(|node| count_waiting(node) > 0);
        let mut silo = self.someone(random)?.silo;
        for _ in 0..2 {
            if is_waiting(silo) {
                break;
            }
            silo = self.someone(random)?.silo;
        }
        Some(silo)
    }

    // ---- Letters.

    /// One of the last letters that were never delivered.
    fn deliver_recent(&self, random: &mut Random) -> Option<Turn> {
        let (back, sent) = (random.below(RECENT), self.stage.letters.count());
        let mut numbers = (0..RECENT).map(|step| sent.saturating_sub((back + step) % RECENT));
        numbers.find(|number| self.is_deliverable(*number)).map(|letter| Turn::Deliver { letter })
    }

    /// Whether the letter is fresh, and its receiver lives.
    fn is_deliverable(&self, number: u64) -> bool {
        let letter = self.stage.letters.get(number).filter(|letter| letter.is_fresh);
        letter.is_some_and(|letter| self.chronicle().living(letter.to).is_some())
    }

    /// The first letter to some silo that was never delivered.
    fn deliver_oldest(&self, random: &mut Random) -> Option<Turn> {
        let silo = self.someone(random)?.silo;
        self.stage.letters.least_fresh_to(silo).map(|letter| Turn::Deliver { letter })
    }

    /// Any of so many last letters, delivered before or not.
    fn letter_back(&self, random: &mut Random, far: u64) -> u64 {
        self.stage.letters.count().saturating_sub(random.below(far))
    }
}

/// The least version that the silo may see.
fn next_version(live: &Live) -> u64 {
    live.joined.max(live.seen + 1)
}
