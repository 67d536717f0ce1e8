//! What a storm remembers of a world by its accepted events alone, and the firm activations that it saw last.

use crate::members::{Member, silo_text};
use crate::ring::{RingPoint, ring_at};
use crate::turn::Turn;
use crate::world::{Activation, Silo};

/// A silo that isn't Dead: the version in which it joined, the one that it has seen, and the ring that it must have.
pub struct Live {
    pub silo: Silo,
    pub endpoint: u32,
    pub joined: u64,
    pub seen: u64,
    pub is_leaving: bool,
    pub ring: Vec<RingPoint>,
}

/// Silos are known by their numbers in the order of their joins, grains by their indices.
pub struct Chronicle {
    pub version: u64,
    pub members: Vec<Member>,
    /// In the order of their joins.
    pub live: Vec<Live>,
    pub firm: Vec<Option<Activation>>,
}

impl Chronicle {
    /// Nothing has happened yet, to so many grains.
    pub fn new(grains: usize) -> Chronicle {
        Chronicle { version: 0, members: Vec::new(), live: Vec::new(), firm: vec![None; grains] }
    }

    pub fn member(&self, silo: Silo) -> &Member {
        &self.members[usize::from(silo)]
    }

    /// What is remembered of a silo that isn't Dead.
    pub fn living(&self, silo: Silo) -> Option<&Live> {
        self.live.iter().find(|live| live.silo == silo)
    }

    /// Whether the silo is Dead in the view of that version.
    pub fn is_dead(&self, silo: Silo, version: u64) -> bool {
        self.members.get(usize::from(silo)).is_some_and(|member| member.is_dead(version))
    }

    /// The endpoint's live silo.
    pub fn occupant(&self, endpoint: u32) -> Option<Silo> {
        self.live.iter().find(|live| live.endpoint == endpoint).map(|live| live.silo)
    }

    /// How many silos are Active now.
    pub fn active_count(&self) -> usize {
        self.live.iter().filter(|live| !live.is_leaving).count()
    }

    /// A generation that the endpoint hasn't had.
    pub fn next_generation(&self, endpoint: u32) -> u32 {
        let had = self.members.iter().filter(|member| member.endpoint == endpoint);
        had.map(|member| member.generation).max().unwrap_or(0) + 1
    }

    /// The live silos in the order of their addresses.
    pub fn by_address(&self) -> Vec<Silo> {
        let mut live: Vec<Silo> = self.live.iter().map(|live| live.silo).collect();
        live.sort_unstable_by_key(|silo| (self.member(*silo).endpoint, self.member(*silo).generation));
        live
    }

    /// The event was accepted.
    pub fn note(&mut self, turn: &Turn) {
        match turn {
            Turn::Join { endpoint, generation, places } => self.note_join(*endpoint, *generation, places),
            Turn::Leave { silo } => self.note_leave(*silo),
            Turn::Kill { silo } => {
                self.version += 1;
                self.bury(*silo);
            }
            Turn::See { silo, version } => self.note_sight(*silo, *version),
            Turn::Close { silo, grain } | Turn::Offer { silo, grain, .. } => self.note_close(*silo, *grain),
            _ => {}
        }
    }

    fn note_join(&mut self, endpoint: u32, generation: u32, places: &[u32]) {
        self.version += 1;
        if let Some(older) = self.occupant(endpoint) {
            self.bury(older);
        }
        let (silo, joined) = (self.members.len() as Silo, self.version);
        let text = silo_text(endpoint, generation);
        self.members.push(Member { text, endpoint, generation, joined, left: None, dead: None, places: places.to_vec() });
        self.live.push(Live { silo, endpoint, joined, seen: 0, is_leaving: false, ring: Vec::new() });
    }

    fn note_leave(&mut self, silo: Silo) {
        self.version += 1;
        self.members[usize::from(silo)].left = Some(self.version);
        for live in self.live.iter_mut().filter(|live| live.silo == silo) {
            live.is_leaving = true;
        }
    }

    /// The silo is Dead from the current version on.
    fn bury(&mut self, silo: Silo) {
        self.members[usize::from(silo)].dead = Some(self.version);
        self.live.retain(|live| live.silo != silo);
        for firm in &mut self.firm {
            *firm = firm.filter(|firm| firm.silo() != silo);
        }
    }

    fn note_sight(&mut self, silo: Silo, version: u64) {
        let ring = ring_at(&self.members, version);
        if let Some(live) = self.live.iter_mut().find(|live| live.silo == silo) {
            live.seen = version;
            live.ring = ring;
        }
    }

    /// The silo's activation is firm no more.
    fn note_close(&mut self, silo: Silo, grain: usize) {
        self.firm[grain] = self.firm[grain].filter(|firm| firm.silo() != silo);
    }
}
