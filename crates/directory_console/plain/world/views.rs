//! Membership: the versions in which each silo joined, began to leave and became dead, from which every view follows.

use super::identities::{Address, Silo, SiloName};

/// The number of a view. Each silo changes at most three times, so there are 768 views at most, and the empty one before them.
pub type Version = u16;

/// How many silos may ever join.
const MOST_SILOS: usize = 256;

#[derive(Clone, Copy, PartialEq, Eq)]
pub enum Status {
    Active,
    Leaving,
    Dead,
}

/// A silo that joined, with the versions of its changes, 0 for never, and the places of its points.
pub struct Row {
    pub name: SiloName,
    pub address: Address,
    pub joined: Version,
    pub left: Version,
    pub dead: Version,
    pub places: Box<[u32]>,
}

/// Some of the silos that joined.
#[derive(Clone, Copy, Default)]
pub struct SiloSet([u64; 4]);

/// All views so far.
pub struct Views {
    pub rows: Vec<Row>,
    /// The silos that ever joined, by address.
    pub by_address: Vec<Silo>,
    /// Of each version: the last one up to it in which a silo died.
    last_deaths: Vec<Version>,
}

/// What is in the way of a join, or which silo it replaces.
pub type Joining = Result<Option<Silo>, u16>;

impl Row {
    /// The status in the view of a version; none before the silo joined.
    pub fn status(&self, version: Version) -> Option<Status> {
        let has_come = |change: Version| change != 0 && change <= version;
        if has_come(self.dead) {
            Some(Status::Dead)
        } else if has_come(self.left) {
            Some(Status::Leaving)
        } else {
            has_come(self.joined).then_some(Status::Active)
        }
    }
}

impl SiloSet {
    pub fn insert(&mut self, silo: Silo) {
        self.0[usize::from(silo / 64)] |= 1 << (silo % 64);
    }

    /// Takes the silo out, and tells whether it was there.
    pub fn remove(&mut self, silo: Silo) -> bool {
        let had = self.contains(silo);
        self.0[usize::from(silo / 64)] &= !(1 << (silo % 64));
        had
    }

    pub fn contains(&self, silo: Silo) -> bool {
        self.0[usize::from(silo / 64)] >> (silo % 64) & 1 == 1
    }

    pub fn len(&self) -> usize {
        self.0.iter().map(|word| word.count_ones() as usize).sum()
    }
}

impl Default for Views {
    fn default() -> Views {
        Views { rows: Vec::new(), by_address: Vec::new(), last_deaths: vec![0] }
    }
}

impl Views {
    /// The current version.
    pub fn version(&self) -> Version {
        (self.last_deaths.len() - 1) as Version
    }

    pub fn row(&self, silo: Silo) -> &Row {
        &self.rows[usize::from(silo)]
    }

    pub fn status(&self, silo: Silo, version: Version) -> Option<Status> {
        self.row(silo).status(version)
    }

    pub fn is_active(&self, silo: Silo, version: Version) -> bool {
        self.status(silo, version) == Some(Status::Active)
    }

    pub fn is_dead(&self, silo: Silo, version: Version) -> bool {
        self.status(silo, version) == Some(Status::Dead)
    }

    /// Whether a silo died in a version after the one, up to the other.
    pub fn has_death_between(&self, after: Version, up_to: Version) -> bool {
        self.last_deaths[usize::from(up_to)] > after
    }

    /// The silos of a view that aren't dead there.
    pub fn members(&self, version: Version) -> SiloSet {
        let mut members = SiloSet::default();
        for silo in &self.by_address {
            if self.status(*silo, version).is_some_and(|status| status != Status::Dead) {
                members.insert(*silo);
            }
        }
        members
    }

    /// The silos that are Active in a view, by address.
    pub fn active(&self, version: Version) -> impl DoubleEndedIterator<Item = Silo> + '_ {
        self.by_address.iter().copied().filter(move |silo| self.is_active(*silo, version))
    }

    /// Which silo a new one would replace; 201 where one of its endpoint has its generation or a higher one, then 205. Silos of one
    /// endpoint are neighbours by address, and all but the newest are dead.
    pub fn may_join(&self, address: Address) -> Joining {
        let behind = self.position(address);
        let has_endpoint = |silo: &Silo| self.row(*silo).address.shares_endpoint(&address);
        if self.by_address.get(behind).is_some_and(has_endpoint) {
            return Err(201);
        }
        if self.rows.len() >= MOST_SILOS {
            return Err(205);
        }
        let before = behind.checked_sub(1).map(|at| self.by_address[at]).filter(has_endpoint);
        Ok(before.filter(|silo| self.row(*silo).dead == 0))
    }

    fn position(&self, address: Address) -> usize {
        self.by_address.partition_point(|silo| self.row(*silo).address < address)
    }

    /// A silo that may join does, and has the next number.
    pub fn join(&mut self, name: SiloName, address: Address, places: Box<[u32]>, replaced: Option<Silo>) -> Silo {
        let silo = self.rows.len() as Silo;
        let at = self.position(address);
        let version = self.next(replaced.is_some());
        if let Some(old) = replaced {
            self.rows[usize::from(old)].dead = version;
        }
        self.rows.push(Row { name, address, joined: version, left: 0, dead: 0, places });
        self.by_address.insert(at, silo);
        silo
    }

    pub fn leave(&mut self, silo: Silo) {
        self.rows[usize::from(silo)].left = self.next(false);
    }

    pub fn die(&mut self, silo: Silo) {
        self.rows[usize::from(silo)].dead = self.next(true);
    }

    /// Makes the next version.
    fn next(&mut self, is_death: bool) -> Version {
        let version = self.version() + 1;
        let before = self.last_deaths[usize::from(version - 1)];
        self.last_deaths.push(if is_death { version } else { before });
        version
    }
}
