//! Membership: the versions in which each silo joined, began to leave and became dead, from which every view follows.

use crate::identities::{Address, Silo};
use std::collections::BTreeMap;

/// The number of a view that was told.
pub type Version = u64;

/// Views may begin with a version below that.
const FIRST_BELOW: Version = 1 << 62;

#[derive(Clone, Copy, PartialEq, Eq)]
pub enum Status {
    Active,
    Leaving,
    Dead,
}

/// A silo that is known, with the versions of its changes, 0 for never, and the places of its points.
pub struct Row {
    pub address: Address,
    pub joined: Version,
    pub left: Version,
    pub dead: Version,
    pub places: Box<[u32]>,
}

/// All views so far, from the first one on.
#[derive(Default)]
pub struct Views {
    pub rows: Vec<Row>,
    pub first: Version,
    by_address: BTreeMap<Address, Silo>,
    pub version: Version,
}

impl Row {
    /// The status in the view of a version; none before the silo joined.
    fn status(&self, version: Version) -> Option<Status> {
        let has_come = |change: Version| change != 0 && change <= version;
        if has_come(self.dead) {
            Some(Status::Dead)
        } else if has_come(self.left) {
            Some(Status::Leaving)
        } else {
            has_come(self.joined).then_some(Status::Active)
        }
    }
}

impl Views {
    pub fn row(&self, silo: Silo) -> &Row {
        &self.rows[silo as usize]
    }

    /// The silo at an address, if it is known.
    pub fn silo(&self, address: Address) -> Option<Silo> {
        self.by_address.get(&address).copied()
    }

    pub fn status(&self, silo: Silo, version: Version) -> Option<Status> {
        self.row(silo).status(version)
    }

    pub fn is_active(&self, silo: Silo, version: Version) -> bool {
        self.status(silo, version) == Some(Status::Active)
    }

    /// Whether the silo at an address is dead in a view. One that isn't known is, where a newer silo of its endpoint is listed.
    pub fn is_dead(&self, address: Address, version: Version) -> bool {
        match self.silo(address) {
            Some(silo) => self.status(silo, version) == Some(Status::Dead),
            None => {
                let next = self.by_address.range(address..).next().filter(|(other, _)| other.shares_endpoint(&address));
                next.is_some_and(|(_, newer)| self.status(*newer, version).is_some())
            }
        }
    }

    /// The silos of a view that aren't dead there, by address.
    pub fn members(&self, version: Version) -> Vec<Address> {
        let is_member = |silo: Silo| self.status(silo, version).is_some_and(|status| status != Status::Dead);
        self.by_address.iter().filter(|(_, silo)| is_member(**silo)).map(|(address, _)| *address).collect()
    }

    /// The silos that are Active in a view, by address.
    pub fn active(&self, version: Version) -> impl Iterator<Item = Silo> + '_ {
        self.by_address.values().copied().filter(move |silo| self.is_active(*silo, version))
    }

    /// Which silo a new one would replace; 201 where one of its endpoint has its generation or a higher one. Silos of one endpoint are
    /// neighbours by address, and all but the newest are dead.
    pub fn may_join(&self, address: Address) -> Result<Option<Silo>, u16> {
        let shares_endpoint = |other: &Address| other.shares_endpoint(&address);
        if self.by_address.range(address..).next().is_some_and(|(other, _)| shares_endpoint(other)) {
            return Err(201);
        }
        let before = self.by_address.range(..address).next_back().filter(|(other, _)| shares_endpoint(other));
        Ok(before.map(|(_, silo)| *silo).filter(|silo| self.row(*silo).dead == 0))
    }

    /// A silo that may join does, in the next version, and has the next number.
    pub fn join(&mut self, address: Address, places: Box<[u32]>, replaced: Option<Silo>) -> Silo {
        self.version += 1;
        if let Some(old) = replaced {
            self.rows[old as usize].dead = self.version;
        }
        self.add(Row { address, joined: self.version, left: 0, dead: 0, places })
    }

    fn add(&mut self, row: Row) -> Silo {
        let silo = self.rows.len() as Silo;
        self.by_address.insert(row.address, silo);
        self.rows.push(row);
        silo
    }

    /// What begins with a view, before it lists a silo; 210 where nothing may begin with its version.
    pub fn beginning(version: Version) -> Result<Views, u16> {
        if version >= FIRST_BELOW {
            return Err(210);
        }
        Ok(Views { first: version, version, ..Views::default() })
    }

    /// 210 where the first view can't list a silo: it is version 0, in which nobody is, or lists one of this silo's endpoint.
    pub fn may_list(&self, address: Address) -> Result<(), u16> {
        let (before, behind) = (self.by_address.range(..address).next_back(), self.by_address.range(address..).next());
        let is_listed = before.into_iter().chain(behind).any(|(other, _)| other.shares_endpoint(&address));
        if self.first == 0 || is_listed { Err(210) } else { Ok(()) }
    }

    /// The first view lists a silo: all that became of it stands in this version.
    pub fn list(&mut self, address: Address, status: Status, places: Box<[u32]>) {
        let made = |is_made: bool| if is_made { self.first } else { 0 };
        let (left, dead) = (made(status == Status::Leaving), made(status == Status::Dead));
        self.add(Row { address, joined: self.first, left, dead, places });
    }

    /// A silo leaves: 202 where it isn't known, 203 where it isn't Active.
    pub fn leave(&mut self, address: Address) -> Result<(), u16> {
        let silo = self.silo(address).ok_or(202u16)?;
        if !self.is_active(silo, self.version) {
            return Err(203);
        }
        self.version += 1;
        self.rows[silo as usize].left = self.version;
        Ok(())
    }

    /// A silo dies: 202 where it isn't known, 204 where it is dead.
    pub fn die(&mut self, address: Address) -> Result<(), u16> {
        let silo = self.silo(address).ok_or(202u16)?;
        if self.row(silo).dead != 0 {
            return Err(204);
        }
        self.version += 1;
        self.rows[silo as usize].dead = self.version;
        Ok(())
    }
}
