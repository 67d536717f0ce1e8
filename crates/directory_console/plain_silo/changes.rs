//! Changes of membership, as they are told.

use crate::identities::{Address, hash_text};
use crate::output::Output;
use crate::process::{Process, Step};
use crate::reading::{Change, Listed};
use crate::views::{Status, Version, Views};

/// How many places a join may name.
const MOST_PLACES: usize = 128;

impl Process {
    /// A view is told in place of all changes up to it: 211 where anything was told before, then as its version is refused, then as the
    /// silos that it lists are, and last 201 where the silo itself or a newer one of its endpoint is one of them.
    pub fn begin(&mut self, version: Version, rows: Vec<Listed>) -> Step {
        if self.views.version != 0 {
            return Err(211);
        }
        let mut views = Views::beginning(version)?;
        for Listed { silo, status, places } in rows {
            views.may_list(silo)?;
            let places = self.places_listed(silo, status, places)?;
            views.list(silo, status, places);
        }
        views.may_join(self.name)?;
        self.views = views;
        self.out.word("view ").number(version).word(" begins\n");
        Ok(())
    }

    /// The places of a silo that is listed: as at a join, but for a dead one, which has none, or 402.
    fn places_listed(&self, silo: Address, status: Status, named: Vec<u32>) -> Result<Box<[u32]>, u16> {
        match status {
            Status::Dead if named.is_empty() => Ok(Box::default()),
            Status::Dead => Err(402),
            Status::Active | Status::Leaving => self.places(silo, named),
        }
    }

    /// A change is told, with the version that it makes: 208 where it is the join of another process of this silo, then 212 where it is
    /// from before the view with which all began, or from there, then 207 where the version is known and says otherwise, then 206 where it
    /// isn't the next.
    pub fn told(&mut self, version: u64, change: Change) -> Step {
        if self.is_anothers(&change) {
            return Err(208);
        }
        let current = self.views.version;
        if version <= current {
            if version != 0 && version <= self.views.first {
                return Err(212);
            }
            if !self.is_known(version, &change) {
                return Err(207);
            }
            self.out.word("known ").number(version).word("\n");
        } else if version == current + 1 {
            self.change(change)?;
        } else {
            return Err(206);
        }
        let status = self.me.and_then(|me| self.views.status(me, self.views.version));
        if status == Some(Status::Dead) {
            self.out.word("dead\n");
            self.is_dead = true;
        }
        Ok(())
    }

    /// Whether it is a join of this silo that doesn't carry just the token that this process was started with.
    fn is_anothers(&self, change: &Change) -> bool {
        match (change, &self.token) {
            (Change::Join { silo, token, .. }, Some(own)) => *silo == self.name && *token != Some(own),
            _ => false,
        }
    }

    /// Whether the change made the version; a silo that is replaced dies by the join of another one.
    fn is_known(&self, version: Version, change: &Change) -> bool {
        let (Change::Join { silo, .. } | Change::Leave { silo } | Change::Die { silo }) = change;
        let Some(row) = self.views.silo(*silo).map(|silo| self.views.row(silo)) else { return false };
        let made = match change {
            Change::Join { .. } => row.joined,
            Change::Leave { .. } => row.left,
            Change::Die { .. } => row.dead,
        };
        made != 0
            && made == version
            && match change {
                Change::Join { places, .. } if self.settings.is_stated => row.places[..] == places[..],
                Change::Join { places, .. } => places.is_empty(),
                Change::Leave { .. } => true,
                Change::Die { .. } => !self.views.rows.iter().any(|row| row.joined == version),
            }
    }

    fn change(&mut self, change: Change) -> Step {
        match change {
            Change::Join { silo, places, .. } => self.join(silo, places),
            Change::Leave { silo } => {
                self.views.leave(silo)?;
                self.made("leaving", silo);
                Ok(())
            }
            Change::Die { silo } => {
                self.views.die(silo)?;
                self.made("dead", silo);
                Ok(())
            }
        }
    }

    fn made(&mut self, what: &str, silo: Address) {
        self.out.word("view ").number(self.views.version).word(" ").word(what).word(" ").address(silo).word("\n");
    }

    fn join(&mut self, address: Address, places: Vec<u32>) -> Step {
        let replaced = self.views.may_join(address)?;
        let places = self.places(address, places)?;
        let silo = self.views.join(address, places, replaced);
        if address == self.name {
            self.me = Some(silo);
        }
        self.out.word("view ").number(self.views.version).word(" joined ").address(address);
        if let Some(old) = replaced {
            self.out.word(" dead ").address(self.views.row(old).address);
        }
        self.out.word("\n");
        Ok(())
    }

    /// The places of a new silo's points; or 402, then 403.
    fn places(&self, address: Address, named: Vec<u32>) -> Result<Box<[u32]>, u16> {
        let most = if self.settings.is_stated { MOST_PLACES } else { 0 };
        if named.len() > most {
            return Err(402);
        }
        if self.settings.is_stated {
            return if named.is_empty() { Err(403) } else { Ok(named.into_boxed_slice()) };
        }
        let place = |index: u64| {
            let mut text = Output::default();
            text.address(address).word("#").number(index);
            hash_text(&text.0)
        };
        Ok((0..self.settings.points).map(place).collect())
    }
}
