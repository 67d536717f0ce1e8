//! Requests that come, and replies to one's own.

use crate::host::Phase;
use crate::identities::{Activation, Address};
use crate::letters::Body;
use crate::output::Output;
use crate::process::Process;
use crate::text::Act;

/// Why a request isn't served.
enum Why {
    View,
    Unsettled,
    OldNumber(u64),
    NotOwner,
}

impl Process {
    /// A request is answered.
    pub fn serve(&mut self, from: Address, version: u64, number: u64, grain: &[u8], act: Act) {
        let hash = self.settings.hash(grain);
        if let Err(why) = self.may_serve(from, version, number, hash, act) {
            return self.retry(from, number, act, &why);
        }
        match act {
            Act::Register { activation, previous } => {
                self.served.insert(from, number);
                self.register(from, number, grain, hash, activation, previous);
            }
            Act::Deregister { activation } => {
                self.served.insert(from, number);
                self.deregister(from, number, grain, activation);
            }
            Act::Find => self.look_up(from, number, grain),
        }
    }

    fn may_serve(&self, from: Address, version: u64, number: u64, hash: u32, act: Act) -> Result<(), Why> {
        if version != self.seen {
            return Err(Why::View);
        }
        let piece = self.pieces.with(hash).ok_or(Why::NotOwner)?;
        if !piece.state.is_settled() {
            return Err(Why::Unsettled);
        }
        if let Act::Find = act {
            return Ok(());
        }
        let last = self.served.get(&from).copied().unwrap_or(0);
        if number <= last { Err(Why::OldNumber(last)) } else { Ok(()) }
    }

    /// The beginning of a reply, up to its number.
    fn reply(&mut self, to: Address, kind: &str, number: u64) -> &mut Output {
        self.out.letter(self.name, to, self.seen, kind).number(number)
    }

    fn reply_entry(&mut self, to: Address, kind: &str, number: u64, grain: &[u8], activation: Activation) {
        self.reply(to, kind, number).word(" ").text(grain).word(" ").activation(activation).word("\n");
    }

    fn retry(&mut self, to: Address, number: u64, act: Act, why: &Why) {
        let (reason, told) = match why {
            Why::View => ("601", Some(self.seen)),
            Why::Unsettled => ("602", None),
            Why::OldNumber(last) => ("603", Some(*last)),
            Why::NotOwner => ("604", None),
        };
        self.out.word("delivered ").word(act.kind()).word(" retry ").word(reason).word("\n");
        let out = self.reply(to, "retry", number).word(" ").word(reason);
        if let Some(told) = told {
            out.word(" ").number(told);
        }
        out.word("\n");
    }

    /// An entry is put in where the grain has none or that of the previous activation.
    fn register(
        &mut self,
        from: Address,
        number: u64,
        grain: &[u8],
        hash: u32,
        activation: Activation,
        previous: Option<Activation>,
    ) {
        match self.table.get_mut(grain) {
            Some((_, there)) if *there != activation && Some(*there) != previous => {
                let by = *there;
                self.delivered("register taken");
                return self.reply_entry(from, "taken", number, grain, by);
            }
            Some((_, there)) => *there = activation,
            None => {
                self.table.insert(grain.into(), (hash, activation));
            }
        }
        self.delivered("register registered");
        self.reply_entry(from, "registered", number, grain, activation);
    }

    /// Just the named activation is taken out.
    fn deregister(&mut self, from: Address, number: u64, grain: &[u8], activation: Activation) {
        let is_there = self.table.get(grain).is_some_and(|(_, there)| *there == activation);
        let kind = if is_there {
            self.table.remove(grain);
            self.delivered("deregister removed");
            "removed"
        } else {
            self.delivered("deregister absent");
            "absent"
        };
        self.reply(from, kind, number).word("\n");
    }

    fn look_up(&mut self, from: Address, number: u64, grain: &[u8]) {
        match self.table.get(grain) {
            Some((_, by)) => {
                let by = *by;
                self.delivered("find found");
                self.reply_entry(from, "found", number, grain, by);
            }
            None => {
                self.delivered("find nothing");
                self.reply(from, "nothing", number).word("\n");
            }
        }
    }

    /// A reply counts if it is of the version seen and a request of its kind is outstanding under its number; a retry counts if any is.
    pub fn take_reply(&mut self, version: u64, body: Body) {
        if let Body::Retry { number, reason } = body {
            return self.note(number, reason);
        }
        let is_of_seen = version == self.seen;
        let (kind, counts) = match body {
            Body::Registered { number } => ("registered", is_of_seen && self.confirm(number)),
            Body::Taken { number, entry: (grain, by) } => ("taken", is_of_seen && self.yield_to(number, grain, by)),
            Body::Removed { number } => ("removed", is_of_seen && self.end(number, " removed\n")),
            Body::Absent { number } => ("absent", is_of_seen && self.end(number, " absent\n")),
            Body::Found { number, entry: (grain, by) } => ("found", is_of_seen && self.found(number, grain, by)),
            Body::Nothing { number } => ("nothing", is_of_seen && self.found_nothing(number)),
            _ => return,
        };
        if !counts {
            self.out.word("delivered ").word(kind).word(" ignored\n");
        }
    }

    /// What waits under the number waits on, and its grain and the reason are told.
    fn note(&mut self, number: u64, reason: &[u8]) {
        let Some(grain) = self.host.asked_about(number) else { return self.delivered("retry ignored") };
        self.out.word("delivered retry noted ").text(grain).word(" ").text(reason).word("\n");
    }

    fn confirm(&mut self, number: u64) -> bool {
        let Some(held) = self.host.confirm(number) else { return false };
        self.out.about("firm", held.activation, &held.grain).word(" at ").number(self.seen).word("\n");
        true
    }

    /// The silo's own activation goes, and the entry that the letter tells is learnt.
    fn yield_to(&mut self, number: u64, grain: &[u8], by: Activation) -> bool {
        let Some(held) = self.host.end(number, Phase::Asking) else { return false };
        self.out.word("taken ").text(&held.grain).word(" by ").activation(by).word("\n");
        self.cache.learn(grain, by);
        true
    }

    fn end(&mut self, number: u64, how: &str) -> bool {
        let Some(held) = self.host.end(number, Phase::Closing) else { return false };
        self.out.about("ended", held.activation, &held.grain).word(how);
        true
    }

    fn found(&mut self, number: u64, grain: &[u8], by: Activation) -> bool {
        if self.host.end_find(number).is_none() {
            return false;
        }
        self.out.about("found", by, grain).word("\n");
        self.cache.learn(grain, by);
        true
    }

    fn found_nothing(&mut self, number: u64) -> bool {
        let Some(grain) = self.host.end_find(number) else { return false };
        self.out.word("nothing ").text(&grain).word("\n");
        true
    }
}
