//! What `show`, `dump`, `status`, `owner` and `place` print.

use crate::host::Phase;
use crate::output::Output;
use crate::pieces::{Piece, State, sort};
use crate::identities::Address;
use crate::process::Process;
use crate::reading::Policy;
use crate::views::Status;

fn phase_word(phase: Phase) -> &'static str {
    match phase {
        Phase::Asking => "asking",
        Phase::Firm => "firm",
        Phase::Closing => "closing",
    }
}

fn state_word(state: &State) -> &'static str {
    match state {
        State::Settled => "settled",
        State::Awaiting { .. } => "awaiting",
        State::Recovering { .. } => "recovering",
    }
}

impl Process {
    pub fn show(&mut self) {
        let mut counts = vec![0u64; self.pieces.0.len()];
        let indices = self.table.values().filter_map(|(hash, _)| self.pieces.index_of(*hash));
        indices.for_each(|index| counts[index] += 1);
        let status = match self.me.and_then(|me| self.views.status(me, self.views.version)) {
            Some(Status::Active) => " active",
            Some(Status::Leaving) => " leaving",
            Some(Status::Dead) => " dead",
            None => " unknown",
        };
        let out = &mut self.out;
        out.word("version ").number(self.views.version).word("\nsilo ").address(self.name).word(status);
        out.word(" seen ").number(self.seen).word(" held ").count(self.host.in_order().len()).word("\n");
        for held in self.host.in_order() {
            out.about("held", held.activation, &held.grain).word(" ").word(phase_word(held.phase)).word("\n");
        }
        for (piece, entries) in self.pieces.0.iter().zip(counts) {
            out.word("range ").span(piece.range).word(" ").word(state_word(&piece.state));
            match piece.state {
                State::Settled => out.word(" entries ").number(entries),
                State::Awaiting { from, .. } => out.word(" ").address(from),
                State::Recovering { .. } => out,
            };
            out.word("\n");
        }
    }

    /// How far the silo is, how much it holds and how much waits.
    pub fn tell_figures(&mut self) {
        let in_phase = |phase| self.host.in_order().filter(|held| held.phase == phase).count();
        let unsettled = self.pieces.0.iter().filter(|piece| !matches!(piece.state, State::Settled)).count();
        let figures = [
            (" held ", self.host.in_order().len()),
            (" asking ", in_phase(Phase::Asking)),
            (" closing ", in_phase(Phase::Closing)),
            (" finding ", self.host.finds()),
            (" unsettled ", unsettled),
            (" kept ", self.shelf.len()),
        ];
        self.out.word("status ").number(self.seen).word(" known ").number(self.views.version);
        for (name, count) in figures {
            self.out.word(name).count(count);
        }
        self.out.word("\n");
    }

    /// The point that owns the grain's hash by the view seen: its silo and its index.
    pub fn tell_owner(&mut self, grain: &[u8]) {
        self.out.word("owner ").text(grain);
        match self.ring.owning_point(self.settings.hash(grain)) {
            Some(point) => self.out.word(" ").address(self.views.row(point.silo).address).word(" ").number(point.index),
            None => self.out.word(" none"),
        };
        self.out.word("\n");
    }

    pub fn tell_place(&mut self, grain: &[u8], policy: Policy) {
        let place = self.place(grain, policy);
        self.out.word("place ").text(grain).word(" ");
        match place {
            Some(silo) => self.out.address(silo),
            None => self.out.word("none"),
        };
        self.out.word("\n");
    }

    /// Where the silo would place a grain by the view seen: with itself, if that is preferred and it is Active; or by the grain's hash at
    /// one of the Active silos, which stand by address.
    fn place(&self, grain: &[u8], policy: Policy) -> Option<Address> {
        if matches!(policy, Policy::PreferLocal) && self.is_active() {
            return Some(self.name);
        }
        let count = self.views.active(self.seen).count();
        let index = (self.settings.hash(grain) as usize).checked_rem(count)?;
        self.views.active(self.seen).nth(index).map(|silo| self.views.row(silo).address)
    }

    /// JSON without spaces, the members of each object in the order of their names.
    pub fn dump(&mut self) {
        let mut out = std::mem::take(&mut self.out);
        out.word("{\"held\":").list(self.host.in_order(), |out, held| {
            out.word("{\"activation\":\"").activation(held.activation).word("\",\"grain\":").quoted(&held.grain);
            out.word(",\"phase\":\"").word(phase_word(held.phase)).word("\"}");
        });
        out.word(",\"pieces\":").list(&self.pieces.0, |out, piece| self.piece_json(out, piece));
        out.word(",\"ring\":").list(&self.ring.points, |out, point| {
            let silo = self.views.row(point.silo).address;
            out.word("[").number(point.place).word(",\"").address(silo).word("\",").number(point.index).word("]");
        });
        out.word(",\"seen\":").number(self.seen).word(",\"silo\":\"").address(self.name).word("\"}\n");
        self.out = out;
    }

    fn piece_json(&self, out: &mut Output, piece: &Piece) {
        let in_piece = self.table.iter().filter(|(_, (hash, _))| piece.range.holds(*hash));
        let mut entries: Vec<_> = in_piece.map(|(grain, (_, activation))| (grain.clone(), *activation)).collect();
        sort(&mut entries);
        out.word("{\"entries\":").list(&entries, |out, (grain, activation)| {
            out.word("[").quoted(grain).word(",\"").activation(*activation).word("\"]");
        });
        out.word(",\"from\":\"");
        if let State::Awaiting { from, .. } = piece.state {
            out.address(from);
        }
        out.word("\",\"range\":\"").span(piece.range).word("\",\"state\":\"").word(state_word(&piece.state)).word("\"}");
    }
}
