//! What is printed: lines of events, and of what is asked about a world.

use crate::output::Output;
use crate::world::{
    Activation, Effect, Grain, Happening, Held, Kind, Letter, Outcome, Phase, Point, Range, Row, Silo, State, Status, World,
    entries_in,
};

impl Output {
    fn silo(&mut self, world: &World, silo: Silo) -> &mut Output {
        self.text(world.silos.text(world.views().row(silo).name))
    }

    fn grain(&mut self, world: &World, grain: Grain) -> &mut Output {
        self.text(world.grains().text(grain))
    }

    fn activation(&mut self, world: &World, activation: Activation) -> &mut Output {
        self.silo(world, activation.silo()).word("!").number(activation.count())
    }

    fn range(&mut self, range: Range) -> &mut Output {
        self.number(range.start).word("+").number(range.size())
    }

    pub fn refusal(&mut self, number: u16) {
        self.word("refused ").number(number).word("\n");
    }

    pub fn fault(&mut self, line: u64, number: u16) {
        self.word("line ").number(line).word(" fault ").number(number).word("\n");
    }

    // ---- Events.

    pub fn outcome(&mut self, world: &World, outcome: &Outcome) {
        self.happening(world, &outcome.happening);
        if outcome.sent > outcome.sent_before {
            self.word(" sent ").count(outcome.sent_before + 1).word("..").count(outcome.sent);
        }
        self.word("\n");
    }

    fn happening(&mut self, world: &World, happening: &Happening) -> &mut Output {
        match *happening {
            Happening::Delivered { letter, kind, effect } => {
                self.word("delivered ").number(letter).word(" ").word(kind_word(kind)).word(" ").effect(effect)
            }
            Happening::Started { activation, grain } => self.entry("started ", world, activation, grain),
            Happening::Closing { activation, grain } => self.entry("closing ", world, activation, grain),
            Happening::Cancelled { activation, grain } => self.entry("cancelled ", world, activation, grain),
            Happening::Offered { activation, grain, to } => {
                self.entry("offered ", world, activation, grain).word(" to ").silo(world, to)
            }
            Happening::Cached { activation, grain } => self.entry("cached ", world, activation, grain),
            Happening::Finding { grain } => self.word("finding ").grain(world, grain),
            Happening::Forgot { grain } => self.word("forgot ").grain(world, grain),
            Happening::NothingCached { grain } => self.word("nothing cached ").grain(world, grain),
            Happening::Nudged { silo } => self.word("nudged ").silo(world, silo),
            Happening::Lost { letter } => self.word("lost ").number(letter),
            Happening::Saw { silo, version, is_next } => {
                self.silo(world, silo).word(" sees ").number(version).word(if is_next { " next" } else { " skip" })
            }
            Happening::Joined { version, silo, replaced } => {
                self.word("view ").number(version).word(" joined ").silo(world, silo);
                if let Some(old) = replaced {
                    self.word(" dead ").silo(world, old);
                }
                self
            }
            Happening::Left { version, silo } => self.word("view ").number(version).word(" leaving ").silo(world, silo),
            Happening::Died { version, silo } => self.word("view ").number(version).word(" dead ").silo(world, silo),
        }
    }

    fn entry(&mut self, word: &str, world: &World, activation: Activation, grain: Grain) -> &mut Output {
        self.word(word).activation(world, activation).word(" ").grain(world, grain)
    }

    fn effect(&mut self, effect: Effect) -> &mut Output {
        match effect {
            Effect::Retry(why) => self.word("retry ").number(why),
            effect => self.word(effect_word(effect)),
        }
    }

    // ---- What is asked.

    pub fn show(&mut self, world: &mut World) {
        let ring = world.current_ring();
        self.word("version ").number(world.version()).word("\n");
        for silo in &world.views().by_address {
            self.silo_lines(world, *silo);
        }
        for (range, silo) in ring.ranges() {
            self.word("range ").range(range).word(" ").silo(world, silo);
            match world.entries_served(silo, range) {
                Some(entries) => self.word(" settled entries ").count(entries),
                None => self.word(" unsettled"),
            };
            self.word("\n");
        }
        if ring.points.is_empty() {
            self.word("no owner\n");
        }
    }

    fn silo_lines(&mut self, world: &World, silo: Silo) {
        let status = match world.views().status(silo, world.version()) {
            Some(Status::Active) => " active",
            Some(Status::Leaving) => " leaving",
            _ => " dead",
        };
        self.word("silo ").silo(world, silo).word(status);
        let Some(node) = world.node(silo) else {
            self.word("\n");
            return;
        };
        self.word(" seen ").number(node.seen).word(" held ").count(node.host.held_count()).word("\n");
        for held in node.host.in_order() {
            self.entry("held ", world, held.activation, held.grain).word(" ").word(phase_word(held.phase)).word("\n");
        }
    }

    pub fn mail(&mut self, world: &World) {
        for (number, letter) in world.mail().letters() {
            self.letter(world, number, letter);
        }
    }

    fn letter(&mut self, world: &World, number: usize, letter: &Letter) {
        self.count(number).word(" ").word(kind_word(letter.body.kind())).word(" ");
        self.silo(world, letter.from).word(" ").silo(world, letter.to).word(" ").number(letter.version).word("\n");
    }

    pub fn owner(&mut self, world: &mut World, hash: u32) {
        self.word("owner ").number(hash).word(" ");
        match world.current_ring().owning_point(hash) {
            Some(point) => self.silo(world, point.silo).word(" ").number(point.index),
            None => self.word("none"),
        };
        self.word("\n");
    }

    pub fn place(&mut self, world: &World, grain: Grain, place: Option<Silo>) {
        self.word("place ").grain(world, grain).word(" ");
        match place {
            Some(silo) => self.silo(world, silo),
            None => self.word("none"),
        };
        self.word("\n");
    }

    // ---- The dump: JSON without spaces, the members of each object in the order of their names.

    pub fn dump(&mut self, world: &World) {
        self.word("{\"current\":").number(world.version()).word(",\"hashing\":");
        self.word(if world.settings.is_stated { "\"stated\"" } else { "\"sha256\"" });
        self.word(",\"nodes\":").list(world.nodes(), |out, node| {
            out.word("{\"held\":").list(node.host.in_order(), |out, held| out.held_json(world, &held));
            out.word(",\"pieces\":").list(&node.pieces.0, |out, piece| {
                let entries = entries_in(&node.table, piece.range);
                out.piece_json(world, piece.range, &piece.state, entries);
            });
            out.word(",\"ring\":").list(&node.ring.points, |out, point| out.point_json(world, point));
            out.word(",\"seen\":").number(node.seen).word(",\"silo\":\"").silo(world, node.silo).word("\"}");
        });
        self.word(",\"points\":").number(world.settings.points).word(",\"rows\":");
        self.list(&world.views().by_address, |out, silo| out.row_json(world, world.views().row(*silo)));
        self.word("}");
    }

    fn held_json(&mut self, world: &World, held: &Held) {
        self.word("{\"activation\":\"").activation(world, held.activation).word("\",\"grain\":").grain_json(world, held.grain);
        self.word(",\"phase\":\"").word(phase_word(held.phase)).word("\"}");
    }

    fn grain_json(&mut self, world: &World, grain: Grain) -> &mut Output {
        self.quoted(world.grains().text(grain))
    }

    /// The entries stand in the order of hashes, and are told in the order of grains.
    fn piece_json(&mut self, world: &World, range: Range, state: &State, entries: impl Iterator<Item = (Grain, Activation)>) {
        let mut entries: Vec<(Grain, Activation)> = if state.is_settled() { entries.collect() } else { Vec::new() };
        entries.sort_unstable_by_key(|(grain, _)| world.grains().sides(*grain));
        self.word("{\"entries\":").list(entries, |out, (grain, activation)| {
            out.word("[").grain_json(world, grain).word(",\"").activation(world, activation).word("\"]");
        });
        self.word(",\"from\":\"");
        if let State::Awaiting { from, .. } = state {
            self.silo(world, *from);
        }
        self.word("\",\"range\":\"").range(range).word("\",\"state\":\"").word(state_word(state)).word("\"}");
    }

    fn point_json(&mut self, world: &World, point: &Point) {
        self.word("[").number(point.place).word(",\"").silo(world, point.silo).word("\",").number(point.index).word("]");
    }

    fn row_json(&mut self, world: &World, row: &Row) {
        self.word("{\"dead\":").number(row.dead).word(",\"joined\":").number(row.joined).word(",\"left\":").number(row.left);
        let named = if world.settings.is_stated { &row.places[..] } else { &[] };
        self.word(",\"places\":").list(named, |out, place| {
            out.number(*place);
        });
        self.word(",\"silo\":\"").text(world.silos.text(row.name)).word("\"}");
    }
}

fn kind_word(kind: Kind) -> &'static str {
    match kind {
        Kind::Register => "register",
        Kind::Deregister => "deregister",
        Kind::Find => "find",
        Kind::Registered => "registered",
        Kind::Taken => "taken",
        Kind::Removed => "removed",
        Kind::Absent => "absent",
        Kind::Found => "found",
        Kind::Nothing => "nothing",
        Kind::Retry => "retry",
        Kind::Ask => "ask",
        Kind::Page => "page",
        Kind::Missing => "missing",
        Kind::Done => "done",
        Kind::Query => "query",
        Kind::Report => "report",
        Kind::Survey => "survey",
        Kind::Empty => "empty",
        Kind::Behind => "behind",
        Kind::Ahead => "ahead",
        Kind::Offer => "offer",
    }
}

fn effect_word(effect: Effect) -> &'static str {
    match effect {
        Effect::Started => "started",
        Effect::Registered => "registered",
        Effect::Taken => "taken",
        Effect::Removed => "removed",
        Effect::Absent => "absent",
        Effect::Found => "found",
        Effect::Nothing => "nothing",
        Effect::Retry(_) => "retry",
        Effect::Firm => "firm",
        Effect::Yielded => "yielded",
        Effect::Ended => "ended",
        Effect::Learnt => "learnt",
        Effect::Noted => "noted",
        Effect::Ignored => "ignored",
        Effect::Page => "page",
        Effect::Missing => "missing",
        Effect::Behind => "behind",
        Effect::Ahead => "ahead",
        Effect::Installed => "installed",
        Effect::Gathering => "gathering",
        Effect::Recovering => "recovering",
        Effect::Deleted => "deleted",
        Effect::Report => "report",
        Effect::More => "more",
        Effect::Complete => "complete",
    }
}

fn phase_word(phase: Phase) -> &'static str {
    match phase {
        Phase::Asking => "asking",
        Phase::Firm => "firm",
        Phase::Closing | Phase::Gone => "closing",
    }
}

fn state_word(state: &State) -> &'static str {
    match state {
        State::Settled => "settled",
        State::Awaiting { .. } => "awaiting",
        State::Recovering { .. } => "recovering",
    }
}
