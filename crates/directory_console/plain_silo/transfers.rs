//! The letters by which ranges are handed over or recovered.

use crate::identities::{Address, Entry, Grain};
use crate::letters::{Page, Report, Told};
use crate::pieces::{Gathered, PAGE, Piece, Snapshot, Span, State};
use crate::process::{Process, Settings};
use crate::text::lines_digest;
use crate::words::sides;
use std::cmp::Ordering;

/// What comes of a page.
enum Paged {
    Installed,
    /// The number of the page that is wanted next.
    Wants(u64),
    Refused,
    Ignored,
}

impl Snapshot {
    fn is_of(&self, version: u64, range: Span, to: Address) -> bool {
        self.version == version && Span::from(self.range) == range && self.to == to
    }
}

/// Whether the grains rise, each once.
fn rise<'a>(grains: impl Iterator<Item = &'a [u8]>) -> bool {
    grains.map(sides).is_sorted_by(|one, next| one < next)
}

fn entry_of((grain, activation): &Told) -> Entry {
    ((*grain).into(), *activation)
}

impl Gathered {
    /// Whether the page is the next one, of the whole that the first one told, and has as many entries as it should.
    fn is_in_turn(&self, page: &Page) -> bool {
        let agrees = self.whole.is_none_or(|whole| whole == (page.pages, page.digest));
        if page.page != self.next || page.page >= page.pages || !agrees {
            return false;
        }
        let entries = page.entries.len();
        if page.page + 1 < page.pages {
            entries == PAGE
        } else {
            entries <= PAGE && (entries > 0 || page.pages == 1)
        }
    }

    /// Whether the page's entries go on in the order of the grains.
    fn goes_on_by(&self, page: &Page) -> bool {
        let last = self.entries.last().map(|(grain, _)| &grain[..]);
        rise(last.into_iter().chain(page.entries.iter().map(|(grain, _)| *grain)))
    }
}

impl Process {
    fn answer_ranged(&mut self, to: Address, version: u64, kind: &str, range: Span) {
        self.out.letter(self.name, to, version, kind).span(range).word("\n");
    }

    /// A page of a snapshot that waits for the asker.
    pub fn answer_ask(&mut self, from: Address, version: u64, range: Span, page: u64) {
        if version > self.seen {
            self.delivered("ask behind");
            return self.answer_ranged(from, version, "behind", range);
        }
        let snapshot = self.shelf.iter().find(|snapshot| snapshot.is_of(version, range, from));
        let Some(snapshot) = snapshot.filter(|snapshot| page < snapshot.pages()) else {
            self.delivered("ask missing");
            return self.answer_ranged(from, version, "missing", range);
        };
        self.out.word("delivered ask page\n");
        self.out.letter(self.name, from, version, "page").span(range).word(" ").number(page).word(" ");
        self.out.number(snapshot.pages()).word(" ").text(&snapshot.digest).entries(snapshot.page(page));
    }

    /// The asker has its snapshot, which is deleted.
    pub fn take_done(&mut self, from: Address, version: u64, range: Span) {
        let before = self.shelf.len();
        self.shelf.retain(|snapshot| !snapshot.is_of(version, range, from));
        self.delivered(if self.shelf.len() < before { "done deleted" } else { "done ignored" });
    }

    /// The piece of the range, if it awaits the snapshot of the letter's sender.
    fn awaiting(&mut self, from: Address, version: u64, range: Span) -> Option<&mut Piece> {
        let piece = self.pieces.of_range(range).filter(|_| version == self.seen)?;
        let awaits = matches!(piece.state, State::Awaiting { from: awaited, .. } if awaited == from);
        awaits.then_some(piece)
    }

    pub fn take_page(&mut self, from: Address, version: u64, page: Page) {
        let range = page.range;
        match self.paged(from, version, &page) {
            Paged::Installed => {
                self.delivered("page installed");
                self.answer_ranged(from, version, "done", range);
            }
            Paged::Wants(next) => {
                self.delivered("page gathering");
                self.out.letter(self.name, from, version, "ask").span(range).word(" ").number(next).word("\n");
            }
            Paged::Refused => self.delivered("page refused 701"),
            Paged::Ignored => self.delivered("page ignored"),
        }
    }

    /// A page counts if it is awaited, in its turn, and its entries belong there; with the last one the piece is settled, if the digest
    /// is that of all entries, and else the gathering begins anew.
    fn paged(&mut self, from: Address, version: u64, page: &Page) -> Paged {
        let settings = self.settings;
        let lie_there = page.entries.iter().all(|(grain, _)| page.range.holds(settings.hash(grain)));
        let Some(piece) = self.awaiting(from, version, page.range) else { return Paged::Ignored };
        let State::Awaiting { gathered, .. } = &mut piece.state else { return Paged::Ignored };
        if !lie_there || !gathered.goes_on_by(page) || !gathered.is_in_turn(page) {
            return Paged::Ignored;
        }
        gathered.entries.extend(page.entries.iter().map(entry_of));
        gathered.whole = Some((page.pages, page.digest));
        gathered.next += 1;
        if gathered.next < page.pages {
            return Paged::Wants(gathered.next);
        }
        let gathered = std::mem::take(gathered);
        if lines_digest(&gathered.entries) != page.digest {
            return Paged::Refused;
        }
        piece.state = State::Settled;
        for (grain, activation) in gathered.entries {
            let hash = settings.hash(&grain);
            self.table.insert(grain, (hash, activation));
        }
        Paged::Installed
    }

    /// There is no snapshot: every silo is asked.
    pub fn take_missing(&mut self, from: Address, version: u64, range: Span) {
        let awaited = self.views.members(self.seen);
        let Some(piece) = self.awaiting(from, version, range) else {
            return self.delivered("missing ignored");
        };
        piece.state = State::recovering(awaited.clone());
        self.delivered("missing recovering");
        for silo in awaited {
            self.answer_ranged(silo, version, "query", range);
        }
    }

    /// The first firm activations of a range behind a grain, where the silo has seen just the query's version.
    pub fn answer_query(&mut self, from: Address, version: u64, range: Span, after: Option<&[u8]>) {
        if self.is_at_another_version(from, version, "query", range) {
            return;
        }
        self.delivered("query report");
        self.report(from, version, range, after);
    }

    /// Whether the silo hasn't seen just the version of a letter of that kind; if so it says so of the range.
    pub fn is_at_another_version(&mut self, from: Address, version: u64, kind: &str, range: Span) -> bool {
        if self.seen == version {
            return false;
        }
        let answer = if self.seen < version { "behind" } else { "ahead" };
        self.out.word("delivered ").word(kind).word(" ").word(answer).word("\n");
        self.answer_ranged(from, version, answer, range);
        true
    }

    /// The first firm activations of a range behind a grain.
    pub fn report(&mut self, to: Address, version: u64, range: Span, after: Option<&[u8]>) {
        let settings = self.settings;
        let is_behind = |entry: &Entry| after.is_none_or(|after| is_before(settings, range, after, &entry.0));
        let mut entries: Vec<Entry> = self.host.firm_in(range).into_iter().filter(is_behind).collect();
        entries.sort_unstable_by(|one, other| in_order(settings, range, &one.0, &other.0));
        let is_last = entries.len() <= settings.report_size;
        entries.truncate(settings.report_size);
        self.out.letter(self.name, to, version, "report").span(range).after(after);
        self.out.word(if is_last { " last" } else { " more" }).entries(&entries);
    }

    /// A report counts if its entries are the sender's, belong there, and go on behind the grain up to which its silo, which is awaited, has
    /// told. Before a silo's last one the next is asked for; with the last one of all silos the piece is settled. Of two entries of a grain
    /// the first stays.
    pub fn take_report(&mut self, from: Address, version: u64, report: &Report) {
        let range = report.range;
        let counts = version == self.seen && self.is_well_formed(from, report);
        let piece = self.pieces.of_range(range).filter(|_| counts);
        let Some(Piece { state: state @ State::Recovering { .. }, .. }) = piece else {
            return self.delivered("report ignored");
        };
        let State::Recovering { awaited, told, reported } = state else { unreachable!() };
        if awaited.binary_search(&from).is_err() || told.get(&from).map(|grain| &grain[..]) != report.after {
            return self.delivered("report ignored");
        }
        for (grain, activation) in &report.entries {
            reported.entry((*grain).into()).or_insert((self.settings.hash(grain), *activation));
        }
        if let Some((last, _)) = report.entries.last().filter(|_| !report.is_last) {
            let last = Grain::from(*last);
            told.insert(from, last.clone());
            self.delivered("report more");
            return self.out.query(self.name, from, version, range, Some(&last));
        }
        let is_whole = state.tell_all(from, &mut self.table);
        self.delivered(if is_whole { "report complete" } else { "report more" });
    }

    /// Whether a report's entries are its silo's, lie in its range and rise there behind its grain; and there is one, unless it is the last.
    fn is_well_formed(&self, from: Address, report: &Report) -> bool {
        let Report { range, after, is_last, entries } = report;
        let lie_there = entries.iter().all(|(grain, activation)| activation.silo == from && range.holds(self.settings.hash(grain)));
        let grains = after.iter().copied().chain(entries.iter().map(|(grain, _)| *grain));
        lie_there && grains.is_sorted_by(|one, next| is_before(self.settings, *range, one, next)) && (*is_last || !entries.is_empty())
    }
}

/// How two grains stand in the order in which is reported of a range.
fn in_order(settings: Settings, range: Span, one: &[u8], other: &[u8]) -> Ordering {
    range.standing(settings.hash(one), one).cmp(&range.standing(settings.hash(other), other))
}

fn is_before(settings: Settings, range: Span, one: &[u8], other: &[u8]) -> bool {
    in_order(settings, range, one, other) == Ordering::Less
}
