//! A dump: read from JSON into lists, and whether these are a dump.

use crate::json::{Json, Read};
use crate::names::{Grain, Id, Range, Silos};
use std::convert::TryFrom;

#[derive(Clone, Copy, PartialEq, Eq)]
pub enum Phase {
    Asking,
    Firm,
    Closing,
}

#[derive(Clone, Copy, PartialEq, Eq)]
pub enum State {
    Settled,
    Awaiting,
    Recovering,
}

/// An activation on its silo.
pub struct Held<'a> {
    pub grain: Grain<'a>,
    pub silo: Id,
    pub count: u64,
    pub phase: Phase,
}

/// A grain and the activation that it has.
pub struct Entry<'a> {
    pub grain: Grain<'a>,
    pub silo: Id,
    pub count: u64,
}

pub struct Piece<'a> {
    /// In the order of their grains.
    pub entries: Vec<Entry<'a>>,
    pub range: Range,
    pub state: State,
}

pub struct Point {
    pub place: u32,
    pub silo: Id,
    pub index: u64,
}

pub struct Node<'a> {
    /// In the order of their counts.
    pub held: Vec<Held<'a>>,
    /// By start.
    pub pieces: Vec<Piece<'a>>,
    pub ring: Vec<Point>,
    pub seen: u64,
    pub silo: Id,
}

/// The versions in which a silo became Dead, joined and became Leaving, 0 for never, and the places named at its join.
pub struct Row {
    pub dead: u64,
    pub joined: u64,
    pub left: u64,
    pub places: Vec<u32>,
    pub silo: Id,
}

pub struct Dump<'a> {
    pub current: u64,
    /// Whether grains state their hashes and joins name places.
    pub is_stated: bool,
    pub nodes: Vec<Node<'a>>,
    pub points: u64,
    pub rows: Vec<Row>,
}

/// Reads an object's members into variables of their names, each by its expression, the last one of a name; the function ends
/// with nothing where one is missing, unreadable or unknown.
macro_rules! members {
    ($json:ident { $($member:ident: $read:expr,)* }) => {
        $(let mut $member = None;)*
        let mut is_known = true;
        let is_object = $json.each_member(|$json, name| {
            match name {
                $(name if name == stringify!($member).as_bytes() => $member = $read?,)*
                _ => {
                    is_known = false;
                    $json.pass_over::<()>()?;
                }
            }
            Ok(())
        })?;
        let (true, $(Some($member),)*) = (is_object && is_known, $($member,)*) else { return Ok(None) };
    };
}

/// Reads a list's items into variables, each by its expression; the function ends with nothing where there aren't as many, or one is
/// unreadable.
macro_rules! items {
    ($json:ident [ $($item:ident: $read:expr,)* ]) => {
        $(let mut $item = None;)*
        let mut number = 0;
        let many = [$(stringify!($item)),*].len();
        $json.each_item(|$json| {
            let mut index = 0;
            $(
                if number == index {
                    $item = $read?;
                }
                index += 1;
            )*
            if number >= index {
                $json.pass_over::<()>()?;
            }
            number += 1;
            Ok(())
        })?;
        let (true, $(Some($item),)*) = (number == many, $($item,)*) else { return Ok(None) };
    };
}

/// The dump that the bytes tell, with the silos named in it.
pub fn read_dump(bytes: &[u8]) -> Read<(Dump<'_>, Silos)> {
    let mut silos = Silos::default();
    let mut json = Json::new(bytes)?;
    let dump = read_lists(&mut json, &mut silos)?;
    json.end()?;
    Ok(dump.filter(|dump| dump.has_shape(&silos)).map(|dump| (dump, silos)))
}

fn read_lists<'a>(json: &mut Json<'a>, silos: &mut Silos) -> Read<Dump<'a>> {
    members!(json {
        current: json.number(),
        hashing: json.text(|word| word_in(&[(b"sha256", false), (b"stated", true)], word)),
        nodes: json.list(|json| read_node(json, silos)),
        points: json.number(),
        rows: json.list(|json| read_row(json, silos)),
    });
    Ok(Some(Dump { current, is_stated: hashing, nodes, points, rows }))
}

fn read_row(json: &mut Json, silos: &mut Silos) -> Read<Row> {
    members!(json {
        dead: json.number(),
        joined: json.number(),
        left: json.number(),
        places: json.list(read_place),
        silo: json.text(|text| silos.silo(text)),
    });
    Ok(Some(Row { dead, joined, left, places, silo }))
}

fn read_node<'a>(json: &mut Json<'a>, silos: &mut Silos) -> Read<Node<'a>> {
    members!(json {
        held: json.list(|json| read_held(json, silos)),
        pieces: json.list(|json| read_piece(json, silos)),
        ring: json.list(|json| read_point(json, silos)),
        seen: json.number(),
        silo: json.text(|text| silos.silo(text)),
    });
    let mut held = held;
    held.sort_unstable_by_key(|held| held.count);
    let holds_its_own = held.iter().all(|held| held.silo == silo);
    let holds_activations_once = held.is_sorted_by(|one, next| one.count < next.count);
    let has_pieces_in_order = pieces.is_sorted_by_key(|piece| piece.range.start);
    let is_right = holds_its_own && holds_activations_once && has_pieces_in_order;
    Ok(is_right.then_some(Node { held, pieces, ring, seen, silo }))
}

fn read_held<'a>(json: &mut Json<'a>, silos: &mut Silos) -> Read<Held<'a>> {
    members!(json {
        activation: json.text(|text| silos.activation(text)),
        grain: json.text(Grain::parse),
        phase: json.text(|word| word_in(&[(b"asking", Phase::Asking), (b"firm", Phase::Firm), (b"closing", Phase::Closing)], word)),
    });
    let (silo, count) = activation;
    Ok(Some(Held { grain, silo, count, phase }))
}

fn read_piece<'a>(json: &mut Json<'a>, silos: &mut Silos) -> Read<Piece<'a>> {
    members!(json {
        entries: json.list(|json| read_entry(json, silos)),
        from: json.text(|text| if text.is_empty() { Some(None) } else { silos.silo(text).map(Some) }),
        range: json.text(Range::parse),
        state: json.text(|word| {
            word_in(&[(b"settled", State::Settled), (b"awaiting", State::Awaiting), (b"recovering", State::Recovering)], word)
        }),
    });
    let has_entries_if_settled = state == State::Settled || entries.is_empty();
    let has_from_if_awaiting = from.is_some() == (state == State::Awaiting);
    let is_in_order = entries.is_sorted_by_key(|entry| entry.grain);
    let is_right = has_entries_if_settled && has_from_if_awaiting && is_in_order;
    Ok(is_right.then_some(Piece { entries, range, state }))
}

fn read_entry<'a>(json: &mut Json<'a>, silos: &mut Silos) -> Read<Entry<'a>> {
    items!(json [
        grain: json.text(Grain::parse),
        activation: json.text(|text| silos.activation(text)),
    ]);
    let (silo, count) = activation;
    Ok(Some(Entry { grain, silo, count }))
}

fn read_point(json: &mut Json, silos: &mut Silos) -> Read<Point> {
    items!(json [
        place: read_place(json),
        silo: json.text(|text| silos.silo(text)),
        index: json.number(),
    ]);
    Ok(Some(Point { place, silo, index }))
}

fn read_place(json: &mut Json) -> Read<u32> {
    Ok(json.number()?.and_then(|place| u32::try_from(place).ok()))
}

/// What the word stands for.
fn word_in<T: Copy>(words: &[(&[u8], T)], word: &[u8]) -> Option<T> {
    words.iter().find(|known| known.0 == word).map(|known| known.1)
}

impl<'a> Dump<'a> {
    /// What of a dump's shape wasn't tested as it was read.
    fn has_shape(&self, silos: &Silos) -> bool {
        let silo = |id: Id| silos.named[id as usize];
        (1..=128).contains(&self.points)
            && self.rows.is_sorted_by(|one, next| silo(one.silo) < silo(next.silo))
            && self.nodes.is_sorted_by(|one, next| silo(one.silo) < silo(next.silo))
            && self.rows.iter().all(|row| self.is_row(row))
            && self.nodes.iter().all(|node| node.seen <= self.current && node.holds_grains_once())
            && self.names_known_silos(silos)
    }

    fn is_row(&self, row: &Row) -> bool {
        let places = if self.is_stated { 1..=128 } else { 0..=0 };
        (1..=self.current).contains(&row.joined) && places.contains(&row.places.len())
    }

    fn names_known_silos(&self, silos: &Silos) -> bool {
        let mut is_known = vec![false; silos.named.len()];
        for row in &self.rows {
            is_known[row.silo as usize] = true;
        }
        self.nodes.iter().all(|node| {
            let mut entries = node.pieces.iter().flat_map(|piece| &piece.entries);
            // a node holds its own activations alone
            is_known[node.silo as usize] && entries.all(|entry| is_known[entry.silo as usize])
        })
    }
}

impl Node<'_> {
    fn holds_grains_once(&self) -> bool {
        least_twice(self.held.iter().map(|held| held.grain)).is_none()
    }
}

/// The least of the grains that occur twice.
pub fn least_twice<'a>(grains: impl Iterator<Item = Grain<'a>>) -> Option<Grain<'a>> {
    // Where what was mixed from two grains differs, they do, and needn't be compared.
    let mut grains: Vec<(u64, Grain)> = grains.map(|grain| (grain.mixed(), grain)).collect();
    grains.sort_unstable();
    grains.windows(2).filter(|pair| pair[0] == pair[1]).map(|pair| pair[0].1).min()
}
