//! Letters that come: what the words of one say, or the first fault.

use crate::identities::{Activation, Address, number};
use crate::pieces::Span;
use crate::reading::{Read, exactly, number_word};
use crate::text::{Act, Hex};
use crate::words::key_of;

/// An entry as a letter tells it.
pub type Told<'a> = (&'a [u8], Activation);

pub enum Body<'a> {
    Request { number: u64, grain: &'a [u8], act: Act },
    Registered { number: u64 },
    Taken { number: u64, entry: Told<'a> },
    Removed { number: u64 },
    Absent { number: u64 },
    Found { number: u64, entry: Told<'a> },
    Nothing { number: u64 },
    Retry { number: u64, reason: &'a [u8] },
    Ask { range: Span, page: u64 },
    Page(Page<'a>),
    Missing { range: Span },
    Done { range: Span },
    /// Behind that grain, if one is named.
    Query { range: Span, after: Option<&'a [u8]> },
    Report(Report<'a>),
    /// At least one range, and those in which the sender has nothing.
    Survey { ranges: Vec<Span> },
    Empty { ranges: Vec<Span> },
    Behind,
    Ahead,
    Offer { entry: Told<'a> },
}

pub struct Page<'a> {
    pub range: Span,
    pub page: u64,
    pub pages: u64,
    pub digest: Hex,
    pub entries: Vec<Told<'a>>,
}

/// Some of what is firm in a range, behind that grain if one is named; and whether no more stands behind it.
pub struct Report<'a> {
    pub range: Span,
    pub after: Option<&'a [u8]>,
    pub is_last: bool,
    pub entries: Vec<Told<'a>>,
}

pub struct Letter<'a> {
    pub from: Address,
    pub to: Address,
    pub version: u64,
    pub body: Body<'a>,
}

/// What stands in front of a letter's kind, not read yet: faults of how many words there are come first.
struct Head<'a>([&'a [u8]; 3]);

impl Head<'_> {
    fn read(&self) -> Read<(Address, Address, u64)> {
        let [from, to, version] = self.0;
        Ok((Address::read(from)?, Address::read(to)?, number_word(version)?))
    }
}

/// The letter that the words behind `letter` say.
pub fn read_letter<'a>(mut words: impl Iterator<Item = &'a [u8]>) -> Read<Letter<'a>> {
    let mut next = || words.next().ok_or(922u16);
    let head = Head([next()?, next()?, next()?]);
    let kind = next()?;
    let ((from, to, version), body) = match kind {
        b"register" | b"deregister" | b"find" => request(&head, kind, words)?,
        b"registered" | b"taken" | b"found" => entry_reply(&head, kind, words)?,
        b"removed" | b"absent" | b"nothing" => {
            let [number] = exactly(words)?;
            (head.read()?, bare_reply(kind, number_word(number)?))
        }
        b"retry" => retry(&head, words)?,
        b"ask" => {
            let [range, page] = exactly(words)?;
            (head.read()?, Body::Ask { range: Span::read(range)?, page: number_word(page)? })
        }
        b"page" => page(&head, words)?,
        b"missing" | b"done" | b"behind" | b"ahead" => {
            let [range] = exactly(words)?;
            (head.read()?, ranged(kind, Span::read(range)?))
        }
        b"query" => query(&head, words)?,
        b"report" => report(&head, words)?,
        b"survey" | b"empty" => several(&head, kind, words)?,
        b"offer" => {
            let [grain, activation] = exactly(words)?;
            (head.read()?, Body::Offer { entry: entry(grain, activation)? })
        }
        _ => return Err(927),
    };
    Ok(Letter { from, to, version, body })
}

type Parts<'a> = ((Address, Address, u64), Body<'a>);

fn request<'a>(head: &Head, kind: &[u8], mut words: impl Iterator<Item = &'a [u8]>) -> Read<Parts<'a>> {
    if kind == b"find" {
        let [number, grain] = exactly(words)?;
        let head = head.read()?;
        let number = number_word(number)?;
        return Ok((head, Body::Request { number, grain: grain_word(grain)?, act: Act::Find }));
    }
    let mut next = || words.next().ok_or(922u16);
    let (number, grain, activation) = (next()?, next()?, next()?);
    let previous = words.next();
    if previous.is_some() && (kind == b"deregister" || words.next().is_some()) {
        return Err(922);
    }
    let head = head.read()?;
    let number = number_word(number)?;
    let (grain, activation) = entry(grain, activation)?;
    let previous = previous.map(activation_word).transpose()?;
    let act = if kind == b"register" {
        Act::Register { activation, previous }
    } else {
        Act::Deregister { activation }
    };
    Ok((head, Body::Request { number, grain, act }))
}

fn entry_reply<'a>(head: &Head, kind: &[u8], words: impl Iterator<Item = &'a [u8]>) -> Read<Parts<'a>> {
    let [number, grain, activation] = exactly(words)?;
    let head = head.read()?;
    let number = number_word(number)?;
    let entry = entry(grain, activation)?;
    let body = match kind {
        b"registered" => Body::Registered { number },
        b"taken" => Body::Taken { number, entry },
        _ => Body::Found { number, entry },
    };
    Ok((head, body))
}

fn bare_reply(kind: &[u8], number: u64) -> Body<'static> {
    match kind {
        b"removed" => Body::Removed { number },
        b"absent" => Body::Absent { number },
        _ => Body::Nothing { number },
    }
}

fn ranged(kind: &[u8], range: Span) -> Body<'static> {
    match kind {
        b"missing" => Body::Missing { range },
        b"done" => Body::Done { range },
        b"behind" => Body::Behind,
        _ => Body::Ahead,
    }
}

fn retry<'a>(head: &Head, mut words: impl Iterator<Item = &'a [u8]>) -> Read<Parts<'a>> {
    let mut next = || words.next().ok_or(922u16);
    let (number, reason) = (next()?, next()?);
    let with_number = match reason {
        b"601" | b"603" => true,
        b"602" | b"604" => false,
        _ => return Err(927),
    };
    let told = if with_number { Some(next()?) } else { None };
    if words.next().is_some() {
        return Err(922);
    }
    let head = head.read()?;
    let number = number_word(number)?;
    told.map(number_word).transpose()?;
    Ok((head, Body::Retry { number, reason }))
}

fn page<'a>(head: &Head, mut words: impl Iterator<Item = &'a [u8]>) -> Read<Parts<'a>> {
    let mut next = || words.next().ok_or(922u16);
    let (range, page, pages, digest) = (next()?, next()?, next()?, next()?);
    let words = pairs(words)?;
    let head = head.read()?;
    let (range, page, pages) = (Span::read(range)?, number_word(page)?, number_word(pages)?);
    let digest = digest_word(digest)?;
    Ok((head, Body::Page(Page { range, page, pages, digest, entries: entries(&words)? })))
}

fn query<'a>(head: &Head, mut words: impl Iterator<Item = &'a [u8]>) -> Read<Parts<'a>> {
    let range = words.next().ok_or(922u16)?;
    let after = words.next();
    if words.next().is_some() {
        return Err(922);
    }
    let head = head.read()?;
    let range = Span::read(range)?;
    Ok((head, Body::Query { range, after: after.map(grain_word).transpose()? }))
}

/// The grain behind which is told stands there where the words behind the range are pairs.
fn report<'a>(head: &Head, mut words: impl Iterator<Item = &'a [u8]>) -> Read<Parts<'a>> {
    let range = words.next().ok_or(922u16)?;
    let words: Vec<&[u8]> = words.collect();
    let (after, words) = words.split_at(usize::from(words.len() % 2 == 0).min(words.len()));
    let (is_last, words) = words.split_first().ok_or(922u16)?;
    let head = head.read()?;
    let range = Span::read(range)?;
    let after = after.first().map(|word| grain_word(word)).transpose()?;
    let is_last = last_word(is_last)?;
    Ok((head, Body::Report(Report { range, after, is_last, entries: entries(words)? })))
}

fn several<'a>(head: &Head, kind: &[u8], words: impl Iterator<Item = &'a [u8]>) -> Read<Parts<'a>> {
    let words: Vec<&[u8]> = words.collect();
    if words.is_empty() {
        return Err(922);
    }
    let head = head.read()?;
    let ranges = words.into_iter().map(Span::read).collect::<Read<Vec<Span>>>()?;
    Ok((head, if kind == b"survey" { Body::Survey { ranges } } else { Body::Empty { ranges } }))
}

fn last_word(word: &[u8]) -> Read<bool> {
    match word {
        b"last" => Ok(true),
        b"more" => Ok(false),
        _ => Err(932),
    }
}

/// The words, if each has another one beside it.
fn pairs<'a>(words: impl Iterator<Item = &'a [u8]>) -> Read<Vec<&'a [u8]>> {
    let words: Vec<&[u8]> = words.collect();
    if words.len() % 2 == 0 { Ok(words) } else { Err(922) }
}

fn entries<'a>(words: &[&'a [u8]]) -> Read<Vec<Told<'a>>> {
    words.chunks_exact(2).map(|pair| entry(pair[0], pair[1])).collect()
}

fn entry<'a>(grain: &'a [u8], activation: &[u8]) -> Read<Told<'a>> {
    Ok((grain_word(grain)?, activation_word(activation)?))
}

pub fn grain_word(word: &[u8]) -> Read<&[u8]> {
    key_of(word)?;
    Ok(word)
}

fn activation_word(word: &[u8]) -> Read<Activation> {
    let mark = word.iter().position(|byte| *byte == b'!').ok_or(929u16)?;
    let silo = Address::read(&word[..mark])?;
    let count = number(&word[mark + 1..], u64::MAX).ok_or(923u16)?;
    Ok(Activation { silo, count })
}

fn digest_word(word: &[u8]) -> Read<Hex> {
    let is_digit = |digit: &u8| matches!(digit, b'0'..=b'9' | b'a'..=b'f');
    word.try_into().ok().filter(|hex: &Hex| hex.iter().all(is_digit)).ok_or(930)
}
