//! Lines of a silo's process: what each asks for, or its first fault.

use crate::identities::{Address, number};
use crate::letters::{Letter, grain_word, read_letter};
use crate::views::Status;

/// How many bytes a line may have, its end not counted.
pub const LONGEST_LINE: usize = 16_777_216;

/// A change of membership. A join may carry the token that the process of its silo was started with.
pub enum Change<'a> {
    Join { silo: Address, token: Option<&'a [u8]>, places: Vec<u32> },
    Leave { silo: Address },
    Die { silo: Address },
}

/// A silo as a view lists it.
pub struct Listed {
    pub silo: Address,
    pub status: Status,
    pub places: Vec<u32>,
}

/// How a place is chosen; a silo by itself can't choose the one that has the fewest activations.
pub enum Policy {
    PreferLocal,
    HashBased,
}

pub enum Asked<'a> {
    Told { version: u64, change: Change<'a> },
    /// A view in place of all changes up to it.
    Begin { version: u64, rows: Vec<Listed> },
    See { version: u64 },
    Wake { grain: &'a [u8] },
    Close { grain: &'a [u8] },
    Cancel { grain: &'a [u8] },
    Offer { grain: &'a [u8], to: Address },
    Find { grain: &'a [u8] },
    Forget { grain: &'a [u8] },
    Nudge,
    NudgeGrain { grain: &'a [u8] },
    NudgeRanges,
    Receive(Letter<'a>),
    Ping { word: &'a [u8] },
    Owner { grain: &'a [u8] },
    Place { grain: &'a [u8], policy: Policy },
    Status,
    Show,
    Dump,
}

/// What is read of a word, or the number of its fault.
pub type Read<T> = Result<T, u16>;

/// What a line asks for that ended; nothing where it has no word or is a remark.
pub fn read_line(line: &[u8]) -> Read<Option<Asked<'_>>> {
    if line.len() > LONGEST_LINE {
        return Err(924);
    }
    // every byte is looked at, so that many are looked at together
    if line.iter().fold(false, |is_wrong, byte| is_wrong | !(32..=126).contains(byte)) {
        return Err(925);
    }
    let mut words = line.split(|byte| *byte == b' ').filter(|word| !word.is_empty());
    match words.next() {
        None => Ok(None),
        Some(name) if name[0] == b';' => Ok(None),
        Some(name) => asked(name, words).map(Some),
    }
}

/// The fault of what stands behind the last end, if anything does.
pub fn unended_fault(rest: &[u8]) -> Option<u16> {
    let fault = if rest.len() > LONGEST_LINE { 924 } else { 931 };
    (!rest.is_empty()).then_some(fault)
}

fn asked<'a>(name: &[u8], words: impl Iterator<Item = &'a [u8]>) -> Read<Asked<'a>> {
    Ok(match name {
        b"letter" => Asked::Receive(read_letter(words)?),
        b"wake" => Asked::Wake { grain: only_grain(words)? },
        b"close" => Asked::Close { grain: only_grain(words)? },
        b"cancel" => Asked::Cancel { grain: only_grain(words)? },
        b"find" => Asked::Find { grain: only_grain(words)? },
        b"forget" => Asked::Forget { grain: only_grain(words)? },
        b"offer" => {
            let [grain, to] = exactly(words)?;
            Asked::Offer { grain: grain_word(grain)?, to: Address::read(to)? }
        }
        b"see" => {
            let [version] = exactly(words)?;
            Asked::See { version: number_word(version)? }
        }
        b"nudge" => nudge(words)?,
        b"status" => exactly::<0>(words).map(|_| Asked::Status)?,
        b"show" => exactly::<0>(words).map(|_| Asked::Show)?,
        b"dump" => exactly::<0>(words).map(|_| Asked::Dump)?,
        b"ping" => {
            let [word] = exactly(words)?;
            Asked::Ping { word }
        }
        b"owner" => Asked::Owner { grain: only_grain(words)? },
        b"place" => {
            let [grain, policy] = exactly(words)?;
            Asked::Place { grain: grain_word(grain)?, policy: policy_word(policy)? }
        }
        b"joined" => joined(words)?,
        b"view" => view(words)?,
        b"leaving" | b"dead" => {
            let [version, silo] = exactly(words)?;
            let version = number_word(version)?;
            let silo = Address::read(silo)?;
            let change = if name == b"dead" { Change::Die { silo } } else { Change::Leave { silo } };
            Asked::Told { version, change }
        }
        _ => return Err(921),
    })
}

fn nudge<'a>(words: impl Iterator<Item = &'a [u8]>) -> Read<Asked<'a>> {
    let mut words = words.peekable();
    if words.peek().is_none() {
        return Ok(Asked::Nudge);
    }
    match exactly(words)? {
        [b"ranges"] => Ok(Asked::NudgeRanges),
        [grain] => Ok(Asked::NudgeGrain { grain: grain_word(grain)? }),
    }
}

fn joined<'a>(mut words: impl Iterator<Item = &'a [u8]>) -> Read<Asked<'a>> {
    let (version, silo) = (words.next().ok_or(922u16)?, words.next().ok_or(922u16)?);
    let version = number_word(version)?;
    let silo = Address::read(silo)?;
    let mut words = words.peekable();
    let token = words.peek().and_then(|word| word.strip_prefix(b"token="));
    let places = words.skip(token.iter().count()).map(place_word).collect::<Read<Vec<u32>>>()?;
    Ok(Asked::Told { version, change: Change::Join { silo, token, places } })
}

fn view<'a>(mut words: impl Iterator<Item = &'a [u8]>) -> Read<Asked<'a>> {
    let version = number_word(words.next().ok_or(922u16)?)?;
    let rows = words.map(listed_word).collect::<Read<Vec<Listed>>>()?;
    Ok(Asked::Begin { version, rows })
}

/// SILO:STATUS, and perhaps a colon and places with commas between them; 933 where it isn't, then the silo's fault, then a place's.
fn listed_word(word: &[u8]) -> Read<Listed> {
    let pieces: Vec<&[u8]> = word.split(|byte| *byte == b':').collect();
    let ([_, _, status] | [_, _, status, _]) = pieces[..] else { return Err(933) };
    let status = match status {
        b"active" => Status::Active,
        b"leaving" => Status::Leaving,
        b"dead" => Status::Dead,
        _ => return Err(933),
    };
    let silo = Address::read(&word[..pieces[0].len() + 1 + pieces[1].len()])?;
    let places = match pieces.get(3) {
        Some(places) => places.split(|byte| *byte == b',').map(place_word).collect::<Read<Vec<u32>>>()?,
        None => Vec::new(),
    };
    Ok(Listed { silo, status, places })
}

fn place_word(word: &[u8]) -> Read<u32> {
    number(word, u32::MAX.into()).map(|place| place as u32).ok_or(923)
}

/// The words behind a name; 922 where there aren't just so many.
pub fn exactly<'a, const N: usize>(mut words: impl Iterator<Item = &'a [u8]>) -> Read<[&'a [u8]; N]> {
    let mut those = [&b""[..]; N];
    for word in &mut those {
        *word = words.next().ok_or(922u16)?;
    }
    if words.next().is_some() { Err(922) } else { Ok(those) }
}

fn only_grain<'a>(words: impl Iterator<Item = &'a [u8]>) -> Read<&'a [u8]> {
    let [grain] = exactly(words)?;
    grain_word(grain)
}

fn policy_word(word: &[u8]) -> Read<Policy> {
    match word {
        b"prefer_local" => Ok(Policy::PreferLocal),
        b"hash_based" => Ok(Policy::HashBased),
        _ => Err(926),
    }
}

pub fn number_word(word: &[u8]) -> Read<u64> {
    number(word, u64::MAX).ok_or(923)
}
