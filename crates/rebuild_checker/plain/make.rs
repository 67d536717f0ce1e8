//! Makes a dump in which all is right: so many silos of 30 points that have seen the last view, each with so many firm activations
//! of grains whose names have various lengths, all of them entered where they belong. If a stranger is asked for, the last entry of
//! the last piece names an activation that nobody holds.

use crate::names::{Grain, Silo, hash_text};
use std::io::{self, BufWriter, Write};

const POINTS: usize = 30;
const KINDS: [&str; 5] = ["user", "cart", "order-line", "game.session", "device-telemetry-window"];
/// A kind that comes after all of these.
const LAST_KIND: &str = "zone";

/// A point that is the first one at its place: the place, the silo's number, the point's index.
type Point = (u32, usize, usize);

/// The grain's text, and its activation's silo and count.
struct Entry {
    grain: String,
    silo: usize,
    count: usize,
}

struct Cluster {
    is_stated: bool,
    silos: Vec<Silo>,
    /// Those named at joins; none where they are hashed.
    places: Vec<Vec<u32>>,
    ring: Vec<Point>,
    /// The firm activations of each silo, in the order in which they began.
    held: Vec<Vec<String>>,
    /// The entries of the piece that begins at each point of the ring.
    entries: Vec<Vec<Entry>>,
}

/// Pseudo-random numbers, the same ones each time.
struct Random(u64);

impl Random {
    fn next(&mut self) -> u32 {
        self.0 = self.0.wrapping_mul(6_364_136_223_846_793_005).wrapping_add(1_442_695_040_888_963_407);
        (self.0 >> 32) as u32
    }

    fn below(&mut self, end: usize) -> usize {
        (u64::from(self.next()) * end as u64 >> 32) as usize
    }
}

pub fn make(words: &[&str]) -> io::Result<()> {
    let wrong =
        || io::Error::other("make takes sha256 or stated, 1 to 250 silos, how many activations each has, and perhaps stranger");
    let (is_stated, rest) = match words.split_first().ok_or_else(wrong)? {
        (&"stated", rest) => (true, rest),
        (&"sha256", rest) => (false, rest),
        _ => return Err(wrong()),
    };
    let (counts, has_stranger) = match rest {
        [silos, activations] => ([silos, activations], false),
        [silos, activations, "stranger"] => ([silos, activations], true),
        _ => return Err(wrong()),
    };
    let [Ok(silos @ 1..=250), Ok(activations)] = counts.map(|count| count.parse()) else { return Err(wrong()) };
    let mut cluster = Cluster::new(is_stated, silos);
    cluster.start(activations);
    if has_stranger {
        cluster.enter_stranger();
    }
    cluster.write(&mut BufWriter::with_capacity(1 << 16, io::stdout().lock()))
}

impl Cluster {
    fn new(is_stated: bool, silos: usize) -> Cluster {
        let mut random = Random(1);
        let silos: Vec<Silo> = (1..=silos as u32).map(|number| Silo { ip: 10 << 24 | number, port: 1000, generation: 1 }).collect();
        let mut places: Vec<Vec<u32>> = silos
            .iter()
            .map(|silo| (0..POINTS).map(|index| if is_stated { random.next() } else { silo.hashed_place(index as u64) }).collect())
            .collect();
        let mut ring: Vec<Point> = Vec::new();
        for (silo, places) in places.iter().enumerate() {
            ring.extend(places.iter().zip(0..).map(|(place, index)| (*place, silo, index)));
        }
        ring.sort_unstable();
        assert!(ring.is_sorted_by(|one, next| one.0 < next.0), "two points at one place");
        if !is_stated {
            places.iter_mut().for_each(Vec::clear);
        }
        let held = silos.iter().map(|_| Vec::new()).collect();
        let entries = ring.iter().map(|_| Vec::new()).collect();
        Cluster { is_stated, silos, places, ring, held, entries }
    }

    /// The index of the point whose silo owns the hash.
    fn owner(&self, hash: u32) -> usize {
        self.ring.partition_point(|point| point.0 <= hash).checked_sub(1).unwrap_or(self.ring.len() - 1)
    }

    /// Each silo starts so many activations, of grains of its own.
    fn start(&mut self, activations: usize) {
        let mut random = Random(2);
        for silo in 0..self.silos.len() {
            for count in 1..=activations {
                let (grain, hash) = self.grain(&mut random, silo * activations + count);
                let owner = self.owner(hash);
                self.entries[owner].push(Entry { grain: grain.clone(), silo, count });
                self.held[silo].push(grain);
            }
        }
        for entries in &mut self.entries {
            entries.sort_by(|one, next| Grain::parse(one.grain.as_bytes()).cmp(&Grain::parse(next.grain.as_bytes())));
        }
    }

    /// A grain of that number, and its hash: random letters behind the number, and behind these the hash if hashes are stated.
    fn grain(&self, random: &mut Random, number: usize) -> (String, u32) {
        let mut grain = format!("{}/{number}-", KINDS[random.below(KINDS.len())]);
        for _ in 0..random.below(90) {
            grain.push(char::from(b'a' + random.below(26) as u8));
        }
        if !self.is_stated {
            let hash = hash_text(grain.as_bytes());
            return (grain, hash);
        }
        let hash = random.next();
        (format!("{grain}#{hash}"), hash)
    }

    fn enter_stranger(&mut self) {
        let last_silo = self.silos.len() - 1;
        let Some(last) = self.ring.iter().rposition(|point| point.1 == last_silo) else { return };
        let mut tries = (0..).map(|number| format!("{LAST_KIND}/{number}"));
        let grain = if self.is_stated {
            Some(format!("{LAST_KIND}/stranger#{}", self.ring[last].0))
        } else {
            tries.find(|grain| self.owner(hash_text(grain.as_bytes())) == last)
        };
        let count = self.held[last_silo].len() + 1;
        self.entries[last].extend(grain.map(|grain| Entry { grain, silo: last_silo, count }));
    }

    fn write(&self, out: &mut impl Write) -> io::Result<()> {
        let hashing = if self.is_stated { "stated" } else { "sha256" };
        write!(out, r#"{{"current":{},"hashing":"{hashing}","nodes":"#, self.silos.len())?;
        write_list(out, 0..self.silos.len(), |out, silo| self.write_node(out, silo))?;
        write!(out, r#","points":{POINTS},"rows":"#)?;
        write_list(out, 0..self.silos.len(), |out, silo| {
            write!(out, r#"{{"dead":0,"joined":{},"left":0,"places":"#, silo + 1)?;
            write_list(out, self.places[silo].iter(), |out, place| write!(out, "{place}"))?;
            write!(out, r#","silo":"{}"}}"#, self.silos[silo])
        })?;
        out.write_all(b"}\n")?;
        out.flush()
    }

    fn write_node(&self, out: &mut impl Write, silo: usize) -> io::Result<()> {
        let name = &self.silos[silo];
        out.write_all(br#"{"held":"#)?;
        write_list(out, self.held[silo].iter().zip(1..), |out, (grain, count)| {
            write!(out, r#"{{"activation":"{name}!{count}","grain":"{grain}","phase":"firm"}}"#)
        })?;
        out.write_all(br#","pieces":"#)?;
        let own_pieces = (0..self.ring.len()).filter(|index| self.ring[*index].1 == silo);
        write_list(out, own_pieces, |out, index| self.write_piece(out, index))?;
        out.write_all(br#","ring":"#)?;
        write_list(out, self.ring.iter(), |out, (place, owner, index)| {
            write!(out, r#"[{place},"{}",{index}]"#, self.silos[*owner])
        })?;
        write!(out, r#","seen":{},"silo":"{name}"}}"#, self.silos.len())
    }

    fn write_piece(&self, out: &mut impl Write, index: usize) -> io::Result<()> {
        let start = self.ring[index].0;
        let end = self.ring[(index + 1) % self.ring.len()].0;
        out.write_all(br#"{"entries":"#)?;
        write_list(out, self.entries[index].iter(), |out, entry| {
            write!(out, r#"["{}","{}!{}"]"#, entry.grain, self.silos[entry.silo], entry.count)
        })?;
        write!(out, r#","from":"","range":"{start}+{}","state":"settled"}}"#, end.wrapping_sub(start))
    }
}

fn write_list<W: Write, T>(
    out: &mut W,
    items: impl Iterator<Item = T>,
    mut write_item: impl FnMut(&mut W, T) -> io::Result<()>,
) -> io::Result<()> {
    out.write_all(b"[")?;
    for (number, item) in items.enumerate() {
        if number > 0 {
            out.write_all(b",")?;
        }
        write_item(out, item)?;
    }
    out.write_all(b"]")
}
