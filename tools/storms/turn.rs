//! What a turn draws: an event, with silos by the numbers of their joins and grains by their indices.

use crate::chronicle::Chronicle;
use crate::grains::Grain;
use crate::members::silo_text;
use crate::world::{self, Event, Silo, World};

pub enum Turn {
    Join { endpoint: u32, generation: u32, places: Vec<u32> },
    Leave { silo: Silo },
    Kill { silo: Silo },
    See { silo: Silo, version: u64 },
    Nudge { silo: Silo },
    NudgeGrain { silo: Silo, grain: usize },
    NudgeRanges { silo: Silo },
    Wake { silo: Silo, grain: usize },
    Close { silo: Silo, grain: usize },
    Cancel { silo: Silo, grain: usize },
    Find { silo: Silo, grain: usize },
    Forget { silo: Silo, grain: usize },
    Offer { silo: Silo, grain: usize, to: Silo },
    Deliver { letter: u64 },
    Lose { letter: u64 },
}

impl Turn {
    /// The silo whose step it is, where that is told, and the grain that it is of.
    pub fn of(&self) -> (Option<Silo>, Option<usize>) {
        match *self {
            Turn::Leave { silo } | Turn::See { silo, .. } | Turn::Nudge { silo } | Turn::NudgeRanges { silo } => (Some(silo), None),
            Turn::Wake { silo, grain }
            | Turn::Close { silo, grain }
            | Turn::Cancel { silo, grain }
            | Turn::NudgeGrain { silo, grain }
            | Turn::Find { silo, grain }
            | Turn::Forget { silo, grain }
            | Turn::Offer { silo, grain, .. } => (Some(silo), Some(grain)),
            Turn::Join { .. } | Turn::Kill { .. } | Turn::Deliver { .. } | Turn::Lose { .. } => (None, None),
        }
    }

    /// The line of a script that makes it happen.
    pub fn line(&self, chronicle: &Chronicle, grains: &[Grain]) -> String {
        let silo_of = |silo: Silo| &chronicle.member(silo).text;
        let does = |verb: &str, silo: Silo, grain: usize| format!("{verb} {} {}", silo_of(silo), grains[grain].text);
        match self {
            Turn::Join { endpoint, generation, places } => {
                let places: String = places.iter().map(|place| format!(" {place}")).collect();
                format!("join {}{places}", silo_text(*endpoint, *generation))
            }
            Turn::Leave { silo } => format!("leave {}", silo_of(*silo)),
            Turn::Kill { silo } => format!("kill {}", silo_of(*silo)),
            Turn::See { silo, version } => format!("see {} {version}", silo_of(*silo)),
            Turn::Nudge { silo } => format!("nudge {}", silo_of(*silo)),
            Turn::NudgeGrain { silo, grain } => does("nudge", *silo, *grain),
            Turn::NudgeRanges { silo } => format!("nudge {} ranges", silo_of(*silo)),
            Turn::Wake { silo, grain } => does("wake", *silo, *grain),
            Turn::Close { silo, grain } => does("close", *silo, *grain),
            Turn::Cancel { silo, grain } => does("cancel", *silo, *grain),
            Turn::Find { silo, grain } => does("find", *silo, *grain),
            Turn::Forget { silo, grain } => does("forget", *silo, *grain),
            Turn::Offer { silo, grain, to } => format!("{} {}", does("offer", *silo, *grain), silo_of(*to)),
            Turn::Deliver { letter } => format!("deliver {letter}"),
            Turn::Lose { letter } => format!("lose {letter}"),
        }
    }

    /// The event of the plain cluster.
    pub fn event(&self, chronicle: &Chronicle, world: &mut World) -> Event {
        let mut named = |text: &str| world.names().0.read(text.as_bytes()).expect("the text of a silo");
        let mut name = |silo: Silo| named(&chronicle.member(silo).text);
        let number = |grain: usize| grain as world::Grain;
        match *self {
            Turn::Join { endpoint, generation, ref places } => {
                Event::Join { silo: named(&silo_text(endpoint, generation)), places: places.clone() }
            }
            Turn::Leave { silo } => Event::Leave { silo: name(silo) },
            Turn::Kill { silo } => Event::Kill { silo: name(silo) },
            Turn::See { silo, version } => Event::See { silo: name(silo), version },
            Turn::Nudge { silo } => Event::Nudge { silo: name(silo) },
            Turn::NudgeGrain { silo, grain } => Event::NudgeGrain { silo: name(silo), grain: number(grain) },
            Turn::NudgeRanges { silo } => Event::NudgeRanges { silo: name(silo) },
            Turn::Wake { silo, grain } => Event::Wake { silo: name(silo), grain: number(grain) },
            Turn::Close { silo, grain } => Event::Close { silo: name(silo), grain: number(grain) },
            Turn::Cancel { silo, grain } => Event::Cancel { silo: name(silo), grain: number(grain) },
            Turn::Find { silo, grain } => Event::Find { silo: name(silo), grain: number(grain) },
            Turn::Forget { silo, grain } => Event::Forget { silo: name(silo), grain: number(grain) },
            Turn::Offer { silo, grain, to } => Event::Offer { silo: name(silo), grain: number(grain), to: name(to) },
            Turn::Deliver { letter } => Event::Deliver { letter },
            Turn::Lose { letter } => Event::Lose { letter },
        }
    }
}
