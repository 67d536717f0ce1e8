//! What may come next, and how likely it is in each weather.

use crate::random::Random;

#[derive(Clone, Copy)]
pub enum Kind {
    Join,
    Leave,
    Kill,
    SeeNext,
    SeeAny,
    Wake,
    Close,
    Cancel,
    Offer,
    Find,
    Forget,
    Nudge,
    NudgeGrain,
    NudgeRanges,
    DeliverRecent,
    DeliverOldest,
    DeliverAny,
    Lose,
}

/// How a stretch of events goes.
#[derive(Clone, Copy, PartialEq, Eq)]
pub enum Weather {
    /// Views are seen one after another and most letters come soon, so that ranges settle.
    Calm,
    /// The same, but many grains wake and few close, and silos come and go without dying.
    Rush,
    /// Members change faster than ranges settle.
    Gale,
    /// Letters come late, again, or not at all, and silos skip views.
    Fog,
}

/// How often each kind comes, beside the others, in each weather: calm, rush, gale, fog.
const SHARES: [(Kind, [u64; 4]); 18] = [
    (Kind::Join, [9, 24, 100, 8]),
    (Kind::Leave, [6, 24, 50, 4]),
    (Kind::Kill, [6, 3, 50, 6]),
    (Kind::SeeNext, [150, 450, 60, 50]),
    (Kind::SeeAny, [600, 550, 60, 100]),
    (Kind::Wake, [160, 300, 60, 50]),
    (Kind::Close, [20, 4, 15, 15]),
    (Kind::Cancel, [4, 6, 12, 12]),
    (Kind::Offer, [70, 35, 40, 40]),
    (Kind::Find, [30, 10, 10, 20]),
    (Kind::Forget, [10, 5, 5, 5]),
    (Kind::Nudge, [30, 20, 10, 25]),
    (Kind::NudgeGrain, [20, 20, 15, 25]),
    (Kind::NudgeRanges, [6, 6, 8, 10]),
    (Kind::DeliverRecent, [700, 900, 330, 120]),
    (Kind::DeliverOldest, [80, 150, 80, 250]),
    (Kind::DeliverAny, [20, 10, 120, 250]),
    (Kind::Lose, [3, 2, 40, 60]),
];

/// A kind, by the shares.
pub fn drawn_kind(random: &mut Random, weather: Weather) -> Kind {
    let shares = SHARES.map(|(kind, shares)| (kind, shares[weather as usize]));
    let mut drawn = random.below(shares.iter().map(|(_, share)| share).sum());
    for (kind, share) in shares {
        if drawn < share {
            return kind;
        }
        drawn -= share;
    }
    unreachable!("less than the sum is drawn")
}

/// A kind of change to the membership.
pub fn drawn_change(random: &mut Random) -> Kind {
    match random.below(3) {
        0 => Kind::Join,
        1 => Kind::Leave,
        _ => Kind::Kill,
    }
}
