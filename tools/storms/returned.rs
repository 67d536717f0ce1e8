//! What is to have come back in a quiet end: read off the cluster's nodes, and off what is shown.

use crate::chronicle::Live;
use crate::fault::Fault;
use crate::pieces::{count_waiting, entered};
use crate::ring::owner;
use crate::stage::Stage;
use crate::world::{Activation, Held, Node, Phase};

type Verdict<T = ()> = Result<T, Fault>;

/// After one round each live silo has seen the current view and settled all that it owns, and no letter is to come.
pub fn judge_ranges(stage: &mut Stage) -> Verdict {
    for live in &stage.chronicle.live {
        let node = stage.world.node(live.silo).ok_or(Fault::Nodes)?;
        if u64::from(node.seen) != stage.chronicle.version {
            return Err(Fault::Unseen);
        }
        if count_waiting(node) > 0 {
            return Err(Fault::Unsettled);
        }
    }
    let is_fresh = |live: &Live| stage.letters.least_fresh_to(live.silo).is_some();
    let has_fresh = stage.chronicle.live.iter().any(is_fresh) || stage.world.least_deliverable().is_some();
    if has_fresh { Err(Fault::Undelivered) } else { Ok(()) }
}

/// After two rounds also, where a silo is Active, none waits for an answer, and the entries are just the firm activations.
pub fn judge_return(stage: &mut Stage) -> Verdict {
    judge_ranges(stage)?;
    if stage.chronicle.active_count() == 0 {
        return Ok(());
    }
    let is_firm = |held: &Held| held.phase == Phase::Firm;
    let waits = |node: &Node| node.host.outstanding() > 0 || !node.host.in_order().iter().all(is_firm);
    if stage.world.nodes().any(waits) { Err(Fault::Outstanding) } else { judge_entries(stage) }
}

/// Of each grain its owner has just the firm activation, if there is one, and any other silo has nothing; and there is no other entry.
fn judge_entries(stage: &Stage) -> Verdict {
    let mut count = 0;
    for (grain, known) in stage.grains.iter().enumerate() {
        let firm = firm_of(stage, grain);
        for live in &stage.chronicle.live {
            let node = stage.world.node(live.silo).ok_or(Fault::Nodes)?;
            let is_owner = owner(&live.ring, known.hash) == Some(live.silo);
            if entered(node, grain, known.hash) != firm.filter(|_| is_owner) {
                return Err(Fault::Inexact);
            }
        }
        count += usize::from(firm.is_some());
    }
    let entries: usize = stage.world.nodes().map(|node| node.table.len()).sum();
    if entries == count { Ok(()) } else { Err(Fault::Inexact) }
}

/// Where the grain is firm.
fn firm_of(stage: &Stage, grain: usize) -> Option<Activation> {
    let is_firm = |node: &Node| {
        let slot = node.host.slot_of(grain as u32)?;
        let held = node.host.held(slot);
        (held.phase == Phase::Firm).then_some(held.activation)
    };
    stage.world.nodes().find_map(is_firm)
}

/// What is shown says the same: each silo that isn't dead has seen the current version; where one is active, each activation is firm, each
/// range is settled, and there are as many entries as activations.
pub fn judge_shown(stage: &mut Stage) -> Verdict {
    let (has_owners, version) = (stage.chronicle.active_count() > 0, stage.chronicle.version.to_string());
    let shown = String::from_utf8_lossy(stage.show());
    let (mut held, mut entries) = (0, 0);
    for line in shown.lines() {
        match line.split(' ').collect::<Vec<_>>()[..] {
            ["version", seen] | ["silo", _, "active" | "leaving", "seen", seen, "held", _] if seen == version => {}
            ["silo", _, "dead"] => {}
            ["held", _, _, "firm"] => held += 1,
            ["held", _, _, _] | ["no", "owner"] if !has_owners => {}
            ["range", _, _, "settled", "entries", count] => entries += count.parse::<u64>().map_err(|_| Fault::Shown)?,
            _ => return Err(Fault::Shown),
        }
    }
    if !has_owners || held == entries { Ok(()) } else { Err(Fault::Shown) }
}
