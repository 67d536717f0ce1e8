//! What a node of the plain cluster has: read off its lists, by looking at all of them.

use crate::chronicle::Live;
use crate::fault::Fault;
use crate::grains::Grain;
use crate::ring::{owned_size, owns_all};
use crate::world::{self, Activation, Held, Node, Range, State};

/// Whether the hash is in the range.
fn has(range: &Range, hash: u32) -> bool {
    u64::from(hash.wrapping_sub(range.start)) < range.size()
}

/// Whether a settled piece of the node has the hash.
pub fn is_settled(node: &Node, hash: u32) -> bool {
    node.pieces.0.iter().any(|piece| has(&piece.range, hash) && matches!(piece.state, State::Settled))
}

/// How many pieces aren't settled.
pub fn count_waiting(node: &Node) -> usize {
    node.pieces.0.iter().filter(|piece| !matches!(piece.state, State::Settled)).count()
}

/// Under what a grain of that index and hash stands in a table.
pub fn key(grain: usize, hash: u32) -> u64 {
    u64::from(hash) << 32 | grain as u64
}

/// The activation that the node's table has of a grain.
pub fn entered(node: &Node, grain: usize, hash: u32) -> Option<Activation> {
    node.table.get(&key(grain, hash)).copied()
}

/// The activation of a grain that the node holds.
pub fn held(node: &Node, grain: usize) -> Option<&Held> {
    node.host.slot_of(grain as world::Grain).map(|slot| node.host.held(slot))
}

/// The pieces have the hashes that the silo owns by its ring, each once, and no other.
pub fn judge_pieces(node: &Node, live: &Live) -> Result<(), Fault> {
    let (mut sizes, mut end) = (0, 0);
    for piece in &node.pieces.0 {
        let (start, size) = (piece.range.start, piece.range.size());
        if u64::from(start) < end || !owns_all(&live.ring, live.silo, start, size) {
            return Err(Fault::Pieces);
        }
        end = u64::from(start) + size;
        sizes += size;
    }
    let around = end.saturating_sub(1 << 32);
    let first = node.pieces.0.first().map_or(0, |piece| u64::from(piece.range.start));
    if sizes != owned_size(&live.ring, live.silo) || around > first {
        return Err(Fault::Pieces);
    }
    Ok(())
}

/// Each entry is of a grain, and lies in a settled piece of its hash.
pub fn judge_entries(node: &Node, grains: &[Grain]) -> Result<(), Fault> {
    for entry in node.table.keys() {
        let (index, hash) = (*entry as u32 as usize, (*entry >> 32) as u32);
        if grains.get(index).is_none_or(|grain| grain.hash != hash) || !is_settled(node, hash) {
            return Err(Fault::Misplaced);
        }
    }
    Ok(())
}

/// The silo holds activations of these grains alone.
pub fn judge_held(node: &Node, grains: &[Grain]) -> Result<(), Fault> {
    let count = (0..grains.len()).filter(|grain| held(node, *grain).is_some()).count();
    if count == node.host.held_count() { Ok(()) } else { Err(Fault::Held) }
}
