//! Request 9: what links and cuts of a feed call that is done come to at most.
//!
//! Demand 3 allows 1 for each insertion, 4 for each lowering and R for each taking, and the queues begin and end empty.

use crate::ledger::max_rank;

/// The most for a call, with the places reached and the spans examined. Each place but the start is inserted by a span
/// examined, so that `reached` is from 1 to `examined` + 1; each other span lowers a place or makes no call. With a budget
/// some spans insert places that are not reached; these make takings dearer, but by no more than their spans are counted.
pub fn ceiling(reached: u64, examined: u64) -> u64 {
    reached + 4 * (examined + 1 - reached) + reached * max_rank(reached as usize)
}

/// The most on a map of so many places and spans, whatever is reached of it.
pub fn map_ceiling(places: u64, spans: u64) -> u64 {
    4 * spans + 1 + places * max_rank(places as usize)
}

/// The sharper one on a map: that of a call which reaches all places and examines all spans. `None` for maps with fewer
/// than five places, or with more than their spans could reach.
pub fn sharp_map_ceiling(places: u64, spans: u64) -> Option<u64> {
    (5 <= places && places <= spans + 1).then(|| ceiling(places, spans))
}
