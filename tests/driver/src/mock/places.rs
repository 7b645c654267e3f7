//! Faults in what a place of linking holds. Places hold numbers here, and a number stands for the tree with this root.

use super::Mock;
use super::Variant::{self, *};
use reference::queue::{link, PLACES};
use reference::{Queues, Tree};

pub(super) const FAULTS: [Variant; 8] = [
    PlaceCutTo8Bits,
    PlaceCutTo11Bits,
    LastItemTakenForFree,
    FreePlaceCutTo12Bits,
    LastPlaceNeverWritten,
    FirstHolderBack,
    NextPlaceTested,
    PlaceStaysTaken,
];

/// The number at a free place.
const FREE: u32 = 65535;

impl Mock {
    /// The number that is put at a place for a root, or for none.
    fn put(&self, root: Option<u32>) -> u32 {
        match root {
            Some(item) if self.is(PlaceCutTo8Bits) => item & 255,
            Some(item) if self.is(PlaceCutTo11Bits) => item & 2047,
            Some(item) => item,
            None if self.is(FreePlaceCutTo12Bits) => FREE & 4095,
            None => FREE,
        }
    }

    /// The root that the number at a place stands for. One that is in no table is taken for none.
    fn found(&self, number: u32, capacity: u32) -> Option<u32> {
        let taken_for_free = self.is(LastItemTakenForFree) && number == 4095;
        (number < capacity && !taken_for_free).then_some(number)
    }

    /// The root at the place of a rank; with a fault, unless the place after it is free.
    fn holder(&self, places: &[u32; PLACES], rank: usize, capacity: u32) -> Option<u32> {
        let tested = rank + usize::from(self.is(NextPlaceTested));
        places.get(tested).and_then(|&number| self.found(number, capacity))?;
        places.get(rank).and_then(|&number| self.found(number, capacity))
    }

    /// The holder of a place has left it. With a fault it stays, or after a second link the first holder is back.
    fn leave(&self, places: &mut [u32; PLACES], rank: usize, first: usize, held: &[u32; PLACES]) {
        if !self.is(PlaceStaysTaken) {
            places[rank] = self.put(None);
        }
        if self.is(FirstHolderBack) && rank > first {
            places[first] = held[first];
        }
    }

    /// Linking, with these numbers at the places.
    pub(super) fn consolidate_by_numbers(&self, queues: &mut Queues, heap: usize) -> u32 {
        let mut places = [FREE; PLACES];
        let written = PLACES - usize::from(self.is(LastPlaceNeverWritten));
        let mut trees = Vec::new();
        let mut links = 0;
        for mut tree in std::mem::take(&mut queues.rows[heap]) {
            let (held, first) = (places, tree.rank());
            let mut rank = first;
            while let Some(root) = self.holder(&places, rank, queues.capacity) {
                tree = link(tree_of(&mut trees, root), tree);
                self.leave(&mut places, rank, first, &held);
                links += 1;
                rank += 1;
            }
            if let Some(place) = places[..written].get_mut(rank) {
                *place = self.put(Some(tree.item));
                trees.push(tree);
            }
        }
        let roots = places.into_iter().filter_map(|number| self.found(number, queues.capacity));
        queues.rows[heap] = roots.map(|root| tree_of(&mut trees, root)).collect();
        links
    }
}

/// The tree with this root. If none has it, a fault has made the number: an item alone.
fn tree_of(trees: &mut Vec<Tree>, root: u32) -> Tree {
    match trees.iter().position(|tree| tree.item == root) {
        Some(at) => trees.swap_remove(at),
        None => Tree::single(root, 0),
    }
}
