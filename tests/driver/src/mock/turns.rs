//! Faults in the turn of a store from the old order of words into the new one.

use super::layouts::{by_item, by_kind, item_places, Moment};
use super::Mock;
use super::Variant::*;
use reference::store::{self, heap_index, index, Field, HeapField, Order};
use reference::store::{FIELDS, HEAP_WORDS, MAX_ITEMS, WORDS_AN_ITEM, WORDS_A_HEAP};
use reference::{HEAPS, NONE};

/// What a place of a store holds.
enum Held {
    Heap { word: usize },
    Item { item: u32, field: Field },
}

fn held(at: usize) -> Held {
    match at.checked_sub(HEAP_WORDS) {
        None => Held::Heap { word: at % WORDS_A_HEAP },
        Some(beyond) => Held::Item { item: (beyond / WORDS_AN_ITEM) as u32, field: FIELDS[beyond % WORDS_AN_ITEM] },
    }
}

const AMOUNT: usize = HeapField::Amount as usize;

/// The items that so many words have room for.
fn items_of(length: usize) -> usize {
    length.saturating_sub(HEAP_WORDS) / WORDS_AN_ITEM
}

impl Mock {
    pub(super) fn faulty_turn(&self, old: &mut [u32], turned: &mut [u32]) -> u32 {
        let code = self.turn_code(old, turned);
        if code != 0 {
            self.touch_refused(code, old, turned);
            return code;
        }
        let words = self.words_to_write(old);
        for (at, &word) in words.iter().enumerate().take(turned.len()) {
            if !self.leaves(&words, at) {
                turned[self.cut_place(at)] = self.other_word(&words, at, word);
            }
        }
        match self.variant {
            Some(OldStoreEmptiedWhenTurned) => old.copy_from_slice(&store::empty(items_of(old.len()))),
            Some(OldStoreTurnedToo) => old.copy_from_slice(turned),
            _ => {}
        }
        0
    }

    /// The code, with faults in the order of the tests.
    fn turn_code(&self, old: &[u32], turned: &[u32]) -> u32 {
        let lengths = self.lengths_code(old.len(), turned.len());
        let is_store = store::items(old.len()).is_some();
        match self.variant {
            Some(SoundnessTestedBeforeLengths) if is_store && !self.accepts_old(old, turned) => 5,
            _ if lengths != 0 => lengths,
            _ if self.accepts_old(old, turned) => 0,
            Some(UnsoundStoreGets1) => 1,
            _ => 5,
        }
    }

    /// 0 where the lengths are right, or taken for right by fault.
    fn lengths_code(&self, old: usize, turned: usize) -> u32 {
        let items = store::items(old);
        let is_store = match self.variant {
            Some(OddLengthTurned) => (HEAP_WORDS..=store::length(MAX_ITEMS)).contains(&old),
            Some(StoreOf4097ItemsTurned) => items.is_some() || old == store::length(MAX_ITEMS + 1),
            Some(StoreOf4096ItemsNotTurned) => items.is_some_and(|items| items < MAX_ITEMS),
            Some(StoreOfNoItemsNotTurned) => items.is_some_and(|items| items > 0),
            _ => items.is_some(),
        };
        let fits = match self.variant {
            Some(LongerSecondBufferAccepted) => turned >= old,
            Some(ShorterSecondBufferAccepted) => turned <= old,
            Some(LengthsComparedIn16Bits) => turned % 65_536 == old % 65_536,
            _ => turned == old,
        };
        match self.variant {
            _ if is_store && fits => 0,
            Some(WrongLengthGets5) if !is_store => 5,
            Some(UnequalLengthsGet5) if is_store => 5,
            _ => 1,
        }
    }

    /// The check of the old store, and what is done in its place.
    fn accepts_old(&self, old: &[u32], turned: &[u32]) -> bool {
        // Without the words that are too few for one item more, where a fault takes an odd length.
        let whole = &old[..store::length(items_of(old.len())).min(old.len())];
        let sound_by_kind = || self.accepts(&by_item(whole)).is_some();
        match self.variant {
            Some(UnsoundStoreTurned) => true,
            Some(StoreOf4097ItemsTurned) if old.len() > store::length(MAX_ITEMS) => true,
            Some(OldStoreCheckedByItem) => self.accepts(whole).is_some(),
            Some(EitherOrderTurned) => self.accepts(whole).is_some() || sound_by_kind(),
            Some(SecondBufferChecked) => self.accepts(turned).is_some(),
            _ => sound_by_kind(),
        }
    }

    /// The words of the turned store, with faults in where they come from and go to.
    fn words_to_write(&self, old: &[u32]) -> Vec<u32> {
        let mut words = by_item(old);
        match self.variant {
            Some(TurnedBack) => words = by_kind(old),
            Some(TurnedTwice) => words = by_item(&words),
            Some(TurnedInPlace) => {
                words.copy_from_slice(old);
                item_places(old.len()).for_each(|(to, from)| words[to] = words[from]);
            }
            Some(EitherOrderTurned) if Order::ByKind.sound(old).is_none() => words = old.to_vec(),
            // As if heaps had four words: the last eight of theirs are taken for those of an item more.
            Some(ItemsTurnedFromWord32) => words = by_item(&[&[0; HEAPS][..], old].concat())[HEAPS..].to_vec(),
            _ if store::items(old.len()).is_some() => self.lay_out(&mut words, Moment::Turned),
            _ => {}
        }
        words
    }

    /// Whether a fault leaves what the second buffer had at a place.
    fn leaves(&self, words: &[u32], at: usize) -> bool {
        let items = items_of(words.len());
        match (self.variant, held(at)) {
            (Some(HeapWordsNotTurned), Held::Heap { .. }) => true,
            (Some(AmountsNotTurned), Held::Heap { word: AMOUNT }) => true,
            (Some(LastItemNotTurned), Held::Item { item, .. }) => item as usize + 1 == items,
            (Some(StatesNotTurned), Held::Item { field: Field::State, .. }) => true,
            (Some(FreeItemsNotTurned), Held::Item { item, .. }) => words[index(items, Field::State, item)] == 0,
            (Some(ZeroWordsNotTurned), _) => words[at] == 0,
            _ => false,
        }
    }

    /// Where a word is written.
    fn cut_place(&self, at: usize) -> usize {
        match (self.variant, held(at)) {
            (Some(TurnedItemCutTo8Bits), Held::Item { item, .. }) => at - (item as usize & !255) * WORDS_AN_ITEM,
            (Some(TurnedPlaceCutTo15Bits), _) => at % 32_768,
            _ => at,
        }
    }

    /// The word that is written for the right one.
    fn other_word(&self, words: &[u32], at: usize, right: u32) -> u32 {
        let items = items_of(words.len());
        let amount_of = |item: u32| {
            let heap = (words[index(items, Field::State, item)].wrapping_sub(1) / 2) as usize;
            words.get(heap_index(HeapField::Amount, heap)).filter(|_| heap < HEAPS).map_or(0, |&amount| amount)
        };
        match (self.variant, held(at)) {
            (Some(AmountsTurnedToZero | AmountsTurnedIntoKeyWords), Held::Heap { word: AMOUNT }) => 0,
            (Some(KeysTurnedForKeyWords | AmountsTurnedIntoKeyWords), Held::Item { item, field: Field::Key }) => {
                right.wrapping_add(amount_of(item))
            }
            (Some(MarksNotTurned), Held::Item { field: Field::State, .. }) if right > 0 => (right - 1) / 2 * 2 + 1,
            (Some(NoneTurnedIn16Bits), Held::Item { .. }) if right == NONE => 65_535,
            _ => right,
        }
    }

    /// Faults in what a refused turn leaves.
    fn touch_refused(&self, code: u32, old: &mut [u32], turned: &mut [u32]) {
        match (self.variant, code) {
            (Some(TurnedBeforeTheCheck), 5) => turned.copy_from_slice(&by_item(old)),
            (Some(HeapWordsTurnedBeforeTheCheck), 5) => turned[..HEAP_WORDS].copy_from_slice(&old[..HEAP_WORDS]),
            (Some(SecondBufferEmptiedOnRefusal), 5) => turned.copy_from_slice(&store::empty(items_of(old.len()))),
            (Some(SecondBufferZeroedOnRefusal), _) => turned.fill(0),
            (Some(OldStoreZeroedOnRefusal), _) => old.fill(0),
            _ => {}
        }
    }
}
