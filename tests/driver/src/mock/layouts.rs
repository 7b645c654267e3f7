//! Faults in where the words of a store lie, and in how many they are.

use super::Mock;
use super::Variant::{self, *};
use reference::feed::{self, Asked, Lent};
use reference::store::{self, heap_index, index, Field, HeapField, Order};
use reference::store::{FIELDS, HEAP_WORDS, WORDS_AN_ITEM, WORDS_A_HEAP};
use reference::HEAPS;

/// The codes that come before that of a length.
const EARLIER: [u32; 4] = [14, 15, 24, 16];

/// Faults in where a word lies.
const MISPLACED: [Variant; 5] =
    [AmountIsTheFirstWord, AmountsAfterAllHeaps, StateIsTheFirstWord, NextAndPreviousExchanged, HeapWordsLast];

/// When the words of a store are read or left.
#[derive(Clone, Copy, PartialEq, Eq)]
pub(super) enum Moment {
    Checked,
    Kept,
    LeftFresh,
    LeftKept,
    Turned,
    Fed,
}

impl Moment {
    fn reads(self) -> bool {
        matches!(self, Moment::Checked | Moment::Kept)
    }
}

/// The places of every word of an item, in the new order and in the old one.
pub(super) fn item_places(length: usize) -> impl Iterator<Item = (usize, usize)> {
    let items = length.saturating_sub(HEAP_WORDS) / WORDS_AN_ITEM;
    let of_word = move |item, field| (index(items, field, item), Order::ByKind.index(items, field, item));
    (0..items as u32).flat_map(move |item| FIELDS.map(|field| of_word(item, field)))
}

/// The words of an old store at their places in the new order. Words beyond the last item stay.
pub(super) fn by_item(old: &[u32]) -> Vec<u32> {
    let mut words = old.to_vec();
    item_places(old.len()).for_each(|(by_item, by_kind)| words[by_item] = old[by_kind]);
    words
}

/// The way back.
pub(super) fn by_kind(new: &[u32]) -> Vec<u32> {
    let mut words = new.to_vec();
    item_places(new.len()).for_each(|(by_item, by_kind)| words[by_kind] = new[by_item]);
    words
}

impl Mock {
    /// Puts the words of a store from their right places to where a fault has them or, where they are read, back.
    pub(super) fn lay_out(&self, words: &mut [u32], moment: Moment) {
        match self.variant {
            Some(AmountSubtracted) => add_amounts_twice(words, moment.reads()),
            Some(fault) if MISPLACED.contains(&fault) => self.misplace(words, moment.reads()),
            _ if self.lie_by_kind(moment) => {
                let laid_out = if moment.reads() { by_item(words) } else { by_kind(words) };
                words.copy_from_slice(&laid_out);
            }
            _ => {}
        }
    }

    /// Whether the words of items lie by kind then, by fault.
    fn lie_by_kind(&self, moment: Moment) -> bool {
        match self.variant {
            Some(WordsByKind) => true,
            Some(FreshRunLeavesWordsByKind) => moment == Moment::LeftFresh,
            Some(KeptRunLeavesWordsByKind) => moment == Moment::LeftKept,
            Some(KeptRunReadsWordsByKind) => moment == Moment::Kept,
            Some(StoreSoundByKind) => moment == Moment::Checked,
            _ => false,
        }
    }

    fn misplace(&self, words: &mut [u32], back: bool) {
        let before = words.to_vec();
        for at in 0..before.len() {
            let other = self.place(before.len(), at);
            let (to, from) = if back { (at, other) } else { (other, at) };
            words[to] = before[from];
        }
    }

    /// Where a fault has the word that should be at a place.
    fn place(&self, length: usize, at: usize) -> usize {
        let Some(beyond) = at.checked_sub(HEAP_WORDS) else { return self.heap_place(length, at) };
        let (first, word) = (HEAP_WORDS + beyond / WORDS_AN_ITEM * WORDS_AN_ITEM, beyond % WORDS_AN_ITEM);
        let [next, previous] = [Field::Next, Field::Previous].map(|field| field as usize);
        match self.variant {
            Some(StateIsTheFirstWord) => first + (word + 1) % WORDS_AN_ITEM,
            Some(NextAndPreviousExchanged) if word == next => first + previous,
            Some(NextAndPreviousExchanged) if word == previous => first + next,
            Some(HeapWordsLast) => beyond,
            _ => at,
        }
    }

    /// The same for the word of a heap.
    fn heap_place(&self, length: usize, at: usize) -> usize {
        let (heap, word) = (at / WORDS_A_HEAP, at % WORDS_A_HEAP);
        match self.variant {
            Some(AmountIsTheFirstWord) => WORDS_A_HEAP * heap + (word + 1) % WORDS_A_HEAP,
            Some(AmountsAfterAllHeaps) if word == HeapField::Amount as usize => 4 * HEAPS + heap,
            Some(AmountsAfterAllHeaps) => 4 * heap + word,
            Some(HeapWordsLast) => length - HEAP_WORDS + at,
            _ => at,
        }
    }

    /// The code of a feed call, with faults in the test of the store's length.
    pub(super) fn store_code(&self, code: u32, asked: Asked, lent: &Lent, listed: Option<usize>) -> u32 {
        let (length, right) = (lent.words.len(), store::length(asked.places.min(5_000) as usize));
        let others = || code_of_others(asked, lent, listed);
        match (self.variant, code) {
            (_, code) if EARLIER.contains(&code) => code,
            (Some(FeedStoreOf32Words), _) if length == right => 17,
            (Some(FeedStoreOf32Words | FeedStoreOf32WordsToo), 17) if length + 8 == right => others(),
            (Some(LongerFeedStoreAccepted), 17) if length > right => others(),
            (Some(StoreTestedAfterSpans), 17) if length != right && others() != 0 => others(),
            _ => code,
        }
    }
}

/// The code of the call with a store of the right length.
fn code_of_others(asked: Asked, lent: &Lent, listed: Option<usize>) -> u32 {
    let right = store::length(asked.places as usize);
    let lengths = [lent.best.len(), lent.last.len(), lent.joints.len(), right];
    let [best, last, joints, words] = &mut lengths.map(|length| vec![0; length]);
    feed::refusal(asked, &Lent { best, last, joints, words }, listed)
}

/// From words that are keys less the amount to words that are keys and the amount, or back.
fn add_amounts_twice(words: &mut [u32], back: bool) {
    let items = store::items(words.len()).expect("a store");
    for item in 0..items as u32 {
        let state = words[index(items, Field::State, item)];
        let heap = (state.wrapping_sub(1) / 2) as usize;
        if heap < HEAPS {
            let twice = words[heap_index(HeapField::Amount, heap)].wrapping_mul(2);
            let word = &mut words[index(items, Field::Key, item)];
            *word = if back { word.wrapping_sub(twice) } else { word.wrapping_add(twice) };
        }
    }
}
