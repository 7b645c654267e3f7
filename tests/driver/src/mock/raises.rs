//! Faults in raises and in the amounts of heaps.

use super::Mock;
use super::Variant::*;
use crate::forest;
use reference::store::{self, Field, Order};
use reference::{text, Answer, Call, Queues, Tree};

/// The keys that the same words stand for under another amount.
fn set_amount(queues: &mut Queues, heap: usize, amount: u32) {
    let more = amount.wrapping_sub(queues.amounts[heap]);
    queues.rows[heap].iter_mut().for_each(|root| shift(root, more));
    queues.amounts[heap] = amount;
}

/// Adds to all keys of a tree, wrapping.
pub(super) fn shift(tree: &mut Tree, more: u32) {
    tree.key = tree.key.wrapping_add(more);
    tree.children.iter_mut().for_each(|child| shift(child, more));
}

fn saturate(tree: &mut Tree, by: u32) {
    tree.key = tree.key.saturating_add(by);
    tree.children.iter_mut().for_each(|child| saturate(child, by));
}

/// Whether a raise carries the key above the largest number.
fn passes(key: Option<u32>, by: u32) -> bool {
    key.is_some_and(|key| key.checked_add(by).is_none())
}

impl Mock {
    /// The call of a line that is none, read as a raise by fault.
    pub(super) fn misread_raise(&self, line: &[u8]) -> Option<Call> {
        let numbers = text::numbers(line.strip_prefix(b"A,")?);
        match (self.variant?, numbers.as_deref()) {
            (RaiseWithoutAmountAccepted, Some(&[heap])) => Some(Call::Raise { heap, by: 0 }),
            (RaiseWithThirdNumberAccepted, Some(&[heap, by, _])) => Some(Call::Raise { heap, by }),
            (RaiseWithoutHeapAccepted, None) => {
                Some(Call::Raise { heap: 0, by: text::number(line.strip_prefix(b"A,,")?)? })
            }
            _ => None,
        }
    }

    /// Whether the line would be a raise if numbers could be larger, and is refused under the code of a sum.
    pub(super) fn is_raise_by_too_much(&self, line: &[u8]) -> bool {
        let by = line.strip_prefix(b"A,0,").unwrap_or_default();
        self.is(NumberAboveTheLargestIs25) && by.len() == 10 && by.iter().all(u8::is_ascii_digit)
    }

    /// A raise of one of the eight heaps, refused or done.
    pub(super) fn raise(&self, queues: &mut Queues, heap: usize, by: u32) -> Answer {
        if self.is(RaiseOfEmptyHeapRefused) && queues.rows[heap].is_empty() {
            return Answer::refused(12);
        }
        if self.is(RaiseByNothingRefused) && by == 0 {
            return Answer::refused(6);
        }
        if self.refuses_raise(queues, heap, by) {
            if self.is(RefusedRaiseDone) {
                set_amount(queues, heap, queues.amounts[heap].wrapping_add(by));
            }
            return Answer::refused(25);
        }
        self.add(queues, heap, by);
        let mut answer = Answer::done(heap as u32, queues.count(heap) as u32, 0, 0);
        match self.variant {
            Some(RaiseCountedAsLink) => answer.links = 1,
            Some(RaiseCountedAsCut) => answer.cuts = 1,
            Some(RaiseLinksTheRow) => answer.links = queues.consolidate(heap),
            Some(RaiseAnswersWhatIsAdded) => answer.key = by,
            Some(RaiseAnswersTheAmount) => answer.key = queues.amounts[heap],
            Some(RaiseAnswersTrees) => answer.key = queues.rows[heap].len() as u32,
            Some(RaiseAnswersTheFirst) => {
                if let Some(root) = queues.minimum(heap).map(|root| &queues.rows[heap][root]) {
                    (answer.item, answer.key) = (root.item, root.key);
                }
            }
            _ => {}
        }
        answer
    }

    /// The test for 25.
    fn refuses_raise(&self, queues: &Queues, heap: usize, by: u32) -> bool {
        let row = &queues.rows[heap];
        let largest = |queues: &Queues| queues.largest_key(heap);
        match self.variant {
            Some(Never25 | RaiseSaturates) => false,
            Some(AtTheLargestSum25) => largest(queues).is_some_and(|key| u32::MAX - key <= by),
            Some(OneTooManyAccepted) => by > 0 && passes(largest(queues), by - 1),
            Some(OfTheFirstOnly25) => passes(queues.minimum(heap).map(|root| row[root].key), by),
            Some(OfRootsOnly25) => passes(row.iter().map(|root| root.key).max(), by),
            Some(OfTheLastTreeOnly25) => passes(row.last().map(|root| root.key), by),
            Some(ByWords25) => passes(largest(&forest::by_words(queues)), by),
            Some(ByTheAmount25) => !row.is_empty() && passes(Some(queues.amounts[heap]), by),
            Some(OfAnyHeap25) => (0..8).any(|heap| passes(queues.largest_key(heap), by)),
            Some(OfEmptyHeaps25) => passes(largest(queues).or(Some(u32::MAX)), by),
            Some(RaiseTestedByKind) => passes(largest_by_kind(queues, heap), by),
            _ => passes(largest(queues), by),
        }
    }

    fn add(&self, queues: &mut Queues, heap: usize, by: u32) {
        let amount = queues.amounts[heap];
        let raised = amount.wrapping_add(by);
        match self.variant {
            Some(RaiseSaturates) => {
                queues.rows[heap].iter_mut().for_each(|root| saturate(root, by));
                queues.amounts[heap] = raised;
            }
            Some(RaiseOfRootsOnly) => {
                queues.rows[heap].iter_mut().for_each(|root| root.key = root.key.wrapping_add(by))
            }
            Some(RaiseOfEveryHeap) => {
                (0..8).for_each(|heap| set_amount(queues, heap, queues.amounts[heap].wrapping_add(by)));
            }
            Some(RaiseReplacesTheAmount) => set_amount(queues, heap, by),
            Some(AmountCutTo16Bits) => set_amount(queues, heap, raised & 0xFFFF),
            Some(AmountCutTo31Bits) => set_amount(queues, heap, raised & 0x7FFF_FFFF),
            Some(AmountSaturates) => set_amount(queues, heap, amount.saturating_add(by)),
            Some(RaiseRewritesWords) => {
                set_amount(queues, heap, raised);
                queues.amounts[heap] = amount;
            }
            _ => set_amount(queues, heap, raised),
        }
    }

    /// A join of two heaps of the eight.
    pub(super) fn join(&self, queues: &mut Queues, into: usize, from: usize) -> Answer {
        let [a, b] = [into, from].map(|heap| queues.amounts[heap]);
        let (into_empty, from_empty) = (queues.rows[into].is_empty(), queues.rows[from].is_empty());
        let mut joined = std::mem::take(&mut queues.rows[from]);
        queues.amounts[from] = 0;
        let words_left = match self.variant {
            Some(JoinedWordsLeft) => true,
            Some(JoinedWordsLeftIfBothAreRaised) => a != 0 && b != 0,
            Some(JoinedWordsLeftInAnUnraisedHeap) => a == 0 && !into_empty,
            Some(JoinedWordsLeftInARaisedHeap) => a != 0,
            Some(JoinedWordsLeftInAnEmptyHeap) => into_empty,
            _ => false,
        };
        match self.variant {
            _ if words_left => joined.iter_mut().for_each(|root| shift(root, a.wrapping_sub(b))),
            Some(JoinedWordsTurnedRound) => {
                let twice = a.wrapping_sub(b).wrapping_mul(2);
                joined.iter_mut().for_each(|root| shift(root, twice));
            }
            Some(JoinedWordsOfRootsOnly) => {
                let children = joined.iter_mut().flat_map(|root| &mut root.children);
                children.for_each(|child| shift(child, a.wrapping_sub(b)));
            }
            Some(JoinTakesTheOtherAmount) if !from_empty => set_amount(queues, into, b),
            _ => {}
        }
        let (first, then) = match self.is(JoinedRowInFront) {
            true => (joined, std::mem::take(&mut queues.rows[into])),
            false => (std::mem::take(&mut queues.rows[into]), joined),
        };
        queues.rows[into] = [first, then].concat();
        match self.variant {
            Some(JoinRewritesToTheOtherAmount) if !from_empty => queues.amounts[into] = b,
            Some(JoinIntoEmptyTakesTheAmount) if into_empty && !from_empty => queues.amounts[into] = b,
            Some(JoinForgetsTheAmount) => queues.amounts[into] = 0,
            _ => {}
        }
        Answer::done(into as u32, queues.count(into) as u32, 0, 0)
    }

    /// Amounts of heaps that are empty after a call: 0, or by fault what they were before it, `before`, or have become.
    pub(super) fn settle_amounts(&self, queues: &mut Queues, call: Call, before: &Queues) {
        let keeps = |heap: usize| match call {
            Call::ExtractMin { .. } => self.is(AmountKeptAfterTaking),
            Call::Delete { .. } => self.is(AmountKeptAfterDeletion),
            Call::Meld { from, .. } => self.is(JoinedAmountLeft) && from as usize == heap,
            _ => false,
        };
        for heap in (0..8).filter(|&heap| queues.rows[heap].is_empty()) {
            queues.amounts[heap] = match call {
                Call::Raise { heap: raised, by } if self.is(EmptyHeapRaised) && raised as usize == heap => {
                    before.amounts[heap].wrapping_add(by)
                }
                // What a fault has left stays, until the heap is used and emptied again.
                _ if keeps(heap) || before.rows[heap].is_empty() => before.amounts[heap],
                _ => 0,
            };
        }
    }

    /// An insertion, lowering or any other call made by words where a fault has it so; `None` where there is none.
    pub(super) fn by_words(&self, queues: &mut Queues, call: Call) -> Option<Answer> {
        match (self.variant?, call) {
            (InsertionStoredWithoutAmount, Call::Insert { heap, item, key }) => {
                let stored = key.wrapping_add(queues.amounts[heap as usize]);
                queues.answer(Some(Call::Insert { heap, item, key: stored }));
                Some(Answer::done(item, key, 0, 0))
            }
            (LoweringStoredWithoutAmount, Call::DecreaseKey { item, key }) => {
                let stored = key.wrapping_add(queues.amounts[queues.locate(item)?.heap]);
                Some(Answer { key, ..lower_to(queues, item, stored) })
            }
            (ElevenByWord, Call::DecreaseKey { item, key }) => Some(lower_to(queues, item, key)),
            (OrderByWords, call) => Some(answer_in_words(queues, call)),
            (JoinRewritesByKind, Call::Meld { into, from }) => Some(join_by_kind(queues, into, from)),
            _ => None,
        }
    }

    /// The code of a call on which the faults in raises have no say; of a lowering, 11 by the word of the item if that is
    /// the fault.
    pub(super) fn refusal(&self, queues: &Queues, call: Call) -> u32 {
        match (call, queues.refusal(call)) {
            // Whether it is refused with 25, `raise` says.
            (Call::Raise { .. }, 25) => 0,
            (Call::Raise { .. }, 7) if self.is(RaiseOfNoHeapDone) => 0,
            (Call::DecreaseKey { item, key }, 0 | 11) if self.is(ElevenByWord) => {
                let position = queues.locate(item).expect("not refused with 10");
                let word = queues.node(&position).key.wrapping_sub(queues.amounts[position.heap]);
                if key > word {
                    11
                } else {
                    0
                }
            }
            (_, code) => code,
        }
    }

    /// Words in answers where keys should be. `before` is what the call was made on.
    pub(super) fn show_words(&self, before: &Queues, call: Call, answer: &mut Answer) {
        let amount_of = |item: u32| before.locate(item).map_or(0, |position| before.amounts[position.heap]);
        let amount = match (self.variant, call) {
            (Some(ShowingAnswersWord), Call::FindMin { heap }) => before.amounts[heap as usize],
            (Some(TakingAnswersWord), Call::ExtractMin { heap }) => before.amounts[heap as usize],
            (Some(InsertionAnswersWord), Call::Insert { heap, .. }) => before.amounts[heap as usize],
            (Some(DeletionAnswersWord), Call::Delete { item }) => amount_of(item),
            (Some(LoweringAnswersWord), Call::DecreaseKey { item, .. }) => amount_of(item),
            _ => 0,
        };
        answer.key = answer.key.wrapping_sub(amount);
    }
}

/// Where the key words of a heap's items were by kind.
fn key_places_by_kind(queues: &Queues, heap: usize) -> Vec<usize> {
    let of_heap = forest::nodes_by_heap(queues).filter(|&(other, _)| other == heap);
    of_heap.map(|(_, node)| Order::ByKind.index(queues.capacity as usize, Field::Key, node.item)).collect()
}

/// The largest key of a heap, if key words are looked for where they were by kind.
fn largest_by_kind(queues: &Queues, heap: usize) -> Option<u32> {
    let words = store::encode(queues);
    let keys = key_places_by_kind(queues, heap).into_iter().map(|at| words[at].wrapping_add(queues.amounts[heap]));
    keys.max()
}

/// A join that rewrites words where the joined key words were by kind. Words that then lead to no forests stay.
fn join_by_kind(queues: &mut Queues, into: u32, from: u32) -> Answer {
    let [a, b] = [into, from].map(|heap| queues.amounts[heap as usize]);
    let rewritten = key_places_by_kind(queues, from as usize);
    queues.rows[from as usize].iter_mut().for_each(|root| shift(root, a.wrapping_sub(b)));
    let answer = queues.answer(Some(Call::Meld { into, from }));
    let mut words = store::encode(queues);
    rewritten.into_iter().for_each(|at| words[at] = words[at].wrapping_add(b.wrapping_sub(a)));
    *queues = store::decode(&words).unwrap_or(queues.clone());
    answer
}

/// Gives an item any key, larger ones too, and cuts it if it then comes before its parent.
fn lower_to(queues: &mut Queues, item: u32, key: u32) -> Answer {
    let position = queues.locate(item).expect("not refused");
    queues.node_mut(&position).key = key;
    queues.answer(Some(Call::DecreaseKey { item, key }))
}

/// Makes a call on forests whose keys are the words, so that words are compared, and turns the answer back.
fn answer_in_words(queues: &mut Queues, call: Call) -> Answer {
    let amounts = queues.amounts;
    let amount_of = |item: u32| queues.locate(item).map_or(0, |position| amounts[position.heap]);
    let (in_words, amount) = match call {
        Call::Insert { heap, item, key } => {
            let amount = amounts[heap as usize];
            (Call::Insert { heap, item, key: key.wrapping_sub(amount) }, amount)
        }
        Call::DecreaseKey { item, key } => {
            let amount = amount_of(item);
            (Call::DecreaseKey { item, key: key.wrapping_sub(amount) }, amount)
        }
        Call::FindMin { heap } | Call::ExtractMin { heap } => (call, amounts[heap as usize]),
        Call::Delete { item } => (call, amount_of(item)),
        Call::Meld { .. } | Call::Raise { .. } => return queues.answer(Some(call)),
    };
    let mut words = forest::by_words(queues);
    let mut answer = words.answer(Some(in_words));
    (0..8).for_each(|heap| set_amount(&mut words, heap, amounts[heap]));
    *queues = words;
    if answer.code == 0 {
        answer.key = answer.key.wrapping_add(amount);
    }
    answer
}
