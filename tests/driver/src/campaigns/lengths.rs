//! The lengths that 17 compares: of the list of joints, one word a place, and of the store, 40 words and eight a place.

use super::budgets;
use super::feeds::{self, expect, WORKED};
use crate::check::{BudgetCall, Checker, FeedCall, Verdict};
use crate::maps;
use std::ops::Range;

/// What a call is lent: how its length is set, and which is right.
struct Lent {
    name: &'static str,
    set: fn(&mut FeedCall, usize),
    right: fn(u32) -> usize,
    /// Places, and the lengths that are tried.
    tried: [(u32, Range<usize>); 5],
    /// Lengths that are wrong for three places.
    wrong: &'static [usize],
}

const JOINTS: Lent = Lent {
    name: "list of joints",
    set: |call, length| call.joints = length,
    right: |places| places as usize,
    tried: [(1, 0..3), (2, 0..4), (3, 0..6), (256, 254..259), (4096, 4094..4099)],
    wrong: &[0, 1, 2, 4, 5, 59],
};

/// For three places 56 words were right with four words a heap.
const STORE: Lent = Lent {
    name: "store",
    set: |call, length| call.words = length,
    right: |places| 40 + 8 * places as usize,
    tried: [(1, 0..70), (2, 0..80), (3, 0..90), (256, 2_070..2_100), (4096, 32_790..32_820)],
    wrong: &[0, 56, 63, 65, 72],
};

/// The faults of a call beside that of a length, in the order in which they are tested.
const OTHERS: [u32; 8] = [14, 15, 24, 16, 18, 19, 20, 23];
const OTHERS_WITHIN: [u32; 9] = [14, 15, 24, 16, 22, 18, 19, 20, 23];

/// The first of the faults that are tested before lengths of lists and store.
fn before_lengths(faults: &[u32]) -> Option<u32> {
    faults.iter().copied().find(|code| [14, 15, 24, 16].contains(code))
}

impl Lent {
    /// The lengths tried, on maps of few and of most places, with the code.
    fn lengths(&self) -> impl Iterator<Item = (FeedCall, u32)> + '_ {
        let tried = self.tried.iter().cloned();
        tried.flat_map(move |(places, lengths)| lengths.map(move |length| self.alone(places, length)))
    }

    fn alone(&self, places: u32, length: usize) -> (FeedCall, u32) {
        let mut call = maps::call(places, 0, &maps::chain(places, 7));
        (self.set)(&mut call, length);
        (call, if length == (self.right)(places) { 0 } else { 17 })
    }

    /// Wrong lengths beside every choice of other faults, with the code: 17 comes after 16 and before all that is tested
    /// later.
    fn wrong_lengths<const N: usize>(&self, others: [u32; N]) -> impl Iterator<Item = (BudgetCall, u32)> + '_ {
        let choices = (0..1 << N).map(move |bits| feeds::chosen(others, bits));
        choices.flat_map(move |chosen| {
            let code = before_lengths(&chosen).unwrap_or(17);
            let calls = move |&length| [0, 1, 2, 3].map(|way| (self.beside(length, &chosen, way), code));
            self.wrong.iter().flat_map(calls)
        })
    }

    /// A call on three places with this length, and with other faults.
    fn beside(&self, length: usize, others: &[u32], way: usize) -> BudgetCall {
        let mut call = budgets::call(&maps::call(3, 0, &WORKED), 11, way);
        (self.set)(&mut call.feed, length);
        others.iter().for_each(|&code| budgets::make_faulty(&mut call, code, way));
        call
    }

    fn full(&self, checker: &mut Checker) -> Verdict {
        for (call, code) in self.lengths() {
            expect(checker.feed(&call)?, code, &format!("length of the {}", self.name))?;
        }
        for (call, code) in self.wrong_lengths(OTHERS) {
            expect(checker.feed(&call.feed)?, code, &format!("length of the {} beside other faults", self.name))?;
        }
        Ok(())
    }

    fn within(&self, checker: &mut Checker) -> Verdict {
        for (feed, code) in self.lengths() {
            let told = checker.budget(&budgets::call(&feed, 9, 1))?.code;
            expect(told, code, &format!("length of the {}", self.name))?;
        }
        for (call, code) in self.wrong_lengths(OTHERS_WITHIN) {
            expect(checker.budget(&call)?.code, code, &format!("length of the {} beside other faults", self.name))?;
        }
        Ok(())
    }
}

pub fn joints(checker: &mut Checker) -> Verdict {
    JOINTS.full(checker)
}

pub fn joints_within(checker: &mut Checker) -> Verdict {
    JOINTS.within(checker)
}

pub fn store(checker: &mut Checker) -> Verdict {
    STORE.full(checker)
}

pub fn store_within(checker: &mut Checker) -> Verdict {
    STORE.within(checker)
}
