//! Faults in which chain the table shows where losses are equal, in the list of joints, and in the test of its length.

use super::search::{Entry, Within};
use super::Mock;
use super::Variant::{self, *};
use reference::feed::{self, Asked, Lent};
use reference::NONE;
use std::cmp::Ordering;

/// Faults in the entry that is chosen for a place.
const CHOICES: [Variant; 12] = [
    FirstSpanFound,
    LowestSpanOfEqualLoss,
    LowestSpanWithFewestJoints,
    LongerChainPreferred,
    HighestSpanOfEqualChains,
    FirstSpanOfEqualChains,
    LastSpanOfEqualChains,
    JointsLeftOnTies,
    SpanLeftOnTies,
    JointsLeftOnLowering,
    FewestJointsOfAnyOffer,
    ClosedSpansInTies,
];

/// A key that holds joints beside the loss has room for so many.
const JOINTS_OF_A_KEY: u32 = 4_096;

/// The three lists of a table.
pub(super) struct Table<'a> {
    pub(super) best: &'a mut [u32],
    pub(super) last: &'a mut [u32],
    pub(super) joints: &'a mut [u32],
}

impl Table<'_> {
    /// Shows other entries at the places that have one.
    fn show(&mut self, entries: &[Entry]) {
        for (place, entry) in entries.iter().enumerate() {
            if self.best[place] != NONE {
                (self.best[place], self.last[place], self.joints[place]) = (entry.loss, entry.span, entry.hops);
            }
        }
    }
}

impl Mock {
    /// The entry of a place after an offer.
    pub(super) fn chosen(&self, known: Entry, offered: Entry) -> Entry {
        match (offered.loss.cmp(&known.loss), self.variant) {
            (Ordering::Less, Some(JointsLeftOnLowering)) if known.loss != NONE => Entry { hops: known.hops, ..offered },
            (Ordering::Less, Some(FewestJointsOfAnyOffer)) => Entry { hops: offered.hops.min(known.hops), ..offered },
            (Ordering::Less, _) => offered,
            (Ordering::Equal, _) => self.chosen_on_tie(known, offered),
            (Ordering::Greater, _) => known,
        }
    }

    fn chosen_on_tie(&self, known: Entry, offered: Entry) -> Entry {
        let right = if (offered.hops, offered.span) < (known.hops, known.span) { offered } else { known };
        let lowest = if offered.span < known.span { offered } else { known };
        let equal = offered.hops == known.hops;
        match self.variant {
            Some(FirstSpanFound) => known,
            Some(LowestSpanOfEqualLoss) => lowest,
            Some(LowestSpanWithFewestJoints) => Entry { hops: right.hops, ..lowest },
            Some(LongerChainPreferred) if offered.hops > known.hops => offered,
            Some(LongerChainPreferred) if offered.hops < known.hops => known,
            Some(HighestSpanOfEqualChains) if equal && offered.span > known.span => offered,
            Some(HighestSpanOfEqualChains | FirstSpanOfEqualChains) if equal => known,
            Some(LastSpanOfEqualChains) if equal => offered,
            Some(JointsLeftOnTies) => Entry { hops: known.hops, ..right },
            Some(SpanLeftOnTies) => Entry { span: known.span, ..right },
            _ => right,
        }
    }

    /// The key by which a place waits.
    pub(super) fn key(&self, entry: Entry) -> u32 {
        match self.is(JointsInTheKey) {
            true => entry.loss * JOINTS_OF_A_KEY + entry.hops,
            false => entry.loss,
        }
    }

    /// Whether the queue calls of a search show a fault. Joints are in the key only where there is room beside every loss
    /// that is offered.
    fn makes_other_calls(&self, asked: Asked, best: &[u32]) -> bool {
        let largest = |losses: &[u32]| losses.iter().copied().filter(|&loss| loss != NONE).max().unwrap_or(0);
        let offered = u64::from(largest(best)) + u64::from(largest(asked.spans.loss));
        self.is(TiePutInAnew) || self.is(JointsInTheKey) && offered < u64::from(NONE / JOINTS_OF_A_KEY)
    }

    /// Faults in the entries and in the counts of a call that is done.
    pub(super) fn spoil_joints(&self, within: Within, mut table: Table, figures: &mut [u32]) {
        match self.variant {
            Some(choice) if CHOICES.contains(&choice) => {
                table.show(&self.search(Within { budget: NONE, ..within }).entries)
            }
            Some(FewerJointsBeforeSmallerLoss) => table.show(&by_fewest_spans(within.asked)),
            Some(SpansAndJointsExchanged) => table.last.swap_with_slice(table.joints),
            Some(TieCountedAsCut) => figures[1] += self.search(within).ties,
            Some(TieCountedAsExamined) => figures[2] += self.search(within).ties,
            _ if self.makes_other_calls(within.asked, table.best) => {
                let search = self.search(within);
                (figures[0], figures[1]) = (search.links, search.cuts);
            }
            _ => self.spoil_numbers(within.asked.start, table),
        }
    }

    fn spoil_numbers(&self, start: u32, table: Table) {
        for (place, word) in table.joints.iter_mut().enumerate() {
            let is_start = place == start as usize;
            *word = match (self.variant, *word) {
                (Some(UnreachedJointsZero), NONE) => 0,
                (_, NONE) => NONE,
                (Some(JointsOneMore), hops) => hops + 1,
                (Some(JointsOneMoreButAtTheStart), hops) if !is_start => hops + 1,
                (Some(InnerJointsCounted), hops) => hops.saturating_sub(1),
                (Some(JointsAlwaysOne), hops) => hops.min(1),
                (Some(StartJointsNone), _) if is_start => NONE,
                (Some(StartJointsOne), _) if is_start => 1,
                (Some(JointsCutTo8Bits), hops) => hops % 256,
                (Some(JointsCutTo11Bits), hops) => hops % 2_048,
                (_, hops) => hops,
            };
        }
    }

    /// Faults in what a refused call leaves in the list of joints.
    pub(super) fn touch_joints(&self, code: u32, joints: &mut [u32]) {
        let before_spans = self.is(JointsFilledBeforeSpans) && [18, 19, 20, 23].contains(&code);
        if before_spans || self.is(JointsTouchedOnRefusal) {
            joints.fill(NONE);
        }
    }

    /// The code of a call, given the one without this fault, where the list of joints is tested by fault at another place
    /// or in another way. `listed` is the length of the place list, where one is lent.
    pub(super) fn joints_code(&self, code: u32, asked: Asked, lent: &Lent, listed: Option<usize>) -> u32 {
        let (length, places) = (lent.joints.len(), asked.places as usize);
        let others = || code_of_others(asked, lent, listed);
        match (self.variant, code) {
            _ if length == places => code,
            (Some(JointListTestedFirst), _) => 17,
            (Some(JointListTestedBeforeSpanLists), 16) => 17,
            (Some(JointListNotTested), 17) => others(),
            (Some(LongerJointListAccepted), 17) if length > places => others(),
            (Some(ShorterJointListAccepted), 17) if length < places => others(),
            (Some(JointListTestedAfterPlaceList), 17) if others() == 22 => 22,
            (Some(JointListTestedAfterSpans), 17) if others() != 0 => others(),
            _ => code,
        }
    }
}

/// The code of the call with a list of joints of the right length.
fn code_of_others(asked: Asked, lent: &Lent, listed: Option<usize>) -> u32 {
    let lengths = [lent.best.len(), lent.last.len(), asked.places as usize, lent.words.len()];
    let [best, last, joints, words] = &mut lengths.map(|length| vec![0; length]);
    feed::refusal(asked, &Lent { best, last, joints, words }, listed)
}

/// The table of an order in which the number of spans comes before the loss.
fn by_fewest_spans(asked: Asked) -> Vec<Entry> {
    let Asked { places, start, spans, .. } = asked;
    let order = |entry: Entry| (entry.hops, entry.loss, entry.span);
    let mut entries = vec![Entry::NOTHING; places as usize];
    entries[start as usize] = Entry { loss: 0, hops: 0, span: NONE };
    loop {
        let mut changed = false;
        for span in (0..spans.from.len()).filter(|&span| asked.is_usable(span)) {
            let (here, there) = (entries[spans.from[span] as usize], &mut entries[spans.to[span] as usize]);
            if here.loss == NONE {
                continue;
            }
            let offered = Entry { loss: here.loss + spans.loss[span], hops: here.hops + 1, span: span as u32 };
            if order(offered) < order(*there) {
                *there = offered;
                changed = true;
            }
        }
        if !changed {
            return entries;
        }
    }
}
