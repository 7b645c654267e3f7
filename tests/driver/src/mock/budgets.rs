//! Faults in feed calls with a budget.

use super::joints::Table;
use super::layouts::Moment;
use super::search::{Entry, Within};
use super::Mock;
use super::Variant::*;
use crate::engine::{BudgetLists, Engine, Faithful, FeedLists};
use reference::feed::{self, Asked, Lent};
use reference::store::{self, heap_index, HeapField};
use reference::NONE;
use std::cmp::Reverse;

impl Mock {
    pub(super) fn faulty_budget(&self, asked: Asked, budget: u32, lists: BudgetLists, figures: &mut [u32; 4]) -> u32 {
        let BudgetLists { best, last, joints, listed, store } = lists;
        let code = self.budget_code(asked, &Lent { best, last, joints, words: store }, listed.len());
        if code != 0 {
            if self.is(BudgetTouchesListOnRefusal) {
                listed.fill(NONE);
            }
            self.touch_joints(code, joints);
            if !self.is(BudgetFiguresLeftOnRefusal) {
                *figures = [0; 4];
            }
            return code;
        }
        let windows = self.windows_used(asked);
        let within = Within { asked: windows.of(asked), budget };
        let within = Within { budget: self.budget_used(within), ..within };
        let mut lists = BudgetLists { best, last, joints, listed, store };
        if self.find_within(within, &mut lists, figures) != 0 {
            // Accepted by fault: the code is wrong, whatever the table.
            return 0;
        }
        self.spoil_list(within, &mut lists, figures);
        self.spoil_entries(within, &mut lists);
        self.spoil_counts(within, figures);
        let BudgetLists { best, last, joints, .. } = lists;
        self.spoil_closed(asked, best, last);
        figures[2] = self.examined(Within { asked, ..within }, best, figures[2]);
        let mut table = Table { best, last, joints };
        self.spoil_work(within, &mut table, figures);
        self.spoil_joints(within, table, figures);
        0
    }

    /// The right call, with a place list that is long enough also where the fault is to accept a short one.
    fn find_within(&self, within: Within, lists: &mut BudgetLists, figures: &mut [u32; 4]) -> u32 {
        let BudgetLists { best, last, joints, listed, store } = lists;
        let mut room = listed.to_vec();
        room.resize(room.len().max(within.asked.places as usize), 0);
        let lent = BudgetLists { best, last, joints, listed: &mut room, store };
        let code = Faithful.feed_budget(within.asked, within.budget, lent, figures);
        listed.copy_from_slice(&room[..listed.len()]);
        code
    }

    /// The code, with faults in the test of the place list and in those of windows.
    fn budget_code(&self, asked: Asked, lent: &Lent, listed: usize) -> u32 {
        let code = self.joints_code(self.windows_code(asked, lent, Some(listed)), asked, lent, Some(listed));
        let code = self.store_code(code, asked, lent, Some(listed));
        let per_place = asked.places as usize;
        let without_list = || feed::refusal(asked, lent, None);
        match self.variant {
            Some(PlaceListTestedAfterSpans) if code == 22 && without_list() != 0 => without_list(),
            Some(PlaceListNotTested) => without_list(),
            Some(PlaceListTestedBeforeLists) if code == 17 && listed < per_place => 22,
            Some(LongerPlaceListRefused) if ![14, 15, 24, 16, 17].contains(&code) && listed > per_place => 22,
            _ => code,
        }
    }

    fn budget_used(&self, within: Within) -> u32 {
        match self.variant {
            Some(PlaceAtTheBudgetLeftOut) => within.budget.saturating_sub(1),
            Some(PlaceBeyondTheBudgetListed) => {
                self.search(within).first_waiting().map_or(within.budget, |(_, loss)| loss)
            }
            _ => within.budget,
        }
    }

    /// Faults in the place list and in the number of its places.
    fn spoil_list(&self, within: Within, lists: &mut BudgetLists, figures: &mut [u32; 4]) {
        let BudgetLists { best, joints, listed, .. } = lists;
        let (number, places) = (figures[3] as usize, within.asked.places);
        let loss = |place: &u32| best[*place as usize];
        match self.variant {
            Some(ListByPlace) => listed[..number].sort(),
            Some(ListByDescendingPlaceOnTies) => {
                listed[..number].sort_by_key(|place| (loss(place), Reverse(*place)));
            }
            Some(ListByJointsOnTies) => {
                listed[..number].sort_by_key(|place| (loss(place), joints[*place as usize], *place));
            }
            Some(ListedOneTooMany) => figures[3] += 1,
            Some(UnreachedPlacesListed) if within.budget == NONE => {
                let unreached = (0..places).filter(|place| loss(place) == NONE);
                listed[number..].iter_mut().zip(unreached).for_each(|(word, place)| *word = place);
                figures[3] = places;
            }
            Some(FirstWaitingPlaceInTheList) => {
                if let Some((first, _)) = self.search(within).first_waiting() {
                    listed[number] = first;
                }
            }
            Some(ListFilledWithNone) => listed[number..].fill(NONE),
            Some(LongerListFilled) => listed[places as usize..].fill(NONE),
            _ => {}
        }
    }

    /// Faults in the table and in the store: what still waits is left there.
    fn spoil_entries(&self, within: Within, lists: &mut BudgetLists) {
        let waiting = || self.search(within);
        let show = |list: &mut [u32], entries: &[Entry], shown: fn(&Entry) -> u32| {
            list.iter_mut().zip(entries).for_each(|(word, entry)| *word = shown(entry));
        };
        match self.variant {
            Some(WaitingLossesShown) => show(lists.best, &waiting().entries, |entry| entry.loss),
            Some(WaitingSpansShown) => show(lists.last, &waiting().entries, |entry| entry.span),
            Some(WaitingJointsShown) => show(lists.joints, &waiting().entries, |entry| entry.hops),
            Some(JointsBeyondTheBudgetShown) => {
                show(lists.joints, &self.search(Within { budget: NONE, ..within }).entries, |entry| entry.hops)
            }
            Some(WaitingPlacesLeftInStore) => lists.store.copy_from_slice(&store::encode(&waiting().queues)),
            Some(FeedLeavesAnAmount) => lists.store[heap_index(HeapField::Amount, 0)] = 1,
            Some(HeapWordsLast) => self.lay_out(lists.store, Moment::Fed),
            _ => {}
        }
    }

    /// Faults in the calls that are counted.
    fn spoil_counts(&self, within: Within, figures: &mut [u32; 4]) {
        match self.variant {
            Some(SearchNotStopped) => figures[..3].copy_from_slice(&full_figures(within.asked)),
            Some(StoppingTakingCounted) => figures[0] += self.search(within).take(1),
            Some(EmptyingCounted) => figures[0] += self.search(within).take(usize::MAX),
            Some(OffersBeyondPruned) => {
                let pruned = self.search(within);
                (figures[0], figures[1]) = (pruned.links, pruned.cuts);
            }
            _ => {}
        }
    }
}

fn full_figures(asked: Asked) -> [u32; 3] {
    let places = asked.places as usize;
    let mut figures = [0; 3];
    let [best, last, joints, store] =
        &mut [places, places, places, store::length(places)].map(|length| vec![0; length]);
    Faithful.feed_table(asked, FeedLists { best, last, joints, store }, &mut figures);
    figures
}
