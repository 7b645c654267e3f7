//! Faults in feed calls.

use super::joints::Table;
use super::layouts::Moment;
use super::search::Within;
use super::Mock;
use super::Variant::*;
use crate::engine::{Engine, Faithful, FeedLists};
use reference::feed::{Asked, Lent, Spans};
use reference::store::{self, heap_index, HeapField};
use reference::{Call, Queues, NONE};

impl Mock {
    pub(super) fn faulty_table(&self, asked: Asked, lists: FeedLists, figures: &mut [u32; 3]) -> u32 {
        let repaired: Vec<u32> = asked.spans.loss.iter().map(|&loss| loss.max(1)).collect();
        let loss = if self.is(ZeroLossAccepted) { &repaired } else { asked.spans.loss };
        let asked = Asked { spans: Spans { loss, ..asked.spans }, ..asked };
        let FeedLists { best, last, joints, store } = lists;
        let code = self.table_code(asked, &Lent { best, last, joints, words: store });
        if code != 0 {
            if self.is(FeedListsTouchedOnRefusal) {
                best.fill(NONE);
            }
            self.touch_joints(code, joints);
            *figures = [0; 3];
            return code;
        }
        let found = store.to_vec();
        let windows = self.windows_used(asked);
        let used = windows.of(asked);
        let mut lists = FeedLists { best, last, joints, store };
        if Faithful.feed_table(used, lists.again(), figures) != 0 {
            // Accepted by fault: the code is wrong, whatever the table.
            return 0;
        }
        self.spoil_table(used, lists.again(), figures, &found);
        let FeedLists { best, last, joints, .. } = lists;
        self.spoil_closed(asked, best, last);
        figures[2] = self.examined(Within { asked, budget: NONE }, best, figures[2]);
        let (within, mut table) = (Within { asked: used, budget: NONE }, Table { best, last, joints });
        self.spoil_work(within, &mut table, figures);
        self.spoil_joints(within, table, figures);
        0
    }

    fn table_code(&self, asked: Asked, lent: &Lent) -> u32 {
        let falls = || asked.spans.from.windows(2).any(|pair| pair[1] < pair[0]);
        let code = self.joints_code(self.windows_code(asked, lent, None), asked, lent, None);
        match self.store_code(code, asked, lent, None) {
            19 if self.is(OrderTestedBeforeLoss) && falls() => 20,
            code => code,
        }
    }

    /// Faults in the table, the store and the counts of a call that is done; `found` is the store as it was.
    fn spoil_table(&self, asked: Asked, lists: FeedLists, figures: &mut [u32; 3], found: &[u32]) {
        let FeedLists { best, last, joints, store } = lists;
        let Asked { places, start, spans, .. } = asked;
        match self.variant {
            Some(TableOfAllNone) => [best, last, joints].into_iter().for_each(|list| list.fill(NONE)),
            Some(FixedTable) => {
                best.iter_mut().zip([0, 7, 12]).for_each(|(word, loss)| *word = loss);
                last.iter_mut().zip([NONE, 0, 2]).for_each(|(word, span)| *word = span);
                joints.iter_mut().zip([0, 1, 2]).for_each(|(word, hops)| *word = hops);
            }
            Some(FeedStoreLeftFull) => {
                let mut queues = Queues::new(places);
                queues.answer(Some(Call::Insert { heap: 0, item: start, key: 0 }));
                store.copy_from_slice(&store::encode(&queues));
            }
            Some(FeedStoreLeftAsFound) => store.copy_from_slice(found),
            Some(FeedLeavesAnAmount) => store[heap_index(HeapField::Amount, 0)] = 1,
            Some(HeapWordsLast) => self.lay_out(store, Moment::Fed),
            Some(FeedCountsZero) => figures[..2].fill(0),
            Some(StartShowsASpan) => {
                let into = (0..spans.to.len()).find(|&span| spans.to[span] == start);
                last[start as usize] = into.map_or(NONE, |span| span as u32);
            }
            _ => {}
        }
    }
}
