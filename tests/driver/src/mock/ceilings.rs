//! Faults by which a feed call breaks a ceiling on links and cuts, in its work or in what it says of it.

use super::joints::Table;
use super::search::Within;
use super::Mock;
use super::Variant::*;
use reference::ceiling::ceiling;
use reference::feed::Asked;
use reference::queue::link;
use reference::{Answer, Queues, NONE};

impl Mock {
    /// Faults in the figures of a call that is done, and in the entry of its start.
    pub(super) fn spoil_work(&self, within: Within, table: &mut Table, figures: &mut [u32]) {
        let Asked { start, spans, .. } = within.asked;
        let [links, cuts, examined] = [figures[0], figures[1], figures[2]];
        match self.variant {
            Some(LinksCountedFiveFold) => figures[0] = 5 * links,
            Some(CutsCountedTenFold) => figures[1] = 10 * cuts,
            Some(FeedTallyNotReset) => figures[0] = self.search(within).carried,
            Some(LinksAtTheLargest) => figures[0] = NONE,
            Some(CutsLessLinks) => figures[1] = cuts.wrapping_sub(links),
            Some(AtTheCeiling) => figures[0] = ceiling_of(table, examined) - cuts,
            Some(OneAboveTheCeiling) => figures[0] = ceiling_of(table, examined) - cuts + 1,
            Some(OneSpanNotCounted) => figures[2] = examined.saturating_sub(1),
            Some(SpansOfTheStartNotCounted) => {
                figures[2] -= spans.from.iter().filter(|&&from| from == start).count() as u32;
            }
            Some(StartNotReached) => {
                let lists = [&mut *table.best, &mut *table.last, &mut *table.joints];
                lists.into_iter().for_each(|list| list[start as usize] = NONE);
            }
            Some(EveryRootLinkedAtATaking) => {
                let search = self.search(within);
                (figures[0], figures[1]) = (search.links, search.cuts);
            }
            _ => {}
        }
    }
}

/// The ceiling of a call with this table.
fn ceiling_of(table: &Table, examined: u32) -> u32 {
    let reached = table.best.iter().filter(|&&loss| loss != NONE).count() as u64;
    ceiling(reached, examined.into()) as u32
}

/// Takes the first item, and links all roots into one tree, whatever their ranks.
pub(super) fn take_linking_all(queues: &mut Queues, heap: usize) -> Answer {
    let root = queues.minimum(heap).expect("a place waits");
    let taken = queues.rows[heap].remove(root);
    let (item, key) = (taken.item, taken.key);
    queues.release(heap, taken);
    let row = std::mem::take(&mut queues.rows[heap]);
    let links = row.len().saturating_sub(1) as u32;
    queues.rows[heap] = row.into_iter().reduce(link).into_iter().collect();
    Answer::done(item, key, links, 0)
}
