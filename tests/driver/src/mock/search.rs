//! A search that makes its queue calls one by one: for faults in what is shown while places wait, in which chain is
//! chosen, and in what is counted.

use super::ceilings::take_linking_all;
use super::Mock;
use super::Variant::*;
use reference::feed::Asked;
use reference::{Answer, Call, Queues, NONE};

/// What the table knows of a place: the loss, the number of spans and the last span of a chain.
#[derive(Clone, Copy)]
pub(super) struct Entry {
    pub(super) loss: u32,
    pub(super) hops: u32,
    pub(super) span: u32,
}

impl Entry {
    pub(super) const NOTHING: Entry = Entry { loss: NONE, hops: NONE, span: NONE };
}

/// What a search asks for; the largest budget for a full one.
#[derive(Clone, Copy)]
pub(super) struct Within<'a> {
    pub(super) asked: Asked<'a>,
    pub(super) budget: u32,
}

/// A search as it stopped: the table so far, what waits, and the moves made.
pub(super) struct Search<'a> {
    mock: &'a Mock,
    pub(super) queues: Queues,
    pub(super) entries: Vec<Entry>,
    pub(super) links: u32,
    pub(super) cuts: u32,
    /// The sum over the calls made of all links until then.
    pub(super) carried: u32,
    /// How often an entry changed for one of equal loss.
    pub(super) ties: u32,
}

impl Mock {
    /// Stops where the first place waiting is beyond the budget.
    pub(super) fn search<'a>(&'a self, within: Within<'a>) -> Search<'a> {
        let Asked { places, start, .. } = within.asked;
        let (queues, entries) = (Queues::new(places), vec![Entry::NOTHING; places as usize]);
        let mut search = Search { mock: self, queues, entries, links: 0, cuts: 0, carried: 0, ties: 0 };
        search.offer(start, Entry { loss: 0, hops: 0, span: NONE });
        while search.first_waiting().is_some_and(|(_, loss)| loss <= within.budget) {
            let place = search.make(Call::ExtractMin { heap: 0 }).item;
            search.try_spans(within, place);
        }
        search
    }
}

impl Search<'_> {
    /// The first place that waits, and its loss.
    pub(super) fn first_waiting(&self) -> Option<(u32, u32)> {
        let first = self.queues.minimum(0).map(|root| self.queues.rows[0][root].item)?;
        Some((first, self.entries[first as usize].loss))
    }

    /// Takes so many of the places that wait; returns the links.
    pub(super) fn take(&mut self, most: usize) -> u32 {
        let before = self.links;
        for _ in 0..most.min(self.queues.count(0)) {
            self.make(Call::ExtractMin { heap: 0 });
        }
        self.links - before
    }

    fn try_spans(&mut self, within: Within, place: u32) {
        let Within { asked, budget } = within;
        let spans = asked.spans;
        let here = self.entries[place as usize];
        for span in (0..spans.from.len()).filter(|&span| spans.from[span] == place) {
            let offered = Entry { loss: here.loss + spans.loss[span], hops: here.hops + 1, span: span as u32 };
            let is_tie = offered.loss == self.entries[spans.to[span] as usize].loss;
            let usable = asked.is_usable(span) || is_tie && self.mock.is(ClosedSpansInTies);
            if usable && !(self.mock.is(OffersBeyondPruned) && offered.loss > budget) {
                self.offer(spans.to[span], offered);
            }
        }
    }

    fn offer(&mut self, item: u32, offered: Entry) {
        let known = self.entries[item as usize];
        let chosen = self.mock.chosen(known, offered);
        if offered.loss < known.loss {
            let key = self.mock.key(offered);
            self.make(match known.loss {
                NONE => Call::Insert { heap: 0, item, key },
                _ => Call::DecreaseKey { item, key },
            });
        } else if (chosen.hops, chosen.span) != (known.hops, known.span) {
            self.ties += 1;
            self.call_on_tie(item, chosen);
        }
        self.entries[item as usize] = chosen;
    }

    /// The queue calls that an engine makes by fault where an entry changes for one of equal loss.
    fn call_on_tie(&mut self, item: u32, chosen: Entry) {
        let key = self.mock.key(chosen);
        if self.mock.is(TiePutInAnew) {
            self.make(Call::Delete { item });
            self.make(Call::Insert { heap: 0, item, key });
        }
        if self.mock.is(JointsInTheKey) {
            self.make(Call::DecreaseKey { item, key });
        }
    }

    fn make(&mut self, call: Call) -> Answer {
        let answer = match call {
            Call::ExtractMin { heap } if self.mock.is(EveryRootLinkedAtATaking) => {
                take_linking_all(&mut self.queues, heap as usize)
            }
            _ => self.queues.answer(Some(call)),
        };
        self.links += answer.links;
        self.cuts += answer.cuts;
        self.carried = self.carried.wrapping_add(self.links);
        answer
    }
}
