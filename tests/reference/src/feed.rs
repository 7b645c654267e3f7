//! The feed table at a minute of the day, in full and within a budget: best chains by plain relaxation of the spans
//! that are usable then, queue moves by playing the calls.

use crate::call::Call;
use crate::queue::Queues;
use crate::store::{self, NONE};

pub const MAX_PLACES: u32 = 4096;
pub const MAX_SPANS: usize = 16_384;
pub const MAX_LOSS: u32 = 1_000_000;
/// The minutes of a day. A window may close at this minute, when the day is over.
pub const MINUTES: u32 = 1_440;

/// The five span lists as they are lent; their lengths may differ.
#[derive(Clone, Copy)]
pub struct Spans<'a> {
    pub from: &'a [u32],
    pub to: &'a [u32],
    pub loss: &'a [u32],
    pub opens: &'a [u32],
    pub closes: &'a [u32],
}

impl Spans<'_> {
    fn lengths_differ(&self) -> bool {
        let count = self.from.len();
        [self.to, self.loss, self.opens, self.closes].iter().any(|list| list.len() != count)
    }
}

/// What a feed call asks for.
#[derive(Clone, Copy)]
pub struct Asked<'a> {
    pub places: u32,
    pub start: u32,
    pub minute: u32,
    pub spans: Spans<'a>,
}

impl Asked<'_> {
    /// Whether the span is open at the minute asked for: its opening minute is in its window, its closing one is not.
    pub fn is_usable(&self, span: usize) -> bool {
        self.spans.opens[span] <= self.minute && self.minute < self.spans.closes[span]
    }

    /// The usable spans in list order.
    fn usable(&self) -> Vec<usize> {
        (0..self.spans.from.len()).filter(|&span| self.is_usable(span)).collect()
    }
}

#[derive(Clone, Copy, Debug, Default, PartialEq, Eq)]
pub struct Figures {
    pub code: u32,
    pub links: u32,
    pub cuts: u32,
    pub examined: u32,
}

/// The lists that a feed call fills, and the store that it uses.
pub struct Lent<'a> {
    pub best: &'a mut [u32],
    pub last: &'a mut [u32],
    pub joints: &'a mut [u32],
    pub words: &'a mut [u32],
}

impl Lent<'_> {
    /// Whether each list has one word a place, and the store is one for so many items.
    fn fits(&self, places: usize) -> bool {
        let lists = [&self.best, &self.last, &self.joints];
        lists.iter().all(|list| list.len() == places) && self.words.len() == store::length(places)
    }
}

/// What a chain from the start adds up to. The better one is less: a smaller loss first, then fewer spans.
#[derive(Clone, Copy, Debug, Default, PartialEq, Eq, PartialOrd, Ord)]
struct Chain {
    loss: u32,
    /// Its number of spans, which the table shows as joints.
    hops: u32,
}

impl Chain {
    /// The chain with one more span at its end.
    fn and(self, loss: u32) -> Chain {
        Chain { loss: self.loss + loss, hops: self.hops + 1 }
    }
}

/// The figures of a call with a budget, and how many places it lists.
#[derive(Clone, Copy, Debug, Default, PartialEq, Eq)]
pub struct Within {
    pub figures: Figures,
    pub listed: u32,
}

impl Within {
    /// The four figures beside the code.
    pub fn numbers(&self) -> [u32; 4] {
        let Figures { links, cuts, examined, .. } = self.figures;
        [links, cuts, examined, self.listed]
    }
}

/// The full feed call.
pub fn table(asked: Asked, lent: Lent) -> Figures {
    match refusal(asked, &lent, None) {
        0 => fill(asked, None, lent),
        code => Figures { code, ..Figures::default() },
    }
}

/// The feed call with a budget. Words of `listed` beyond the places listed stay.
pub fn within(asked: Asked, budget: u32, lent: Lent, listed: &mut [u32]) -> Within {
    let code = refusal(asked, &lent, Some(listed.len()));
    if code != 0 {
        return Within { figures: Figures { code, ..Figures::default() }, listed: 0 };
    }
    let Lent { best, last, joints, words } = lent;
    let figures = fill(asked, Some(budget), Lent { best: &mut *best, last, joints, words });
    let mut order: Vec<u32> = (0..asked.places).filter(|&place| best[place as usize] != NONE).collect();
    order.sort_by_key(|&place| (best[place as usize], place));
    listed[..order.len()].copy_from_slice(&order);
    Within { figures, listed: order.len() as u32 }
}

/// Fills the lists of a call that isn't refused: the full table, with none in all lists at the places beyond the budget.
fn fill(asked: Asked, budget: Option<u32>, lent: Lent) -> Figures {
    let chains = best_chains(asked);
    let last = last_spans(asked, &chains);
    let shown = |place: usize| chains[place].filter(|chain| budget.is_none_or(|budget| chain.loss <= budget));
    for (place, &span) in last.iter().enumerate() {
        (lent.best[place], lent.last[place], lent.joints[place]) = match shown(place) {
            Some(chain) => (chain.loss, span, chain.hops),
            None => (NONE, NONE, NONE),
        };
    }
    lent.words.copy_from_slice(&store::empty(asked.places as usize));
    let (links, cuts) = moves(asked, budget);
    // The spans that leave a reached place or, with a budget, a listed one. Closed spans are tried too.
    let examined = asked.spans.from.iter().filter(|&&from| shown(from as usize).is_some()).count() as u32;
    Figures { code: 0, links, cuts, examined }
}

/// The code that refuses a call; `listed` is the length of the place list, where one is lent.
pub fn refusal(asked: Asked, lent: &Lent, listed: Option<usize>) -> u32 {
    let Asked { places, start, minute, spans } = asked;
    let count = spans.from.len();
    let per_place = places as usize;
    if places == 0 || places > MAX_PLACES {
        14
    } else if start >= places {
        15
    } else if minute >= MINUTES {
        24
    } else if spans.lengths_differ() || count > MAX_SPANS {
        16
    } else if !lent.fits(per_place) {
        17
    } else if listed.is_some_and(|listed| listed < per_place) {
        22
    } else {
        (0..count).map(|span| span_fault(places, spans, span)).find(|&code| code != 0).unwrap_or(0)
    }
}

/// The code of a span, 0 if it has no fault.
pub fn span_fault(places: u32, spans: Spans, span: usize) -> u32 {
    if spans.from[span] >= places || spans.to[span] >= places {
        18
    } else if spans.loss[span] < 1 || spans.loss[span] > MAX_LOSS {
        19
    } else if span > 0 && spans.from[span] < spans.from[span - 1] {
        20
    } else if is_faulty_window(spans.opens[span], spans.closes[span]) {
        23
    } else {
        0
    }
}

/// Whether a window is empty, turned round or longer than the day.
pub fn is_faulty_window(opens: u32, closes: u32) -> bool {
    closes <= opens || closes > MINUTES
}

/// Relaxes every usable span until nothing changes.
fn best_chains(asked: Asked) -> Vec<Option<Chain>> {
    let Asked { places, start, spans, .. } = asked;
    let usable = asked.usable();
    let mut best: Vec<Option<Chain>> = vec![None; places as usize];
    best[start as usize] = Some(Chain::default());
    loop {
        let mut changed = false;
        for &span in &usable {
            let (from, to) = (spans.from[span] as usize, spans.to[span] as usize);
            let Some(offered) = best[from].map(|chain| chain.and(spans.loss[span])) else { continue };
            if best[to].is_none_or(|known| offered < known) {
                best[to] = Some(offered);
                changed = true;
            }
        }
        if !changed {
            return best;
        }
    }
}

/// The lowest-numbered usable span that ends a best chain; none where no chain is, and at the start, whose best chain
/// has no spans.
fn last_spans(asked: Asked, chains: &[Option<Chain>]) -> Vec<u32> {
    let spans = asked.spans;
    let mut last = vec![NONE; chains.len()];
    for span in asked.usable().into_iter().rev() {
        let (from, to) = (spans.from[span] as usize, spans.to[span] as usize);
        if chains[from].is_some_and(|chain| chains[to] == Some(chain.and(spans.loss[span]))) {
            last[to] = span as u32;
        }
    }
    last
}

/// Links and cuts of the queue calls, by making them until no place waits, or the first that does is beyond the budget.
fn moves(asked: Asked, budget: Option<u32>) -> (u32, u32) {
    let Asked { places, start, spans, .. } = asked;
    let mut queues = Queues::new(places);
    let mut met = vec![NONE; places as usize];
    let (mut links, mut cuts) = (0, 0);
    let mut make = |queues: &mut Queues, call| {
        let answer = queues.answer(Some(call));
        assert_eq!(answer.code, 0, "{call:?} is never refused");
        links += answer.links;
        cuts += answer.cuts;
        answer
    };
    met[start as usize] = 0;
    make(&mut queues, Call::Insert { heap: 0, item: start, key: 0 });
    while first_key(&queues).is_some_and(|key| budget.is_none_or(|budget| key <= budget)) {
        let taken = make(&mut queues, Call::ExtractMin { heap: 0 });
        let usable_from_there = |&span: &usize| spans.from[span] == taken.item && asked.is_usable(span);
        for span in (0..spans.from.len()).filter(usable_from_there) {
            let (item, key) = (spans.to[span], taken.key + spans.loss[span]);
            let known = met[item as usize];
            // An equal loss changes at most the table: it makes no call.
            if key < known {
                met[item as usize] = key;
                let call = match known {
                    NONE => Call::Insert { heap: 0, item, key },
                    _ => Call::DecreaseKey { item, key },
                };
                make(&mut queues, call);
            }
        }
    }
    (links, cuts)
}

/// The key of the first item of heap 0.
fn first_key(queues: &Queues) -> Option<u32> {
    queues.minimum(0).map(|root| queues.rows[0][root].key)
}
