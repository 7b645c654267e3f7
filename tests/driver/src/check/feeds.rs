//! Feed calls, in full and with a budget.

use super::ceilings::Work;
use super::{same, same_list, Checker, Guarded, Verdict};
use crate::engine::{BudgetLists, FeedLists};
use reference::feed::{self, Asked, Lent, Spans};
use reference::NONE;
use std::fmt::Debug;

/// The input of a feed call; result lists and store are lent with these lengths.
#[derive(Clone, Debug)]
pub struct FeedCall {
    pub places: u32,
    pub start: u32,
    pub minute: u32,
    pub from: Vec<u32>,
    pub to: Vec<u32>,
    pub loss: Vec<u32>,
    pub opens: Vec<u32>,
    pub closes: Vec<u32>,
    pub best: usize,
    pub last: usize,
    pub joints: usize,
    pub words: usize,
}

impl FeedCall {
    fn asked(&self) -> Asked<'_> {
        let FeedCall { places, start, minute, from, to, loss, opens, closes, .. } = self;
        let spans = Spans { from, to, loss, opens, closes };
        Asked { places: *places, start: *start, minute: *minute, spans }
    }

    /// The words that the lists of losses, spans and joints are lent with.
    pub fn result_lengths(&mut self) -> [&mut usize; 3] {
        [&mut self.best, &mut self.last, &mut self.joints]
    }

    /// The five span lists.
    pub fn lists(&mut self) -> [&mut Vec<u32>; 5] {
        [&mut self.from, &mut self.to, &mut self.loss, &mut self.opens, &mut self.closes]
    }
}

/// The input of a feed call with a budget; the place list is lent with `listed` words.
#[derive(Clone, Debug)]
pub struct BudgetCall {
    pub budget: u32,
    pub listed: usize,
    pub feed: FeedCall,
}

/// The code and figures of a feed call, and the lists that it was lent as it left them: losses, spans, joints, store and,
/// where it has a budget, places.
pub struct Fed<const FIGURES: usize, const LISTS: usize> {
    pub code: u32,
    pub figures: [u32; FIGURES],
    pub lists: [Vec<u32>; LISTS],
}

/// What a full call leaves, and what one with a budget does.
pub type Full = Fed<3, 4>;
pub type Within = Fed<4, 5>;

impl<const FIGURES: usize, const LISTS: usize> Fed<FIGURES, LISTS> {
    pub fn losses(&self) -> &[u32] {
        &self.lists[0]
    }

    pub fn spans(&self) -> &[u32] {
        &self.lists[1]
    }

    pub fn joints(&self) -> &[u32] {
        &self.lists[2]
    }

    pub fn store(&self) -> &[u32] {
        &self.lists[3]
    }

    /// Loss, span and joints of a place.
    pub fn entry(&self, place: u32) -> [u32; 3] {
        [0, 1, 2].map(|list| self.lists[list][place as usize])
    }

    /// Whether the table has these losses, spans and joints.
    pub fn shows(&self, losses: &[u32], spans: &[u32], joints: &[u32]) -> bool {
        self.losses() == losses && self.spans() == spans && self.joints() == joints
    }
}

impl Within {
    /// The places listed.
    pub fn places(&self) -> &[u32] {
        &self.lists[4][..self.figures[3] as usize]
    }
}

/// Words that differ from place to place and from list to list.
fn found<const LISTS: usize>(lengths: [usize; LISTS]) -> [Vec<u32>; LISTS] {
    let salts = [0xB000_0000, 0xA000_0000, 0x8000_0000, 0x9000_0000, 0xC000_0000];
    std::array::from_fn(|list| (0..lengths[list] as u32).map(|at| at ^ salts[list]).collect())
}

/// The loss and the number of the spans shown from a place back to the first meeting of the start. `None` if one of them
/// is closed or ends elsewhere, or if there are more than a chain can have.
fn way_back(asked: Asked, last: &[u32], place: u32) -> Option<(u32, u32)> {
    let Asked { places, start, spans, .. } = asked;
    let (mut loss, mut hops, mut at) = (0u32, 0, place);
    while at != start {
        let span = last[at as usize] as usize;
        if span >= spans.from.len() || spans.to[span] != at || !asked.is_usable(span) || hops == places {
            return None;
        }
        loss = loss.checked_add(spans.loss[span])?;
        hops += 1;
        at = spans.from[span];
    }
    Some((loss, hops))
}

/// A place that has a loss is led to by the spans shown, in as many steps as its joints say; any other has no entry. This
/// needs no reference.
fn leads_back<const FIGURES: usize, const LISTS: usize>(asked: Asked, fed: &Fed<FIGURES, LISTS>) -> Verdict {
    for place in 0..asked.places {
        let entry @ [loss, _, hops] = fed.entry(place);
        if loss == NONE && entry != [NONE; 3] {
            return Err(format!("place {place} has no loss, but one of {entry:?}"));
        }
        let way = || way_back(asked, fed.spans(), place);
        if loss != NONE && way() != Some((loss, hops)) {
            return Err(format!("place {place} shows {entry:?}, but its way back is {:?}", way()));
        }
    }
    Ok(())
}

/// The spans examined are those whose from has a loss in the table and, where places are listed, those whose from is
/// listed: each once, open or closed. This needs no reference.
fn counts_spans<const FIGURES: usize, const LISTS: usize>(asked: Asked, fed: &Fed<FIGURES, LISTS>) -> Verdict {
    let counted = |name: &str, places: &mut dyn Iterator<Item = u32>| {
        let mut is_there = vec![false; asked.places as usize];
        places.filter(|&place| place < asked.places).for_each(|place| is_there[place as usize] = true);
        let leaving = asked.spans.from.iter().filter(|&&from| is_there[from as usize]).count();
        match leaving == fed.figures[2] as usize {
            true => Ok(()),
            false => Err(format!("{leaving} spans leave {name} places, but {} are examined", fed.figures[2])),
        }
    };
    counted("reached", &mut (0..asked.places).filter(|&place| fed.losses()[place as usize] != NONE))?;
    match fed.lists.get(4) {
        Some(listed) => counted("listed", &mut listed.iter().copied().take(fed.figures[3] as usize)),
        None => Ok(()),
    }
}

/// Links and cuts are at most the ceilings of the map and of the call. This needs no reference.
fn keeps_ceilings<const FIGURES: usize, const LISTS: usize>(asked: Asked, fed: &Fed<FIGURES, LISTS>) -> Verdict {
    let work = Work {
        places: asked.places.into(),
        spans: asked.spans.from.len() as u64,
        reached: fed.losses().iter().filter(|&&loss| loss != NONE).count() as u64,
        links: fed.figures[0],
        cuts: fed.figures[1],
        examined: fed.figures[2].into(),
    };
    work.keeps_ceilings()
}

fn same_fed<const FIGURES: usize, const LISTS: usize>(
    name: &str,
    asked: Asked,
    engine: &Fed<FIGURES, LISTS>,
    reference: &Fed<FIGURES, LISTS>,
) -> Verdict {
    same(name, &engine.code, &reference.code)?;
    if engine.code == 0 {
        leads_back(asked, engine)
            .and_then(|()| keeps_ceilings(asked, engine))
            .and_then(|()| counts_spans(asked, engine))
            .map_err(|fault| format!("{name}: {fault}"))?;
    }
    same(&format!("{name} figures"), &engine.figures, &reference.figures)?;
    for (number, list) in ["losses", "spans", "joints", "store", "places"].iter().take(LISTS).enumerate() {
        same_list(&format!("{name} {list}"), &engine.lists[number], &reference.lists[number])?;
    }
    Ok(())
}

/// What the engine left between the guards, if that is what the reference left.
fn compared<const FIGURES: usize, const LISTS: usize>(
    name: &str,
    (call, asked): (&impl Debug, Asked),
    (code, figures, lent): (u32, [u32; FIGURES], [Guarded<u32>; LISTS]),
    reference: Fed<FIGURES, LISTS>,
) -> Verdict<Fed<FIGURES, LISTS>> {
    let compare = || {
        let mut lists = [const { Vec::new() }; LISTS];
        for (list, guarded) in lists.iter_mut().zip(lent) {
            *list = guarded.intact(name)?;
        }
        let engine = Fed { code, figures, lists };
        same_fed(name, asked, &engine, &reference).map(|()| engine)
    };
    compare().map_err(|fault: String| format!("{fault}; {call:?}").chars().take(600).collect())
}

impl Checker<'_> {
    /// Compares a full feed call; returns the code.
    pub fn feed(&mut self, call: &FeedCall) -> Verdict<u32> {
        Ok(self.fed(call)?.code)
    }

    /// Compares a full feed call; returns what it left.
    pub fn fed(&mut self, call: &FeedCall) -> Verdict<Full> {
        self.cases += 1;
        let asked = call.asked();
        let mut lists = found([call.best, call.last, call.joints, call.words]);
        let mut lent = lists.each_ref().map(|list| Guarded::new(list, 0xA5A5_A5A5));
        let [best, last, joints, store] = lent.each_mut().map(Guarded::lent);
        let mut figures = [77; 3];
        let code = self.engine.feed_table(asked, FeedLists { best, last, joints, store }, &mut figures);

        let [best, last, joints, words] = &mut lists;
        let result = feed::table(asked, Lent { best, last, joints, words });
        let numbers = [result.links, result.cuts, result.examined];
        let reference = Fed { code: result.code, figures: numbers, lists };
        compared("feed_table", (call, asked), (code, figures, lent), reference)
    }

    /// Compares a feed call with a budget; returns what it left.
    pub fn budget(&mut self, call: &BudgetCall) -> Verdict<Within> {
        let FeedCall { best, last, joints, words, .. } = call.feed;
        self.budget_on(call, found([best, last, joints, words, call.listed]))
    }

    /// Compares a feed call with a budget that is lent the given lists.
    pub fn budget_on(&mut self, call: &BudgetCall, mut lists: [Vec<u32>; 5]) -> Verdict<Within> {
        self.cases += 1;
        let (budget, asked) = (call.budget, call.feed.asked());
        let mut lent = lists.each_ref().map(|list| Guarded::new(list, 0xA5A5_A5A5));
        let [best, last, joints, store, listed] = lent.each_mut().map(Guarded::lent);
        let mut figures = [77; 4];
        let budget_lists = BudgetLists { best, last, joints, listed, store };
        let code = self.engine.feed_budget(asked, budget, budget_lists, &mut figures);

        let [best, last, joints, words, listed] = &mut lists;
        let result = feed::within(asked, budget, Lent { best, last, joints, words }, listed);
        let reference = Fed { code: result.figures.code, figures: result.numbers(), lists };
        compared("feed_budget", (call, asked), (code, figures, lent), reference)
    }
}
