//! The entries that a host may call, and the reference behind the same entries.

use reference::feed::{self, Asked, Lent};
use reference::map::{self, FIELDS};
use reference::{program, run, store};

/// What an engine may offer; campaigns run for the parts that are there.
#[derive(Clone, Copy, Debug, PartialEq, Eq)]
pub enum Part {
    Modem,
    Runs,
    /// The turn of a store from the old order of words into the new one.
    Turn,
    Feed,
    /// The feed call with a budget; an engine that has it has the full one too.
    Budget,
    Map,
    QueueProgram,
    FeedProgram,
}

/// The lists that a feed call is lent for writing.
pub struct FeedLists<'a> {
    pub best: &'a mut [u32],
    pub last: &'a mut [u32],
    pub joints: &'a mut [u32],
    pub store: &'a mut [u32],
}

impl FeedLists<'_> {
    /// The same lists, lent once more.
    pub fn again(&mut self) -> FeedLists<'_> {
        let FeedLists { best, last, joints, store } = self;
        FeedLists { best, last, joints, store }
    }
}

/// The lists that a feed call with a budget is lent for writing.
pub struct BudgetLists<'a> {
    pub best: &'a mut [u32],
    pub last: &'a mut [u32],
    pub joints: &'a mut [u32],
    pub listed: &'a mut [u32],
    pub store: &'a mut [u32],
}

/// Names and meanings are those of the C header.
/// An engine leaves out the entries of parts that it does not have; campaigns never call them.
#[allow(unused_variables)]
pub trait Engine {
    fn has(&self, part: Part) -> bool;

    fn queue_run(&self, sheet: &[u8], out: &mut [u8]) -> u32 {
        unreachable!("no modem part")
    }

    fn fresh_run(&self, store: &mut [u32], sheet: &[u8], out: &mut [u8], figures: &mut [u32; 2]) -> u32 {
        unreachable!("no runs")
    }

    fn kept_run(&self, store: &mut [u32], sheet: &[u8], out: &mut [u8], figures: &mut [u32; 2]) -> u32 {
        unreachable!("no runs")
    }

    fn store_sound(&self, store: &[u32]) -> u32 {
        unreachable!("no runs")
    }

    /// The old store is only read; it can be written here, so that it is seen if an engine does so.
    fn turn_store(&self, old: &mut [u32], turned: &mut [u32]) -> u32 {
        unreachable!("no turn")
    }

    fn feed_table(&self, asked: Asked, lists: FeedLists, figures: &mut [u32; 3]) -> u32 {
        unreachable!("no feed call")
    }

    fn feed_budget(&self, asked: Asked, budget: u32, lists: BudgetLists, figures: &mut [u32; 4]) -> u32 {
        unreachable!("no feed call with a budget")
    }

    fn read_map(&self, text: &[u8], lists: [&mut [u32]; FIELDS], figures: &mut [u32; 4]) -> u32 {
        unreachable!("no map reader")
    }

    fn queue_program(&self, input: &[u8]) -> Vec<u8> {
        unreachable!("no queue program")
    }

    fn feed_program(&self, input: &[u8]) -> Vec<u8> {
        unreachable!("no feed program")
    }
}

/// The reference as an engine.
pub struct Faithful;

impl Engine for Faithful {
    fn has(&self, _: Part) -> bool {
        true
    }

    fn queue_run(&self, sheet: &[u8], out: &mut [u8]) -> u32 {
        run::modem(sheet, out).number()
    }

    fn fresh_run(&self, store: &mut [u32], sheet: &[u8], out: &mut [u8], figures: &mut [u32; 2]) -> u32 {
        let run = run::fresh(store, sheet, out);
        *figures = run.figures();
        run.code
    }

    fn kept_run(&self, store: &mut [u32], sheet: &[u8], out: &mut [u8], figures: &mut [u32; 2]) -> u32 {
        let run = run::kept(store, sheet, out);
        *figures = run.figures();
        run.code
    }

    fn store_sound(&self, store: &[u32]) -> u32 {
        u32::from(store::sound(store).is_some())
    }

    fn turn_store(&self, old: &mut [u32], turned: &mut [u32]) -> u32 {
        store::turn(old, turned)
    }

    fn feed_table(&self, asked: Asked, lists: FeedLists, figures: &mut [u32; 3]) -> u32 {
        let FeedLists { best, last, joints, store } = lists;
        let result = feed::table(asked, Lent { best, last, joints, words: store });
        *figures = [result.links, result.cuts, result.examined];
        result.code
    }

    fn feed_budget(&self, asked: Asked, budget: u32, lists: BudgetLists, figures: &mut [u32; 4]) -> u32 {
        let BudgetLists { best, last, joints, listed, store } = lists;
        let result = feed::within(asked, budget, Lent { best, last, joints, words: store }, listed);
        *figures = result.numbers();
        result.figures.code
    }

    fn read_map(&self, text: &[u8], lists: [&mut [u32]; FIELDS], figures: &mut [u32; 4]) -> u32 {
        let header = map::read(text, lists);
        *figures = header.numbers();
        header.code
    }

    fn queue_program(&self, input: &[u8]) -> Vec<u8> {
        program::queue(input)
    }

    fn feed_program(&self, input: &[u8]) -> Vec<u8> {
        program::feed(input)
    }
}
