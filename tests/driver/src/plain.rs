//! The plain C version that the benchmark measures against: it must give the same answers.

use crate::engine::{BudgetLists, Engine, FeedLists, Part};
use crate::{budget_call, feed_call, own_run};
use reference::feed::{Asked, Spans};

pub struct Plain;

impl Engine for Plain {
    fn has(&self, part: Part) -> bool {
        matches!(part, Part::Modem | Part::Feed | Part::Budget)
    }

    fn queue_run(&self, sheet: &[u8], out: &mut [u8]) -> u32 {
        own_run!(plain_queue_run, sheet, out)
    }

    fn feed_table(&self, asked: Asked, lists: FeedLists, figures: &mut [u32; 3]) -> u32 {
        feed_call!(plain_feed_table, asked, lists, figures)
    }

    fn feed_budget(&self, asked: Asked, budget: u32, lists: BudgetLists, figures: &mut [u32; 4]) -> u32 {
        budget_call!(plain_feed_budget, asked, budget, lists, figures)
    }
}
