//! Demand 3: moves between two moments are paid by allowances and by potential.

use crate::call::{Answer, Call};
use crate::queue::{Queues, Tree};

/// The charge: trees plus twice the marks.
pub fn potential(queues: &Queues) -> u64 {
    let trees: usize = queues.rows.iter().map(Vec::len).sum();
    let marks: usize = queues.rows.iter().flatten().map(Tree::marks).sum();
    (trees + 2 * marks) as u64
}

/// F(1) = F(2) = 1.
pub fn fibonacci(k: u32) -> u64 {
    (0..k).fold((0, 1), |(a, b), _| (b, a + b)).0
}

/// R(n): the greatest rank k with F(k + 2) at most n, for n of at least 1.
pub fn max_rank(n: usize) -> u64 {
    (0..).take_while(|&k| fibonacci(k + 2) <= n as u64).last().map_or(0, u64::from)
}

/// What a call may cost, seen from the forests before it; a refused line gets nothing.
pub fn allowance(before: &Queues, line: Option<Call>) -> u64 {
    let Some(call) = line.filter(|&call| before.refusal(call) == 0) else { return 0 };
    match call {
        Call::Insert { .. } => 1,
        Call::FindMin { .. } | Call::Meld { .. } | Call::Raise { .. } => 0,
        Call::ExtractMin { heap } => max_rank(before.count(heap as usize)),
        Call::DecreaseKey { .. } => 4,
        Call::Delete { item } => {
            let heap = before.locate(item).expect("not refused").heap;
            3 + max_rank(before.count(heap))
        }
    }
}

/// Follows a list of calls and tests the demand between every two of its moments.
pub struct Ledger {
    spent: i64,
    /// The least of (moves so far + potential - allowances so far) over the moments seen: a later
    /// moment above it breaks the demand for that pair, and for no pair otherwise.
    least: i64,
}

impl Ledger {
    pub fn open(potential: u64) -> Ledger {
        Ledger { spent: 0, least: potential as i64 }
    }

    /// Enters one line; false if the demand fails between this moment and an earlier one.
    pub fn enter(&mut self, answer: Answer, allowance: u64, potential: u64) -> bool {
        self.spent += i64::from(answer.links) + i64::from(answer.cuts) - allowance as i64;
        let level = self.spent + potential as i64;
        let holds = level <= self.least;
        self.least = self.least.min(level);
        holds
    }
}
