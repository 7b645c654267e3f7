//! The runs worked by hand in the scope paper, (a) to (h), with every number it gives; and one for J and M, which it
//! lacks.

use reference::ledger::{allowance, max_rank, potential, Ledger};
use reference::{Answer, Call, Queues, Tree};

/// Queues with the answers and allowances of a list of lines.
struct Played {
    queues: Queues,
    answers: Vec<Answer>,
    allowance: u64,
    ledger: Ledger,
}

impl Played {
    fn new() -> Played {
        let queues = Queues::new(16);
        Played { queues, answers: vec![], allowance: 0, ledger: Ledger::open(0) }
    }

    fn play(&mut self, line: &str) -> Answer {
        let call = Call::parse(line.as_bytes());
        let allowed = allowance(&self.queues, call);
        let answer = self.queues.answer(call);
        self.allowance += allowed;
        assert!(self.ledger.enter(answer, allowed, potential(&self.queues)), "demand 3 after {line}");
        self.answers.push(answer);
        answer
    }

    fn row(&self) -> Vec<u32> {
        items(&self.queues.rows[0])
    }

    fn marks(&self) -> usize {
        self.queues.rows.iter().flatten().map(Tree::marks).sum()
    }

    fn moves(&self) -> u32 {
        self.answers.iter().map(|answer| answer.links + answer.cuts).sum()
    }
}

fn items(trees: &[Tree]) -> Vec<u32> {
    trees.iter().map(|tree| tree.item).collect()
}

#[test]
fn a_greatest_ranks() {
    let ranks: Vec<u64> = [1, 2, 3, 4, 5, 8].into_iter().map(max_rank).collect();
    assert_eq!(ranks, [0, 1, 2, 2, 3, 4]);
    assert_eq!(max_rank(4096), 16);
    assert_eq!(max_rank(4181), 17);
}

fn run_b() -> Played {
    let mut played = Played::new();
    for (item, key) in [5, 3, 8, 1].into_iter().enumerate() {
        played.play(&format!("I,0,{item},{key}"));
    }
    assert_eq!(played.play("T,0"), Answer::done(3, 1, 1, 0));
    played
}

#[test]
fn b_one_link() {
    let played = run_b();
    assert_eq!(played.row(), [2, 1]);
    assert_eq!(items(&played.queues.rows[0][1].children), [0]);
    assert!(played.queues.rows[0][0].children.is_empty());
}

#[test]
fn c_lowered_without_cut() {
    let mut played = run_b();
    assert_eq!(played.play("D,0,4"), Answer::done(0, 4, 0, 0));
    assert_eq!(played.row(), [2, 1]);
}

#[test]
fn d_equal_key_cut_by_item_number() {
    let mut played = run_b();
    assert_eq!(played.play("D,0,3"), Answer::done(0, 3, 0, 1));
    assert_eq!(played.row(), [2, 1, 0]);
}

#[test]
fn e_to_h_in_one_list() {
    let mut played = Played::new();
    for item in 0..9 {
        played.play(&format!("I,0,{item},{}", 10 * item));
    }
    assert_eq!(played.play("T,0"), Answer::done(0, 0, 7, 0));
    assert_eq!(played.row(), [1]);
    assert_eq!(items(&played.queues.rows[0][0].children), [2, 3, 5]);

    let cuts: Vec<u32> = ["D,8,5", "D,6,4", "D,7,3"].into_iter().map(|line| played.play(line).cuts).collect();
    assert_eq!(cuts, [1, 1, 2]);
    assert_eq!(played.row(), [1, 8, 6, 7, 5]);
    assert_eq!(played.marks(), 0);

    assert_eq!(played.play("X,3"), Answer::done(3, 30, 0, 1));
    assert_eq!(played.row(), [1, 8, 6, 7, 5, 4]);

    assert_eq!(played.play("T,0"), Answer::done(7, 3, 3, 0));
    assert_eq!(played.row(), [4, 6]);
    assert_eq!(played.moves(), 15);
    assert_eq!(potential(&played.queues), 2);
    assert_eq!(played.allowance, 35);
}

/// Heap 0 holds items 0 and 1, heap 1 item 3 with 4 below it.
#[test]
fn joined_rows_minima_and_reuse() {
    let mut played = Played::new();
    for line in ["I,0,0,6", "I,0,1,4", "I,1,2,1", "I,1,3,3", "I,1,4,5", "T,1"] {
        assert_eq!(played.play(line).code, 0);
    }
    assert_eq!(played.play("J,0,1"), Answer::done(0, 4, 0, 0));
    assert_eq!(played.row(), [0, 1, 3]);
    assert_eq!(played.play("M,0"), Answer::done(3, 3, 0, 0));
    assert_eq!(played.play("M,1"), Answer::refused(12));
    // What stood below 3 is an item of heap 0 now.
    assert_eq!(played.play("D,4,2"), Answer::done(4, 2, 0, 1));
    assert_eq!(played.row(), [0, 1, 3, 4]);
    // Heap 1 is usable again; heap 0 keeps its minimum at the second joining.
    assert_eq!(played.play("I,1,5,8"), Answer::done(5, 8, 0, 0));
    assert_eq!(played.play("J,0,1"), Answer::done(0, 5, 0, 0));
    assert_eq!(played.row(), [0, 1, 3, 4, 5]);
    assert_eq!(played.play("M,0"), Answer::done(4, 2, 0, 0));
}
