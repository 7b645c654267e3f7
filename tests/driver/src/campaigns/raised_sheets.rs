//! Sheets of which many lines are raises: mixed with all other calls, cut into kept runs, and every short one.

use super::runs;
use crate::check::{Checker, Verdict};
use crate::random::Random;
use crate::sheets::{self, Profile, RAISES};
use reference::{store, Call, Queues};

/// A sheet of which many lines are raises; keys of all sizes.
pub fn many_raises(random: &mut Random, start: &Queues, count: usize) -> Vec<u8> {
    let lines = lines_with_raises(random, start, count);
    let open = random.chance(30);
    sheets::sheet(&lines, open && lines.last().is_some_and(|line| !line.is_empty()))
}

fn lines_with_raises(random: &mut Random, start: &Queues, count: usize) -> Vec<Vec<u8>> {
    let profile = Profile { weights: RAISES, ..sheets::profile(random, count) };
    sheets::lines(random, start, &profile)
}

/// How often each thing happened that raises are about: a campaign that never meets one shows nothing about it.
#[derive(Default)]
struct Seen {
    raises: u32,
    up_to_the_largest: u32,
    one_too_many: u32,
    of_an_empty_heap: u32,
    wrapped_amounts: u32,
    emptied: [u32; 2],
    /// Of a raised heap into one that is not, the other way, of two raised ones, into an empty heap, and from one.
    joins: [u32; 5],
    /// Insertions and lowerings to a key below the amount.
    wrapped_words: [u32; 2],
    /// A key above that of the item but not above its word, and one that is not above the key but above the word.
    misleading_words: [u32; 2],
}

impl Seen {
    fn counts(&self) -> Vec<u32> {
        let singles =
            [self.raises, self.up_to_the_largest, self.one_too_many, self.of_an_empty_heap, self.wrapped_amounts];
        [&singles[..], &self.emptied, &self.joins, &self.wrapped_words, &self.misleading_words].concat()
    }

    fn add(&mut self, before: &Queues, call: Call, after: &Queues) {
        let amount = |heap: u32| before.amounts[heap as usize];
        let is_empty = |heap: u32| before.rows[heap as usize].is_empty();
        let empties = |heap: usize| before.amounts[heap] != 0 && after.rows[heap].is_empty();
        let in_heap = |item: u32| before.locate(item).map(|position| (position.heap, before.node(&position).key));
        match call {
            Call::Raise { heap, by } if heap < 8 => self.add_raise(before, heap as usize, by, after),
            _ if before.refusal(call) != 0 && before.refusal(call) != 11 => {}
            Call::Insert { heap, key, .. } => self.wrapped_words[0] += u32::from(key < amount(heap)),
            Call::DecreaseKey { item, key } => {
                let (heap, old) = in_heap(item).expect("not refused with 10");
                let word = old.wrapping_sub(before.amounts[heap]);
                self.misleading_words[0] += u32::from(old < key && key <= word);
                self.misleading_words[1] += u32::from(word < key && key <= old);
                self.wrapped_words[1] += u32::from(key <= old && key < before.amounts[heap]);
            }
            Call::ExtractMin { heap } => self.emptied[0] += u32::from(empties(heap as usize)),
            Call::Delete { item } => {
                let (heap, _) = in_heap(item).expect("not refused");
                self.emptied[1] += u32::from(empties(heap));
            }
            Call::Meld { into, from } => {
                let kind = match (is_empty(into), is_empty(from), amount(into) != 0, amount(from) != 0) {
                    (false, false, false, true) => 0,
                    (false, false, true, false) => 1,
                    (false, false, true, true) if amount(into) != amount(from) => 2,
                    (true, false, _, true) => 3,
                    (false, true, true, _) => 4,
                    _ => return,
                };
                self.joins[kind] += 1;
            }
            _ => {}
        }
    }

    fn add_raise(&mut self, before: &Queues, heap: usize, by: u32, after: &Queues) {
        let Some(largest) = before.largest_key(heap) else {
            self.of_an_empty_heap += u32::from(by > 0);
            return;
        };
        self.raises += u32::from(by <= u32::MAX - largest);
        self.up_to_the_largest += u32::from(by > 0 && by == u32::MAX - largest);
        self.one_too_many += u32::from(by > 0 && by - 1 == u32::MAX - largest);
        self.wrapped_amounts += u32::from(after.amounts[heap] < before.amounts[heap]);
    }
}

/// Sheets with many raises, mixed with all other calls.
pub fn random_sheets(checker: &mut Checker) -> Verdict {
    let mut random = Random::new(35);
    let mut seen = Seen::default();
    for case in 0..3_000 {
        let items = *random.pick(&[1, 2, 3, 5, 9, 17, 40, 100]);
        let count = if case % 100 == 99 { 1_500 } else { 1 + random.size(150) };
        let lines = lines_with_raises(&mut random, &Queues::new(items), count);
        let dirty: Vec<u32> = (0..store::length(items as usize)).map(|_| random.word() as u32).collect();
        let ran = checker.fresh(&dirty, &sheets::sheet(&lines, false), 32 * count)?;
        if ran.done() && !checker.sound(&ran.words)? {
            return Err("a run with raises left an unsound store".into());
        }
        let mut queues = Queues::new(items);
        for call in lines.iter().filter_map(|line| Call::parse(line)) {
            let before = queues.clone();
            queues.answer(Some(call));
            seen.add(&before, call, &queues);
        }
    }
    match seen.counts().iter().all(|&times| times >= 100) {
        true => Ok(()),
        false => Err(format!("what raises are about was seen only {:?} times", seen.counts())),
    }
}

/// Sheets with many raises, cut in every way, from the empty store or from what another such sheet left.
pub fn every_cut(checker: &mut Checker) -> Verdict {
    let mut random = Random::new(36);
    for case in 0..110 {
        let items = 2 + random.below(12) as u32;
        let mut start = Queues::new(items);
        if case % 3 > 0 {
            for line in lines_with_raises(&mut random, &start.clone(), 25) {
                start.answer(Call::parse(&line));
            }
        }
        let count = if case < 90 { 7 } else { 50 };
        let lines = lines_with_raises(&mut random, &start, count);
        let cuts: Vec<Vec<usize>> = if count == 7 {
            (0..1 << 6).map(|mask: u32| (1..7).filter(|end| mask >> (end - 1) & 1 == 1).collect()).collect()
        } else {
            (0..=count).map(|end| vec![end]).collect()
        };
        for (number, ends) in cuts.iter().enumerate() {
            runs::cut(checker, &start, &lines, ends, number % 2 == 1)?;
        }
    }
    Ok(())
}

/// What stands in the heaps 0 and 1 before every sheet of three calls.
const STARTS: [&[&str]; 6] = [
    &["I,0,0,1", "A,0,4"],
    &["I,0,0,1", "I,0,1,0", "A,0,4294967294"],
    &["I,0,0,1", "I,0,1,0", "A,0,5", "I,1,2,6", "A,1,4294967289"],
    &["I,0,0,9", "A,0,4294967286", "D,0,5", "A,0,1", "I,0,1,6", "I,1,2,6"],
    &["I,0,0,1", "I,0,1,2", "I,0,2,0", "A,0,5", "T,0"],
    &["I,1,0,6", "I,1,1,6", "I,0,2,6", "A,0,0", "A,1,1", "D,0,6"],
];

/// Every sheet of three calls with two heaps, three items and keys around those that are there, on raised heaps.
pub fn every_short_sheet(checker: &mut Checker) -> Verdict {
    let mut calls: Vec<String> = ["M,0", "T,0", "T,1", "J,0,1", "J,1,0"].map(String::from).to_vec();
    for by in [0, 1, u32::MAX - 6, u32::MAX - 5, u32::MAX] {
        calls.extend([0, 1].map(|heap| format!("A,{heap},{by}")));
    }
    for item in 0..3 {
        calls.push(format!("X,{item}"));
        for key in [0, 5, 6] {
            calls.extend([format!("D,{item},{key}"), format!("I,{},{item},{key}", item % 2)]);
        }
    }
    for lines in STARTS {
        let mut queues = Queues::new(3);
        for line in lines {
            queues.answer(Call::parse(line.as_bytes()));
        }
        let words = store::encode(&queues);
        for number in 0..calls.len().pow(3) {
            let digit = |place: u32| &calls[number / calls.len().pow(place) % calls.len()];
            let sheet = format!("{}\n{}\n{}\n", digit(2), digit(1), digit(0));
            checker.kept(&words, sheet.as_bytes(), 96)?;
        }
    }
    Ok(())
}
