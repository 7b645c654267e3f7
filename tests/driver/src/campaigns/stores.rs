//! Stores that no run left: changed words, loops, careless forests.

use crate::check::{Checker, Verdict};
use crate::forest;
use crate::random::Random;
use crate::sheets;
use reference::store::{self, heap_index, index, Field, HeapField};
use reference::{Call, Queues, Tree, NONE};

/// A few sound stores of up to six items, with children and marks in them.
pub fn small_stores(random: &mut Random) -> Vec<Vec<u32>> {
    let mut stores = vec![store::empty(0), store::empty(1), store::empty(3)];
    let hand_made: [&[&str]; 3] = [
        &["I,0,0,5", "I,0,1,3", "I,0,2,8", "I,0,3,1", "T,0"],
        &["I,0,0,0", "I,0,1,1", "I,0,2,2", "I,0,3,3", "I,0,4,4", "T,0", "D,4,0"],
        &["I,7,0,4294967295", "I,7,1,4294967295", "I,2,2,0", "I,2,3,0", "I,2,4,0", "T,2"],
    ];
    for lines in hand_made {
        let mut queues = Queues::new(5);
        for line in lines {
            queues.answer(Call::parse(line.as_bytes()));
        }
        stores.push(store::encode(&queues));
    }
    while stores.len() < 26 {
        let items = 1 + random.below(6) as u32;
        let mut queues = forest::careless(random, items);
        if random.chance(50) {
            let played = 5 + random.size(20);
            queues = sheets::grown(random, items, played);
        }
        stores.extend(store::well_formed(&queues).then(|| store::encode(&queues)));
    }
    stores
}

/// Values that might slip through in place of a word.
pub fn candidates(old: u32, items: u32) -> Vec<u32> {
    let mut values: Vec<u32> = (0..=20.max(items + 2)).collect();
    values.extend((0..32).map(|bit| old ^ (1 << bit)));
    values.extend([old.wrapping_add(1), old.wrapping_sub(1), NONE, NONE - 1, 1 << 31, (1 << 31) - 1]);
    values.retain(|&value| value != old);
    values
}

/// The verdict, and a kept run that must agree with it and leave an unsound store alone.
pub fn judge(checker: &mut Checker, words: &[u32]) -> Verdict<bool> {
    let sound = checker.sound(words)?;
    let ran = checker.kept(words, b"M,0\nT,0\nM,2\n", 96)?;
    if ran.done() != sound {
        return Err("kept_run and store_sound disagree".into());
    }
    Ok(sound)
}

pub fn single_changes(checker: &mut Checker) -> Verdict {
    let mut random = Random::new(5);
    let (mut sound, mut unsound) = (0, 0);
    for words in small_stores(&mut random) {
        let items = store::items(words.len()).expect("a store") as u32;
        judge(checker, &words)?;
        for at in 0..words.len() {
            for value in candidates(words[at], items) {
                let mut changed = words.clone();
                changed[at] = value;
                match judge(checker, &changed)? {
                    true => sound += 1,
                    false => unsound += 1,
                }
            }
        }
    }
    // Both verdicts must occur, or the campaign shows nothing.
    if sound < 100 || unsound < 100 {
        return Err(format!("only {sound} sound and {unsound} unsound changes"));
    }
    Ok(())
}

pub fn several_changes(checker: &mut Checker) -> Verdict {
    let mut random = Random::new(6);
    let stores = small_stores(&mut random);
    for _ in 0..60_000 {
        let mut words = random.pick(&stores).clone();
        change_a_few(&mut random, &mut words);
        judge(checker, &words)?;
    }
    Ok(())
}

/// Changes two to four words of a store.
pub fn change_a_few(random: &mut Random, words: &mut [u32]) {
    let items = store::items(words.len()).expect("a store") as u32;
    for _ in 0..2 + random.size(3) {
        let at = random.size(words.len());
        words[at] = match random.below(4) {
            0 => random.word() as u32,
            1 => words[random.size(words.len())],
            2 => *random.pick(&candidates(words[at], items)),
            _ => random.below(u64::from(items) + 2) as u32,
        };
    }
}

/// Writes an item that stands in no row: its neighbours and parent are as given.
fn stray(words: &mut [u32], item: u32, [parent, child, next, previous]: [u32; 4], rank: u32, state: u32) {
    let items = store::items(words.len()).expect("a store");
    let fields = [Field::Parent, Field::FirstChild, Field::LastChild, Field::Next, Field::Previous];
    for (field, word) in fields.into_iter().zip([parent, child, child, next, previous]) {
        words[index(items, field, item)] = word;
    }
    words[index(items, Field::Rank, item)] = rank;
    words[index(items, Field::State, item)] = state;
}

/// Items linked among themselves but reached from no first tree, with the count made to fit.
pub fn loops(checker: &mut Checker) -> Verdict {
    let mut random = Random::new(7);
    for held in 0..4 {
        let start = sheets::grown(&mut random, 6, 3 * held);
        let words = store::encode(&start);
        let free: Vec<u32> = (0..6).filter(|&item| words[index(6, Field::State, item)] == 0).collect();
        for heap in 0..8u32 {
            for added in 0..3 {
                for mark in 0..2 {
                    loops_in(checker, &words, &free, (heap, added, 1 + 2 * heap + mark))?;
                }
            }
        }
    }
    Ok(())
}

fn loops_in(checker: &mut Checker, words: &[u32], free: &[u32], (heap, added, state): (u32, u32, u32)) -> Verdict {
    let mut counted = words.to_vec();
    counted[heap_index(HeapField::Count, heap as usize)] += added;
    let mut check = |shape: &[(u32, [u32; 4], u32)]| {
        let mut changed = counted.clone();
        for &(item, links, rank) in shape {
            stray(&mut changed, item, links, rank, state);
        }
        judge(checker, &changed).map(drop)
    };
    if let [a, ..] = *free {
        check(&[(a, [NONE, NONE, NONE, NONE], 0)])?;
        check(&[(a, [a, a, NONE, NONE], 1)])?;
        check(&[(a, [NONE, NONE, a, a], 0)])?;
        check(&[(a, [NONE, a, NONE, NONE], 1)])?;
        let first = words[heap_index(HeapField::FirstTree, heap as usize)];
        check(&[(a, [first, NONE, NONE, NONE], 0)])?;
    }
    if let [a, b, ..] = *free {
        check(&[(a, [NONE, NONE, b, b], 0), (b, [NONE, NONE, a, a], 0)])?;
        check(&[(a, [b, b, NONE, NONE], 1), (b, [a, a, NONE, NONE], 1)])?;
        check(&[(a, [NONE, b, NONE, NONE], 1), (b, [a, NONE, NONE, NONE], 0)])?;
        check(&[(a, [NONE, NONE, b, NONE], 0), (b, [NONE, NONE, NONE, a], 0)])?;
    }
    Ok(())
}

/// Forests that break heap order, marks or the rank rule now and then, with words that fit them.
pub fn careless_forests(checker: &mut Checker) -> Verdict {
    let mut random = Random::new(8);
    let (mut sound, mut small_child) = (0, 0);
    for _ in 0..30_000 {
        let items = 1 + random.below(9) as u32;
        let queues = forest::careless(&mut random, items);
        let roots = || queues.rows.iter().flatten();
        let only_ranks_fail = roots().all(|root| !root.marked && store::ordered(root)) && !store::well_formed(&queues);
        small_child += u32::from(only_ranks_fail);
        sound += u32::from(judge(checker, &store::encode(&queues))?);
    }
    if sound < 1_000 || small_child < 1_000 {
        return Err(format!("only {sound} sound forests, {small_child} with a too small child"));
    }
    Ok(())
}

/// Every forest of up to four items in one heap, with every marking and every choice of keys 0 and 1.
pub fn every_small_forest(checker: &mut Checker) -> Verdict {
    for items in 1..=4u32 {
        let numbers: Vec<u32> = (0..items).collect();
        for row in forest::every_row(&numbers) {
            for bits in 0..1 << (2 * items) {
                let mut queues = heap_of(items, row.clone());
                let (mut keys, mut marks) = (bits & ((1 << items) - 1), bits >> items);
                forest::dress(&mut queues.rows[0], &mut keys, &mut marks);
                judge(checker, &store::encode(&queues))?;
            }
        }
    }
    Ok(())
}

pub fn heap_of(capacity: u32, trees: Vec<Tree>) -> Queues {
    let mut queues = Queues::new(capacity);
    queues.rows[0] = trees;
    queues
}
