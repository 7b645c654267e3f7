//! Kept stores with amounts: any amount on a heap that has items, with key words that fit it, and stores that look like
//! that but are not sound.

use super::large_stores::large_shapes;
use super::raised_sheets::many_raises;
use super::stores::{candidates, heap_of, judge, small_stores};
use crate::check::{Checker, Verdict};
use crate::forest;
use crate::random::Random;
use crate::sheets;
use reference::store::{self, heap_index, index, Field, HeapField, Order};
use reference::{Queues, HEAPS};

/// Any amount, often one that is small, or that makes keys wrap.
fn amount(random: &mut Random) -> u32 {
    let any = random.word() as u32;
    let small = random.below(9) as u32;
    *random.pick(&[any, any, small, u32::MAX - small, (1 << 31) - small])
}

/// The same forests with an amount for each heap that has items: the keys stay, their words change.
pub fn with_amounts(random: &mut Random, queues: &Queues) -> Queues {
    let mut queues = queues.clone();
    for heap in (0..HEAPS).filter(|&heap| !queues.rows[heap].is_empty()).collect::<Vec<_>>() {
        queues.amounts[heap] = amount(random);
    }
    queues
}

/// Runs with and without amounts on the same forests answer the same, and leave the same forests.
pub fn same_answers(checker: &mut Checker) -> Verdict {
    let mut random = Random::new(37);
    for case in 0..900 {
        let items = 1 + random.below(30) as u32;
        let mut queues = sheets::grown(&mut random, items, 60);
        if case % 3 == 0 {
            queues = forest::careless(&mut random, items);
        }
        if !store::well_formed(&queues) {
            continue;
        }
        queues.amounts = [0; HEAPS];
        let raised = with_amounts(&mut random, &queues);
        let (words, raised_words) = (store::encode(&queues), store::encode(&raised));
        let every_call = b"M,0\nA,0,3\nD,0,0\nI,1,0,7\nJ,1,0\nT,1\nX,1\nA,1,4294967295\nT,1\n".to_vec();
        let count = 1 + random.size(60);
        for sheet in [vec![], every_call, many_raises(&mut random, &queues, count)] {
            let room = 32 * sheet.len();
            let (plain, ran) = (checker.kept(&words, &sheet, room)?, checker.kept(&raised_words, &sheet, room)?);
            if !checker.sound(&raised_words)? || !ran.done() || !checker.sound(&ran.words)? {
                return Err("a store with amounts is refused, or left unsound".into());
            }
            let rows = |words: &[u32]| store::sound(words).map(|queues| queues.rows);
            if ran.answers() != plain.answers() || rows(&ran.words) != rows(&plain.words) {
                return Err("a run on a store with amounts differs from the run without".into());
            }
        }
    }
    Ok(())
}

/// Words of a store without those of the amounts, as they were before request 6.
pub fn without_amounts(words: &[u32]) -> Vec<u32> {
    let amounts: Vec<usize> = (0..HEAPS).map(|heap| heap_index(HeapField::Amount, heap)).collect();
    words.iter().enumerate().filter(|(at, _)| !amounts.contains(at)).map(|(_, &word)| word).collect()
}

/// Stores as they were before request 6, with four words a heap and then the words by kind. Their length is that of a
/// store for one item less, of which they are no words: a host that keeps one is told so.
pub fn four_words_a_heap(checker: &mut Checker) -> Verdict {
    let mut random = Random::new(43);
    for case in 0..2_000 {
        let items = random.below(12) as u32;
        let mut queues = sheets::grown(&mut random, items, if case % 10 == 0 { 0 } else { 40 });
        queues.amounts = [0; HEAPS];
        let old = without_amounts(&Order::ByKind.encode(&queues));
        let code = checker.kept(&old, b"M,0\n", 32)?.code;
        if checker.sound(&old)? || code != if items == 0 { 1 } else { 5 } {
            return Err("a store with four words a heap is taken for one with five".into());
        }
        if !checker.sound(&store::encode(&queues))? {
            return Err("a store with amounts of 0 is not sound".into());
        }
    }
    Ok(())
}

/// The forests of small sound stores, of which each has an amount somewhere.
pub fn small_forests_with_amounts(random: &mut Random) -> Vec<Queues> {
    let found: Vec<Queues> = small_stores(random).iter().filter_map(|words| store::sound(words)).collect();
    let held = found.iter().filter(|queues| queues.rows.iter().any(|row| !row.is_empty()));
    held.map(|queues| with_amounts(random, queues)).collect()
}

/// Words in place of an amount or a key word at which a key of the store passes the largest number.
fn at_the_limit(queues: &Queues) -> Vec<u32> {
    let words = store::encode(queues);
    let keys = (0..queues.capacity).map(|item| words[index(queues.capacity as usize, Field::Key, item)]);
    let words = keys.chain(queues.amounts);
    words.flat_map(|word| [u32::MAX, 0, 1].map(|more| more.wrapping_sub(word))).collect()
}

/// Changes that were tried, unsound and sound ones, by what was changed: an amount, a key word, another word.
type Seen = [[u32; 2]; 3];

/// What the word at a place is: 0 for an amount, 1 for a key word, 2 for any other.
fn kind(order: Order, items: u32, at: usize) -> usize {
    let is_amount = (0..HEAPS).any(|heap| at == heap_index(HeapField::Amount, heap));
    let is_key = (0..items).any(|item| at == order.index(items as usize, Field::Key, item));
    if is_amount {
        0
    } else {
        2 - usize::from(is_key)
    }
}

/// Tries the words of the forests in an order, with each word changed; `tried` says whether it took them for sound.
pub fn change_each_word(
    order: Order,
    forests: &[Queues],
    mut tried: impl FnMut(&[u32]) -> Verdict<bool>,
) -> Verdict<Seen> {
    let mut seen = Seen::default();
    for queues in forests {
        let (items, words) = (queues.capacity, order.encode(queues));
        tried(&words)?;
        for at in 0..words.len() {
            let kind = kind(order, items, at);
            let mut values = candidates(words[at], items);
            if kind < 2 {
                values.extend(at_the_limit(queues).into_iter().filter(|&value| value != words[at]));
            }
            for value in values {
                let mut changed = words.clone();
                changed[at] = value;
                seen[kind][usize::from(tried(&changed)?)] += 1;
            }
        }
    }
    Ok(seen)
}

/// Both verdicts must occur often enough. No other word but an amount and a key can be changed alone.
pub fn suffices(seen: Seen) -> Verdict {
    let [[bad_amounts, amounts], [bad_keys, keys], [others, _]] = seen;
    match [bad_amounts, amounts, bad_keys, keys, others].iter().all(|&times| times >= 100) {
        true => Ok(()),
        false => Err(format!("only so many unsound and sound changes: {seen:?}")),
    }
}

/// Every word of small stores with amounts, changed.
pub fn single_changes(checker: &mut Checker) -> Verdict {
    let forests = small_forests_with_amounts(&mut Random::new(38));
    suffices(change_each_word(Order::ByItem, &forests, |words| judge(checker, words))?)
}

/// Several words changed: amounts, key words, any.
pub fn several_changes(checker: &mut Checker) -> Verdict {
    let mut random = Random::new(39);
    let stores: Vec<Vec<u32>> = small_forests_with_amounts(&mut random).iter().map(store::encode).collect();
    for _ in 0..30_000 {
        let mut words = random.pick(&stores).clone();
        let items = store::items(words.len()).expect("a store") as u32;
        for _ in 0..2 + random.size(3) {
            let at = match random.below(3) {
                0 => heap_index(HeapField::Amount, random.size(HEAPS)),
                1 => index(items as usize, Field::Key, random.below(items.into()) as u32),
                _ => random.size(words.len()),
            };
            words[at] = match random.below(3) {
                0 => amount(&mut random),
                1 => words[random.size(words.len())],
                _ => *random.pick(&candidates(words[at], items)),
            };
        }
        judge(checker, &words)?;
    }
    Ok(())
}

/// Forests that obey the rules only mostly, with amounts, some of them on empty heaps.
pub fn careless_forests(checker: &mut Checker) -> Verdict {
    let mut random = Random::new(40);
    let (mut sound, mut misleading, mut on_empty) = (0, 0, 0);
    for _ in 0..15_000 {
        let items = 1 + random.below(9) as u32;
        let queues = forest::careless(&mut random, items);
        let mut queues = with_amounts(&mut random, &queues);
        if random.chance(10) {
            let heap = random.size(HEAPS);
            queues.amounts[heap] = amount(&mut random);
        }
        let accepted = judge(checker, &store::encode(&queues))?;
        sound += u32::from(accepted);
        misleading += u32::from(accepted != in_order_by_words(&queues));
        on_empty += u32::from(!store::amounts_fit(&queues));
    }
    if sound < 1_000 || misleading < 1_000 || on_empty < 500 {
        return Err(format!("only {sound} sound, {misleading} misleading, {on_empty} with an amount on an empty heap"));
    }
    Ok(())
}

/// Whether the forests are well formed if key words are taken for keys.
pub fn in_order_by_words(queues: &Queues) -> bool {
    store::well_formed(&forest::by_words(queues))
}

/// The amounts of the heap in `every_small_store`.
const AMOUNTS: [u32; 5] = [0, 1, 2, u32::MAX - 1, u32::MAX];

/// Tries every forest of up to three items in one heap, with every marking, key words of 0, 1 and the largest number, and
/// amounts around them, as words in an order.
pub fn every_small_store(order: Order, mut tried: impl FnMut(&[u32]) -> Verdict) -> Verdict {
    let rows = |items: u32| forest::every_row(&(0..items).collect::<Vec<u32>>());
    let heaps = (1..=3).flat_map(|items| rows(items).into_iter().map(move |row| heap_of(items, row)));
    for queues in heaps {
        let items = queues.capacity;
        for number in 0..3u32.pow(items) << items {
            let mut words = dressed(order, queues.clone(), number);
            // The minimum is not worked out here, so that each item is tried as it.
            for (amount, first) in AMOUNTS.iter().flat_map(|&amount| (0..items).map(move |first| (amount, first))) {
                words[heap_index(HeapField::Amount, 0)] = amount;
                words[heap_index(HeapField::FirstItem, 0)] = first;
                tried(&words)?;
            }
        }
    }
    Ok(())
}

/// The words of heap 0 with marks and key words by the digits of a number.
fn dressed(order: Order, mut queues: Queues, number: u32) -> Vec<u32> {
    let items = queues.capacity;
    let (mut marks, mut no_keys) = (number & ((1 << items) - 1), 0);
    forest::dress(&mut queues.rows[0], &mut no_keys, &mut marks);
    let mut words = order.encode(&queues);
    for item in 0..items {
        let digit = (number >> items) / 3u32.pow(item) % 3;
        words[order.index(items as usize, Field::Key, item)] = [0, 1, u32::MAX][digit as usize];
    }
    words
}

pub fn every_small_forest(checker: &mut Checker) -> Verdict {
    every_small_store(Order::ByItem, |words| checker.sound(words).map(drop))
}

/// The largest shapes with amounts: the check, takings, and raises up to the largest number and beyond.
pub fn large_forests(checker: &mut Checker) -> Verdict {
    let mut random = Random::new(41);
    for step in [0, 7] {
        for queues in large_shapes(step) {
            let room = sheets::room(&queues, 0);
            let queues = with_amounts(&mut random, &queues);
            let words = store::encode(&queues);
            if !checker.sound(&words)? {
                return Err("a shape with amounts that should be sound is not".into());
            }
            let raised = [u64::from(room) + 1, u64::from(room), 1].map(|by| format!("A,0,{by}\n")).concat();
            for then in ["T,0\nM,0\n", "J,1,0\nT,1\nA,1,1\n", "X,1000\nT,0\n"] {
                checker.kept(&words, format!("{raised}{then}").as_bytes(), 6 * 32)?;
                checker.kept(&words, then.as_bytes(), 6 * 32)?;
            }
            for _ in 0..20 {
                let mut changed = words.clone();
                let item = random.below(queues.capacity.into()) as u32;
                let places = [heap_index(HeapField::Amount, 0), index(queues.capacity as usize, Field::Key, item)];
                let at = *random.pick(&places);
                changed[at] = *random.pick(&candidates(changed[at], queues.capacity));
                checker.sound(&changed)?;
            }
        }
    }
    Ok(())
}
