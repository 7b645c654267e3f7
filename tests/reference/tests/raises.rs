//! Raises, worked by hand: answers, amounts and words, heaps that empty, joins of raised heaps, and the check of stores
//! with amounts.

use reference::ledger::{allowance, potential};
use reference::store::{encode, heap_index, index, sound, Field, HeapField};
use reference::{Answer, Call, Queues, NONE};

fn play(queues: &mut Queues, line: &str) -> Answer {
    queues.answer(Call::parse(line.as_bytes()))
}

/// Plays lines that are given with their answers.
fn plays(queues: &mut Queues, lines: &[(&str, &str)]) {
    for (line, answer) in lines {
        assert_eq!(play(queues, line).line(), format!("{answer}\n"), "{line}");
    }
}

/// The key words of the first items.
fn key_words(queues: &Queues, count: usize) -> Vec<u32> {
    let words = encode(queues);
    (0..count as u32).map(|item| words[index(queues.capacity as usize, Field::Key, item)]).collect()
}

fn amount(queues: &Queues, heap: usize) -> u32 {
    encode(queues)[heap_index(HeapField::Amount, heap)]
}

#[test]
fn between_insertions() {
    let mut queues = Queues::new(4);
    plays(&mut queues, &[("I,0,0,5", "0,0,5,0,0"), ("A,0,10", "0,0,1,0,0"), ("I,0,1,12", "0,1,12,0,0")]);
    plays(&mut queues, &[("A,0,100", "0,0,2,0,0"), ("I,0,2,3", "0,2,3,0,0"), ("M,0", "0,2,3,0,0")]);
    // Keys 115, 112 and 3, and the amount 110.
    assert_eq!(key_words(&queues, 4), [5, 2, 3u32.wrapping_sub(110), 0]);
    assert_eq!(encode(&queues)[..5], [0, 2, 2, 3, 110]);
    plays(&mut queues, &[("T,0", "0,2,3,1,0"), ("T,0", "0,1,112,0,0"), ("T,0", "0,0,115,0,0"), ("T,0", "12,0,0,0,0")]);
    assert_eq!(encode(&queues), encode(&Queues::new(4)));
}

/// Run (e), raised by 1,000 before the lowerings of (f): their keys are compared with true keys, so the same cuts follow.
#[test]
fn lowering_after_a_raise() {
    let mut queues = Queues::new(9);
    for item in 0..9 {
        play(&mut queues, &format!("I,0,{item},{}", 10 * item));
    }
    plays(&mut queues, &[("T,0", "0,0,0,7,0"), ("A,0,1000", "0,0,8,0,0")]);
    plays(&mut queues, &[("D,8,1005", "0,8,1005,0,1"), ("D,6,1004", "0,6,1004,0,1"), ("D,7,1003", "0,7,1003,0,2")]);
    plays(&mut queues, &[("D,7,1004", "11,0,0,0,0"), ("D,7,1003", "0,7,1003,0,0"), ("X,3", "0,3,1030,0,1")]);
    plays(&mut queues, &[("T,0", "0,7,1003,3,0"), ("M,0", "0,6,1004,0,0")]);
    assert_eq!(amount(&queues, 0), 1000);
    let row: Vec<u32> = queues.rows[0].iter().map(|tree| tree.item).collect();
    assert_eq!(row, [4, 6]);
}

#[test]
fn join_of_two_raised_heaps() {
    let raised = || {
        let mut queues = Queues::new(5);
        plays(&mut queues, &[("I,0,0,1", "0,0,1,0,0"), ("I,0,1,2", "0,1,2,0,0"), ("A,0,100", "0,0,2,0,0")]);
        plays(&mut queues, &[("I,1,2,7", "0,2,7,0,0"), ("I,1,3,9", "0,3,9,0,0"), ("A,1,50", "0,1,2,0,0")]);
        queues
    };
    let mut queues = raised();
    plays(&mut queues, &[("J,0,1", "0,0,4,0,0"), ("M,0", "0,2,57,0,0"), ("M,1", "12,0,0,0,0")]);
    assert_eq!((amount(&queues, 0), amount(&queues, 1)), (100, 0));
    assert_eq!(key_words(&queues, 4), [1, 2, 57u32.wrapping_sub(100), 59u32.wrapping_sub(100)]);
    let mut queues = raised();
    plays(&mut queues, &[("J,1,0", "0,1,4,0,0"), ("M,1", "0,2,57,0,0")]);
    assert_eq!((amount(&queues, 0), amount(&queues, 1)), (0, 50));
    assert_eq!(key_words(&queues, 4), [51, 52, 7, 9]);
}

/// Into an empty heap, whose amount stays 0; and from an empty one, which changes nothing.
#[test]
fn joins_with_an_empty_heap() {
    let mut queues = Queues::new(2);
    plays(&mut queues, &[("I,3,1,6", "0,1,6,0,0"), ("A,3,4", "0,3,1,0,0")]);
    let before = encode(&queues);
    plays(&mut queues, &[("J,3,4", "0,3,1,0,0")]);
    assert_eq!(encode(&queues), before);
    plays(&mut queues, &[("J,4,3", "0,4,1,0,0")]);
    assert_eq!((amount(&queues, 3), amount(&queues, 4)), (0, 0));
    assert_eq!(key_words(&queues, 2), [0, 10]);
    plays(&mut queues, &[("M,4", "0,1,10,0,0")]);
}

/// Raise, lower, raise again: the amount passes 2^32 and goes on from 0.
#[test]
fn amounts_that_wrap() {
    let mut queues = Queues::new(2);
    plays(&mut queues, &[("I,0,0,0", "0,0,0,0,0"), ("A,0,4294967295", "0,0,1,0,0"), ("A,0,1", "25,0,0,0,0")]);
    assert_eq!((amount(&queues, 0), key_words(&queues, 1)), (u32::MAX, vec![0]));
    plays(&mut queues, &[("D,0,5", "0,0,5,0,0"), ("A,0,4000000000", "0,0,1,0,0"), ("M,0", "0,0,4000000005,0,0")]);
    assert_eq!((amount(&queues, 0), key_words(&queues, 1)), (3_999_999_999, vec![6]));
    plays(&mut queues, &[("I,0,1,2", "0,1,2,0,0"), ("M,0", "0,1,2,0,0"), ("A,0,294967290", "0,0,2,0,0")]);
    assert_eq!(amount(&queues, 0), 4_294_967_289);
    assert_eq!(key_words(&queues, 2), [6, 2u32.wrapping_sub(3_999_999_999)]);
    plays(&mut queues, &[("A,0,1", "25,0,0,0,0"), ("X,0", "0,0,4294967295,0,0"), ("A,0,1", "0,0,1,0,0")]);
    plays(&mut queues, &[("A,0,6", "0,0,1,0,0"), ("T,0", "0,1,294967299,0,0")]);
    assert_eq!(encode(&queues), encode(&Queues::new(2)));
}

#[test]
fn heaps_that_empty() {
    for (line, answer) in [("T,6", "0,1,12,0,0"), ("X,1", "0,1,12,0,0")] {
        let mut queues = Queues::new(2);
        plays(&mut queues, &[("I,6,1,5", "0,1,5,0,0"), ("A,6,7", "0,6,1,0,0"), (line, answer)]);
        assert_eq!(encode(&queues), encode(&Queues::new(2)), "{line}");
        // Used again, it begins with the amount 0.
        plays(&mut queues, &[("I,6,0,3", "0,0,3,0,0")]);
        assert_eq!((amount(&queues, 6), key_words(&queues, 1)), (0, vec![3]));
    }
}

#[test]
fn empty_heaps_are_raised_by_anything() {
    let mut queues = Queues::new(1);
    for (line, answer) in [("A,0,0", "0,0,0,0,0"), ("A,7,4294967295", "0,7,0,0,0"), ("A,8,0", "7,0,0,0,0")] {
        plays(&mut queues, &[(line, answer)]);
        assert_eq!(encode(&queues), encode(&Queues::new(1)));
    }
}

/// One too many for the largest key only, which may stand anywhere in its heap; other heaps don't matter.
#[test]
fn code_25() {
    let mut queues = Queues::new(4);
    for line in ["I,0,0,0", "I,0,1,1", "I,0,2,95", "I,1,3,4294967295", "T,0"] {
        assert_eq!(play(&mut queues, line).code, 0);
    }
    let before = encode(&queues);
    plays(&mut queues, &[("A,0,4294967201", "25,0,0,0,0"), ("A,0,4294967295", "25,0,0,0,0"), ("A,1,1", "25,0,0,0,0")]);
    assert_eq!(encode(&queues), before);
    plays(&mut queues, &[("A,1,0", "0,1,1,0,0"), ("A,0,4294967200", "0,0,2,0,0"), ("A,0,1", "25,0,0,0,0")]);
    plays(&mut queues, &[("X,2", "0,2,4294967295,0,1"), ("M,0", "0,1,4294967201,0,0"), ("A,0,94", "0,0,1,0,0")]);
    plays(&mut queues, &[("A,0,1", "25,0,0,0,0"), ("A,0,0", "0,0,1,0,0")]);
}

/// A raise has no allowance, and leaves trees and marks.
#[test]
fn raises_cost_nothing() {
    let mut queues = Queues::new(9);
    for item in 0..9 {
        play(&mut queues, &format!("I,0,{item},{}", 10 * item));
    }
    plays(&mut queues, &[("T,0", "0,0,0,7,0"), ("D,8,5", "0,8,5,0,1")]);
    let before = potential(&queues);
    for line in ["A,0,9", "A,1,9", "A,0,4294967295", "A,8,0"] {
        assert_eq!(allowance(&queues, Call::parse(line.as_bytes())), 0);
        play(&mut queues, line);
        assert_eq!(potential(&queues), before);
    }
}

/// Two items of heap 2, the second below the first: sound with any amount while the true keys are in heap order.
#[test]
fn stores_with_amounts() {
    let mut queues = Queues::new(3);
    for line in ["I,2,0,1", "I,2,1,4", "I,2,2,9", "T,2"] {
        assert_eq!(play(&mut queues, line).code, 0);
    }
    let words = encode(&queues);
    let with = |changes: &[(usize, u32)]| {
        let mut words = words.clone();
        changes.iter().for_each(|&(at, word)| words[at] = word);
        sound(&words)
    };
    let amount_of = |heap| heap_index(HeapField::Amount, heap);
    let key_of = |item| index(3, Field::Key, item);
    assert_eq!(queues.rows[2][0].children[0].item, 2);
    for amount in [0, 1, 1 << 31, u32::MAX - 9] {
        assert_eq!(with(&[(amount_of(2), amount)]).expect("sound").rows[2][0].key, 4 + amount);
    }
    // The key below wraps to a smaller one, then both wrap.
    assert!(with(&[(amount_of(2), u32::MAX - 8)]).is_none());
    assert!(with(&[(amount_of(2), u32::MAX - 4)]).is_none());
    assert_eq!(with(&[(amount_of(2), u32::MAX - 3)]).expect("sound").rows[2][0].key, 0);
    // Stored words out of order, true keys in order; and the other way round.
    assert!(with(&[(amount_of(2), 3), (key_of(1), u32::MAX), (key_of(2), 0)]).is_some());
    assert!(with(&[(amount_of(2), 3), (key_of(1), 0), (key_of(2), u32::MAX)]).is_none());
    for heap in [0, 1, 3, 4, 5, 6, 7] {
        assert!(with(&[(amount_of(heap), 1)]).is_none(), "an amount on an empty heap");
    }
    assert_eq!(words[amount_of(2) - 4..][..5], [1, 1, 1, 2, 0]);
    assert_eq!(words[amount_of(3) - 4..][..5], [NONE, NONE, NONE, 0, 0]);
}
