//! The two programs on whole inputs.

use super::codes;
use super::feeds;
use super::{raised_sheets, raises, ties, windows};
use crate::check::{Checker, FeedCall, Verdict};
use crate::malformed;
use crate::maps;
use crate::random::Random;
use crate::sheets;
use reference::Queues;

pub fn queue(checker: &mut Checker) -> Verdict {
    let one = |text: &str| text.as_bytes().to_vec();
    let mut inputs = vec![codes::WORKED.to_vec(), codes::LONG_RUN.to_vec(), vec![]];
    inputs.extend(
        ["\n", "M,0", "X,1023\nX,1024", "I,0,1023,4294967295\nI,0,1024,1\nM,0\n", "T,-7\nT,07\nJ,9,9\n"].map(one),
    );
    inputs.extend([vec![b'M'; 60_000], vec![b'M'; 60_001], vec![b'M'; 200_000]]);
    inputs.extend([vec![b'\n'; 2_000], vec![b'\n'; 2_001], vec![b'\n'; 60_001]]);
    inputs.push(malformed::NO_CALLS.join("\n").into_bytes());
    let mut random = Random::new(15);
    for _ in 0..40 {
        let items = *random.pick(&[5, 40, 1024]);
        let count = 1 + random.size(600);
        let profile = sheets::profile(&mut random, count);
        let lines = sheets::lines(&mut random, &Queues::new(items), &profile);
        let open = random.chance(30);
        inputs.push(sheets::sheet(&lines, open));
    }
    // All items held at once.
    let full: Vec<Vec<u8>> = (0..1024).map(|item| format!("I,0,{item},{}", item * 7919 % 64).into_bytes()).collect();
    let takings = vec![b"T,0".to_vec(); 976];
    inputs.push(sheets::sheet(&[full, takings].concat(), false));
    inputs.iter().try_for_each(|input| checker.queue_program(input))
}

/// Worked raises, and sheets of which many lines are raises.
pub fn queue_with_raises(checker: &mut Checker) -> Verdict {
    for lines in raises::WORKED {
        checker.queue_program(&raises::sheet_and_answers(lines).0)?;
    }
    let mut random = Random::new(42);
    for case in 0..40 {
        let items = *random.pick(&[4, 30, 1024]);
        let count = if case < 30 { 20 + random.size(100) } else { 700 };
        checker.queue_program(&raised_sheets::many_raises(&mut random, &Queues::new(items), count))?;
    }
    Ok(())
}

pub fn feed(checker: &mut Checker) -> Verdict {
    let mut inputs = vec![maps::text(3, 0, &feeds::WORKED, false), maps::text(3, 0, &feeds::WORKED, true)];
    let texts = [
        "",
        "\n",
        "3",
        "3,0",
        "3,3,0",
        "0,0,0",
        "1024,1023,1439",
        "1025,0,0",
        "1025,1025,1440\n0,1,2,0,1440",
        "4294967295,0,0",
        "3,0,0\n0,3,1,0,1440",
        "3,0,0\n0,1,0,0,1440",
        "3,0,0\n1,1,1,0,1440\n0,1,1,0,1440",
        "3,0,0\n0,1",
        "3,0\n0,1,7\n0,2,20\n1,2,5\n",
        "3,0,0\n0,1,7\n",
        "3,0,0\n0,1,7:,0,1440\n",
        "3,0,0\n0,1,1000001,0,1440",
        "3,0,0\n0,1,1000000,0,1440\n",
        "2,0,9\n0,1,1,0,1440\n0,1,1,0,1440\n1,1,1,0,1440\n1,0,1,0,1440\n",
        "1,0,0",
        "3,1,0\n0,1,7,0,1440\n",
        "4,0,1439\n0,1,2,0,1440\n0,2,1,0,1440\n1,3,1,0,1440\n2,3,2,0,1440\n",
    ];
    inputs.extend(texts.map(|text| text.as_bytes().to_vec()));
    // 4,096 spans fit, one more does not, whatever else is wrong with the map.
    for (count, places) in [(4_096, 2), (4_097, 2), (4_097, 1_025), (4_096, 1_025)] {
        inputs.push(maps::text(places, 0, &vec![[0, 1, 9]; count], false));
    }
    let head = &b"2,0,0\n"[..];
    inputs.extend([[head, &vec![b'0'; 60_000]].concat(), [head, &b"0,1,1,0,1\n".repeat(5_999)].concat()]);
    // The longest map that is read, and one byte more.
    let mut longest = b"1001,0,1439\n0,1,1,0,1440\n".to_vec();
    longest.extend(b"1000,1000,1000000,0,1440\n".repeat(2_399));
    assert_eq!(longest.len(), 60_000);
    inputs.extend([longest.clone(), [&longest[..], b"\n"].concat()]);
    let mut random = Random::new(16);
    for _ in 0..40 {
        let call = maps::small(&mut random);
        let mut text = maps::text_of(&call, false);
        if random.chance(30) {
            malformed::damage(&mut random, &mut text);
        }
        inputs.push(text);
    }
    for (count, losses) in [(3_000, 4), (2_300, 1_000_000)] {
        let spans = maps::scattered(&mut random, 1024, count, losses);
        inputs.push(maps::text(1024, 9, &spans, false));
    }
    inputs.iter().try_for_each(|input| checker.feed_program(input))
}

/// Windows and minutes at their limits, and faults side by side.
const WINDOW_TEXTS: [&str; 27] = [
    "3,0,1439\n0,1,7,1439,1440\n",
    "3,0,1440\n0,1,7,0,1440\n",
    "3,0,1440\n0,1,7\n",
    "3,0,1440\n0,3,0,5,5\n",
    "3,3,1440\n0,1,7,0,1440\n",
    "0,0,1440\n",
    "1025,0,1440\n0,1,7,0,1440\n",
    "3,0,4294967295\n",
    "3,0,0\n0,1,7,0,1441\n",
    "3,0,0\n0,1,7,600,600\n",
    "3,0,0\n0,1,7,601,600\n",
    "3,0,0\n0,1,7,1440,1440\n",
    "3,0,0\n0,1,7,1440,0\n",
    "3,0,0\n0,1,7,0,0\n0,3,7,0,1440\n",
    "3,0,0\n0,3,7,0,1440\n0,1,7,0,0\n",
    "3,0,0\n0,3,7,0,0\n",
    "3,0,0\n0,1,0,0,0\n",
    "3,0,0\n1,2,1,0,1440\n0,1,1,5,5\n",
    "3,0,0\n1,2,1,5,5\n0,1,1,0,1440\n",
    "3,0,0\n0,1,1000001,700,800\n",
    "3,0,0\n0,3,1,700,800\n",
    "3,0,0\n0,1,7,1440\n",
    "3,0,0\n0,1,7,0,1440,0\n",
    "3,0,0,0\n0,1,7,0,1440\n",
    "3,0\n0,1,7,0,1440\n",
    "3,0,65536\n0,1,7,0,1440\n",
    "3,0,0\n0,1,7,0,65537\n",
];

/// The feed program on worked maps, on faults of windows, and on maps at minutes around the ends of windows.
pub fn feed_at_minutes(checker: &mut Checker) -> Verdict {
    for (call, _) in windows::worked_calls() {
        checker.feed_program(&maps::text_of(&call, false))?;
    }
    for text in WINDOW_TEXTS {
        checker.feed_program(text.as_bytes())?;
    }
    // Too many spans come before a minute that is too late, and that before a window without minutes.
    for count in [4_096, 4_097] {
        checker.feed_program(&maps::text_at(2, 0, 1_440, &vec![[0, 1, 9, 5, 5]; count], false))?;
    }
    let tried = |call: &FeedCall| checker.feed_program(&maps::text_of(call, false));
    windows::at_their_minutes(&mut Random::new(26), 8, maps::with_windows, tried)
}

/// The feed program on maps with chains of equal loss, some of them with windows, and on a chain of all its places.
pub fn feed_with_ties(checker: &mut Checker) -> Verdict {
    for text in ties::worked_texts() {
        checker.feed_program(&text)?;
    }
    let mut random = Random::new(33);
    for _ in 0..60 {
        checker.feed_program(&maps::text_of(&maps::with_ties(&mut random, 12), false))?;
    }
    let tried = |call: &FeedCall| checker.feed_program(&maps::text_of(call, false));
    windows::at_their_minutes(&mut random, 12, maps::with_ties_and_windows, tried)?;
    checker.feed_program(&maps::text(1024, 0, &maps::chain(1024, 1), false))?;
    let (start, spans) = maps::heights(&mut random, 1024, 2_000, 5);
    checker.feed_program(&maps::text(1024, start, &spans, false))
}
