//! Zeros in front of numbers: every count of them from 0 to 11, on values of every length, in every field of every call
//! and of both kinds of map lines. What a padded line must do is known from the same line without zeros.

use super::feeds::expect;
use crate::check::{Checker, Ran, Verdict};
use crate::padding::padded;
use crate::random::Random;
use crate::sheets::{self, Profile};
use reference::store;

/// Values of one to ten digits, the largest number and what is above it.
#[rustfmt::skip]
const VALUES: [u64; 15] = [
    0, 7, 42, 123, 4_095, 31_337, 271_828, 3_141_592, 27_182_818, 314_159_265, 1_414_213_562, 4_294_967_295,
    4_294_967_296, 9_999_999_999, 10_000_000_000,
];
const ZEROS: std::ops::RangeInclusive<usize> = 0..=11;

/// Each kind of call, with numbers by which it is done after `BEFORE`.
const CALLS: [(char, &[u64]); 7] =
    [('I', &[1, 9, 40]), ('M', &[7]), ('T', &[7]), ('D', &[42, 5]), ('X', &[123]), ('J', &[0, 7]), ('A', &[7, 30])];

/// Items with numbers of one to four digits, in three heaps.
const BEFORE: &str = "I,0,0,4294967295\nI,0,7,27182818\nI,0,42,31337\nI,7,123,123\nI,7,255,42\nI,1,4095,7\n";
/// What shows the heaps after a call.
const AFTER: &str = "M,0\nM,1\nM,7\n";

/// Every field of every call: the letter, the other fields and which one is open.
fn fields() -> impl Iterator<Item = (char, &'static [u64], usize)> {
    CALLS.into_iter().flat_map(|(letter, numbers)| (0..numbers.len()).map(move |field| (letter, numbers, field)))
}

/// Whether digits with so many zeros in front are a number.
fn is_number(zeros: usize, value: u64) -> bool {
    zeros + value.to_string().len() <= 10 && value <= 4_294_967_295
}

fn line_with(letter: char, numbers: &[u64], field: usize, text: &str) -> String {
    let mut line = String::from(letter);
    for (at, number) in numbers.iter().enumerate() {
        line += &if at == field { format!(",{text}") } else { format!(",{number}") };
    }
    line
}

fn sheet_with(line: &str) -> String {
    format!("{BEFORE}{line}\n{AFTER}")
}

pub fn calls(checker: &mut Checker) -> Verdict {
    let words = store::empty(4_096);
    let mut run = |line: &str| -> Verdict<Ran> { checker.fresh(&words, sheet_with(line).as_bytes(), 10 * 32) };
    let refused = run("no call")?;
    for (letter, numbers, field) in fields() {
        for value in VALUES {
            let plain = run(&line_with(letter, numbers, field, &value.to_string()))?;
            for zeros in ZEROS {
                let line = line_with(letter, numbers, field, &padded(zeros, value));
                let ran = run(&line)?;
                let right = if is_number(zeros, value) { &plain } else { &refused };
                if ran.answers() != right.answers() || ran.words != right.words {
                    return Err(format!("{line} is not answered as its number without zeros, or as no call"));
                }
            }
        }
    }
    Ok(())
}

pub fn modem(checker: &mut Checker) -> Verdict {
    for (letter, numbers, field) in fields() {
        for value in VALUES {
            for zeros in ZEROS {
                let line = line_with(letter, numbers, field, &padded(zeros, value));
                checker.modem(sheet_with(&line).as_bytes(), 10 * 32)?;
            }
        }
    }
    // All fields at once.
    for (letter, numbers) in CALLS {
        for digits in 1..=12 {
            let line = numbers.iter().fold(String::from(letter), |line, number| format!("{line},{number:0digits$}"));
            checker.modem(sheet_with(&line).as_bytes(), 10 * 32)?;
        }
    }
    // The longest lines that are calls: 1,714 of 35 bytes are within a sheet's length, one more is not.
    let longest = "I,0000000000,0000000000,0000000000\n";
    for lines in [1_713, 1_714, 1_715, 2_000] {
        checker.modem(longest.repeat(lines).as_bytes(), 32 * lines)?;
    }
    Ok(())
}

/// Sheets in which nearly every number has zeros in front, cut after each line and run line by line.
pub fn continued(checker: &mut Checker) -> Verdict {
    let mut random = Random::new(17);
    for _ in 0..40 {
        let items = 3 + random.below(20) as u32;
        let start = sheets::grown(&mut random, items, 20);
        let profile = Profile { padding: 90, malformed: 2, ..sheets::profile(&mut random, 24) };
        let lines = sheets::lines(&mut random, &start, &profile);
        let first = store::encode(&start);
        let whole = checker.kept(&first, &sheets::sheet(&lines, false), 24 * 32)?;
        for end in 0..=lines.len() {
            in_pieces(checker, &first, &[&lines[..end], &lines[end..]], &whole)?;
        }
        let singly: Vec<&[Vec<u8>]> = lines.chunks(1).collect();
        in_pieces(checker, &first, &singly, &whole)?;
    }
    Ok(())
}

fn in_pieces(checker: &mut Checker, first: &[u32], pieces: &[&[Vec<u8>]], whole: &Ran) -> Verdict {
    let (mut words, mut answers) = (first.to_vec(), Vec::new());
    for piece in pieces {
        let ran = checker.kept(&words, &sheets::sheet(piece, false), 24 * 32)?;
        answers.extend_from_slice(ran.answers());
        words = ran.words;
    }
    match answers == whole.answers() && words == whole.words {
        true => Ok(()),
        false => Err("a sheet with zeros in front of its numbers differs when it is cut".into()),
    }
}

/// Map texts with one field open, in the first line or in a span line, and the file's end before or after a last LF.
fn map_texts(text: &str) -> Vec<String> {
    let maps = [
        "#,0,0\n0,1,7,0,1440\n",
        "3,#,0\n0,1,7,0,1440\n",
        "3,0,#\n0,1,7,0,1440\n",
        "3,0,0\n#,1,7,0,1440\n0,2,9,0,1440\n",
        "3,0,0\n0,#,7,0,1440\n0,2,9,0,1440",
        "3,0,0\n0,2,9,0,1440\n0,1,#,0,1440",
        "3,0,0\n0,1,#,0,1440\n",
        "3,0,0\n0,1,7,#,1440\n0,2,9,0,1440\n",
        "3,0,0\n0,2,9,0,1440\n0,1,7,0,#",
        "3,0,0\n0,1,7,0,#\n",
    ];
    maps.iter().map(|map| map.replace('#', text)).collect()
}

pub fn maps(checker: &mut Checker) -> Verdict {
    for value in VALUES {
        for zeros in ZEROS {
            let code = if is_number(zeros, value) { 0 } else { 21 };
            for text in map_texts(&padded(zeros, value)) {
                expect(checker.read(text.as_bytes(), [3; 5])?, code, &text)?;
            }
        }
    }
    Ok(())
}

/// All padded calls in few sheets, since each is a process.
pub fn queue_program(checker: &mut Checker) -> Verdict {
    for (letter, numbers, field) in fields() {
        let mut sheet = String::from(BEFORE);
        for value in [0, 7, 1_023, 1_024, 4_294_967_295, 4_294_967_296] {
            for zeros in ZEROS {
                sheet += &line_with(letter, numbers, field, &padded(zeros, value));
                sheet += "\n";
            }
            sheet += AFTER;
        }
        checker.queue_program(sheet.as_bytes())?;
    }
    Ok(())
}

pub fn feed_program(checker: &mut Checker) -> Verdict {
    for value in [2, 1_440, 1_000_000, 4_294_967_295, 4_294_967_296] {
        for zeros in ZEROS {
            for text in map_texts(&padded(zeros, value)) {
                checker.feed_program(text.as_bytes())?;
            }
        }
    }
    Ok(())
}
