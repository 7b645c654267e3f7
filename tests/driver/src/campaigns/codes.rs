//! Worked runs, and every code of runs and lines at its exact limit.

use crate::check::{Checker, Verdict};
use crate::malformed;
use crate::sheets;
use reference::store::{self, heap_index, HeapField};

pub const WORKED: &[u8] = b"I,0,0,5\nI,0,1,3\nI,0,2,8\nI,0,3,1\nT,0\nD,0,2\nM,0\nT,1\n";
pub const WORKED_ANSWERS: &[u8] =
    b"0,0,5,0,0\n0,1,3,0,0\n0,2,8,0,0\n0,3,1,0,0\n0,3,1,1,0\n0,0,2,0,1\n0,0,2,0,0\n12,0,0,0,0\n";

/// Run (b), and the lowerings (c) and (d) that may follow it, with their answers.
const RUN_B: &[u8] = b"I,0,0,5\nI,0,1,3\nI,0,2,8\nI,0,3,1\nT,0\n";
const LOWERINGS: [(&[u8], &[u8]); 2] = [(b"D,0,4\n", b"0,0,4,0,0\n"), (b"D,0,3\n", b"0,0,3,0,1\n")];

/// Runs (e) to (h): the list of calls from nine insertions to the last taking.
pub const LONG_RUN: &[u8] = b"I,0,0,0\nI,0,1,10\nI,0,2,20\nI,0,3,30\nI,0,4,40\nI,0,5,50\nI,0,6,60\nI,0,7,70\n\
    I,0,8,80\nT,0\nD,8,5\nD,6,4\nD,7,3\nX,3\nT,0\n";

/// Joining, worked by hand: the minimum comes from either side, and the emptied heap is used again. The words left,
/// which are compared too, show the order of the joined row.
const JOINING: &[u8] =
    b"I,0,0,6\nI,0,1,4\nI,1,2,1\nI,1,3,3\nI,1,4,5\nT,1\nJ,0,1\nM,0\nM,1\nD,4,2\nI,1,5,8\nJ,0,1\nM,0\n";
const JOINING_ANSWERS: &[u8] =
    b"0,0,6,0,0\n0,1,4,0,0\n0,2,1,0,0\n0,3,3,0,0\n0,4,5,0,0\n0,2,1,1,0\n0,0,4,0,0\n0,3,3,0,0\n\
    12,0,0,0,0\n0,4,2,0,1\n0,5,8,0,0\n0,0,5,0,0\n0,4,2,0,0\n";

/// A sheet of exactly so many bytes: one long line that is no call.
fn bytes(length: usize) -> Vec<u8> {
    vec![b'M'; length]
}

/// Lines for code 3: only LF, or LF and an open last line.
fn blank_lines(count: usize, open: bool) -> Vec<u8> {
    let mut sheet = vec![b'\n'; if open { count - 1 } else { count }];
    if open {
        sheet.push(b'M');
    }
    sheet
}

/// Sheets and rooms around codes 2 to 4, alone and together.
fn limit_cases() -> Vec<(Vec<u8>, usize)> {
    let mut cases = vec![(Vec::new(), 0), (Vec::new(), 5), (WORKED.to_vec(), 8 * 32 + 40)];
    for length in [59_999, 60_000, 60_001, 60_002, 120_000] {
        for room in [0, 31, 32, 33] {
            cases.push((bytes(length), room));
        }
    }
    for lines in [1_999, 2_000, 2_001] {
        for open in [false, true] {
            for room in [32 * lines - 1, 32 * lines, 32 * lines + 7] {
                cases.push((blank_lines(lines, open), room));
            }
        }
    }
    for sheet in [&b"M,0"[..], b"M,0\n", b"\n", b"M,0\nM,0", b"M,0\n\n"] {
        for room in [0, 1, 31, 32, 33, 63, 64, 65] {
            cases.push((sheet.to_vec(), room));
        }
    }
    // Too long and too many lines at once: the earlier code counts.
    cases.push((vec![b'\n'; 60_001], 0));
    cases.push((vec![b'\n'; 60_000], 0));
    cases
}

pub fn modem(checker: &mut Checker) -> Verdict {
    for (sheet, room) in limit_cases() {
        checker.modem(&sheet, room)?;
    }
    checker.modem(LONG_RUN, 15 * 32)?;
    for line in malformed::NO_CALLS {
        checker.modem(line.as_bytes(), 32)?;
    }
    for lines in refusals(256) {
        checker.modem(lines.join("\n").as_bytes(), 32 * lines.len())?;
    }
    let number = checker.modem(WORKED, 8 * 32)?;
    if number as usize != WORKED_ANSWERS.len() {
        return Err(format!("the worked sheet gave {number}"));
    }
    Ok(())
}

pub fn worked_runs(checker: &mut Checker) -> Verdict {
    for items in [4, 9, 16, 256, 1024, 4096] {
        let dirty = vec![0xDEAD_BEEF; store::length(items)];
        let ran = checker.fresh(&dirty, WORKED, 8 * 32)?;
        if ran.answers() != WORKED_ANSWERS {
            return Err("the worked sheet has other answers than printed".into());
        }
        if items >= 9 && checker.fresh(&dirty, JOINING, 13 * 32)?.answers() != JOINING_ANSWERS {
            return Err("joining has other answers than worked by hand".into());
        }
        let after_b = checker.fresh(&dirty, RUN_B, 5 * 32)?.words;
        for (sheet, answer) in LOWERINGS {
            if checker.kept(&after_b, sheet, 32)?.answers() != answer {
                return Err("a lowering after (b) has another answer than worked by hand".into());
            }
        }
        checker.kept(&ran.words, LONG_RUN, 15 * 32)?;
        checker.fresh(&ran.words, LONG_RUN, 15 * 32)?;
        checker.fresh(&ran.words, b"", 0)?;
        checker.kept(&ran.words, b"", 3)?;
    }
    Ok(())
}

pub fn run_limits(checker: &mut Checker) -> Verdict {
    let sound = store::empty(3);
    let mut unsound = sound.clone();
    unsound[heap_index(HeapField::Count, 0)] = 1;
    for (sheet, room) in limit_cases() {
        for words in [&sound, &unsound, &unsound[1..].to_vec()] {
            checker.fresh(words, &sheet, room)?;
            checker.kept(words, &sheet, room)?;
        }
    }
    // 40 words and eight an item; 32 and eight an item is what they were before request 6.
    let lengths = (0..140).chain(32_760..32_840).chain([65_568, 65_576, 262_176, 262_184]);
    for length in lengths {
        for fill in [0, u32::MAX] {
            checker.fresh(&vec![fill; length], b"I,0,0,7\nM,0", 64)?;
            checker.kept(&vec![fill; length], b"M,0", 32)?;
            checker.sound(&vec![fill; length])?;
        }
    }
    for items in [0, 1, 2, 255, 256, 257, 4095, 4096] {
        checker.kept(&store::empty(items), b"I,0,0,7\nI,0,4095,7\nM,0\n", 96)?;
    }
    Ok(())
}

pub fn no_calls(checker: &mut Checker) -> Verdict {
    let start = checker.fresh(&store::empty(10), LONG_RUN, 15 * 32)?.words;
    let mut all = Vec::new();
    for line in malformed::NO_CALLS {
        checker.kept(&start, line.as_bytes(), 32)?;
        checker.fresh(&start, format!("{line}\n").as_bytes(), 32)?;
        all.push(line.as_bytes().to_vec());
    }
    // Every byte in place of each byte of a call, and between its bytes.
    for line in [&b"T,0"[..], b"D,6,4", b"J,0,1", b"A,0,9"] {
        for at in 0..=line.len() {
            for byte in 0..=255 {
                let mut changed = line.to_vec();
                changed.insert(at, byte);
                checker.kept(&start, &changed, 64)?;
                if at < line.len() {
                    changed.remove(at + 1);
                    checker.kept(&start, &changed, 64)?;
                }
            }
        }
    }
    checker.fresh(&start, &sheets::sheet(&all, false), 32 * all.len())?;
    Ok(())
}

/// Short sheets that end in a refusal, each code and each order of two conditions.
fn refusals(capacity: u64) -> Vec<Vec<String>> {
    let top = capacity - 1;
    let line = |text: String| vec![text];
    let mut sheets = vec![];
    for heap in ["7", "8", "9", "4294967295"] {
        for text in ["M,H", "T,H", "J,H,0", "J,0,H", "J,H,H", "I,H,0,0", "A,H,0", "A,H,4294967295"] {
            sheets.push(line(text.replace('H', heap)));
        }
        sheets.push(line(format!("I,{heap},{capacity},0")));
    }
    for item in [top, capacity, capacity + 1, 4_294_967_295] {
        for text in [format!("I,0,{item},3"), format!("D,{item},3"), format!("X,{item}")] {
            sheets.push(line(text));
        }
    }
    let insert = format!("I,3,{top},5");
    let taken_up = [
        format!("I,3,{top},5"),
        format!("I,4,{top},6"),
        format!("D,{top},5"),
        format!("D,{top},6"),
        format!("D,{top},4294967295"),
        format!("D,{top},0"),
        format!("X,{top}"),
        "M,3".into(),
        "M,4".into(),
        "T,4".into(),
        "J,3,3".into(),
        "J,4,3".into(),
        "J,3,4".into(),
        "J,3,8".into(),
        "A,3,0".into(),
        "A,3,4294967290".into(),
        "A,3,4294967291".into(),
        "A,4,4294967295".into(),
        "T,3".into(),
    ];
    for text in taken_up {
        sheets.push(vec![insert.clone(), text.clone()]);
        sheets.push(vec![insert.clone(), text.clone(), text.clone(), "M,3".into(), "M,4".into()]);
        sheets.push(line(text));
    }
    sheets
}

/// 6 to 13, and 25.
pub fn line_codes(checker: &mut Checker) -> Verdict {
    for capacity in [1u64, 2, 256, 1024, 4096] {
        for lines in refusals(capacity) {
            let words = store::empty(capacity as usize);
            checker.fresh(&words, lines.join("\n").as_bytes(), 32 * lines.len())?;
            checker.kept(&words, lines.join("\n").as_bytes(), 32 * lines.len() + 1)?;
        }
    }
    let nothing = store::empty(0);
    let sheet = b"I,0,0,0\nD,0,0\nX,0\nM,0\nT,7\nJ,0,1\nJ,1,1\nI,8,0,0\nM,8\nT,-7\nA,0,9\nA,8,0\n";
    checker.fresh(&nothing, sheet, 12 * 32)?;
    checker.kept(&nothing, sheet, 12 * 32)?;
    Ok(())
}
