//! Random sheets: fresh, line by line with demand 3, and cut into kept runs in every way.

use crate::check::{Checker, Ran, Verdict};
use crate::padding;
use crate::random::Random;
use crate::sheets::{self, Profile};
use reference::ledger::{allowance, potential, Ledger};
use reference::{store, text, Answer, Call, Queues};

const ITEMS: [u32; 10] = [0, 1, 2, 3, 5, 9, 17, 40, 100, 256];

fn random_sheet(random: &mut Random, items: u32, lines: usize) -> Vec<u8> {
    let profile = sheets::profile(random, lines);
    let lines = sheets::lines(random, &Queues::new(items), &profile);
    let open = random.chance(30);
    sheets::sheet(&lines, open)
}

fn short_count(random: &mut Random) -> usize {
    let limit = *random.pick(&[10, 60, 150, 500]);
    random.size(limit)
}

fn room_for(random: &mut Random, sheet: &[u8]) -> usize {
    32 * text::lines(sheet).len() + random.size(50)
}

pub fn modem_sheets(checker: &mut Checker) -> Verdict {
    let mut random = Random::new(1);
    for case in 0..2_000 {
        let items = *random.pick(&[4, 16, 60, 256, 256]);
        let count = if case % 40 == 39 { 2_000 } else { short_count(&mut random) };
        let sheet = random_sheet(&mut random, items, count);
        let room = room_for(&mut random, &sheet);
        checker.modem(&sheet, room)?;
    }
    Ok(())
}

pub fn fresh_sheets(checker: &mut Checker) -> Verdict {
    let mut random = Random::new(2);
    let mut coverage = Coverage::default();
    for case in 0..6_000 {
        let items = *random.pick(&ITEMS);
        let count = if case % 100 == 99 { 1_500 } else { short_count(&mut random) };
        let sheet = random_sheet(&mut random, items, count);
        let room = room_for(&mut random, &sheet);
        let dirty: Vec<u32> = (0..store::length(items as usize)).map(|_| random.word() as u32).collect();
        let ran = checker.fresh(&dirty, &sheet, room)?;
        if ran.done() && !checker.sound(&ran.words)? {
            return Err("a run left an unsound store".into());
        }
        coverage.add(&sheet, &ran);
    }
    coverage.suffices()
}

/// Every sheet of four calls with two heaps, three items, two keys and two raises.
pub fn every_short_sheet(checker: &mut Checker) -> Verdict {
    let of_heaps = ["M,0", "M,1", "T,0", "T,1", "J,0,1", "J,1,0", "A,0,1", "A,1,4294967295"];
    let mut calls: Vec<String> = of_heaps.map(String::from).to_vec();
    for item in 0..3 {
        calls.push(format!("X,{item}"));
        for key in 0..2 {
            calls.push(format!("D,{item},{key}"));
            calls.extend([0, 1].map(|heap| format!("I,{heap},{item},{key}")));
        }
    }
    let words = store::empty(3);
    for number in 0..calls.len().pow(4) {
        let digit = |place: u32| &calls[number / calls.len().pow(place) % calls.len()];
        let sheet = format!("{}\n{}\n{}\n{}\n", digit(3), digit(2), digit(1), digit(0));
        checker.fresh(&words, sheet.as_bytes(), 128)?;
    }
    Ok(())
}

/// How often each kind of answer was seen: a campaign that never meets one shows nothing about it.
#[derive(Default)]
struct Coverage {
    codes: [u32; 26],
    cascades: u32,
    long_cascades: u32,
    many_links: u32,
    padded: u32,
    raises: u32,
}

impl Coverage {
    fn add(&mut self, sheet: &[u8], ran: &Ran) {
        for (line, printed) in text::lines(sheet).into_iter().zip(text::lines(ran.answers())) {
            let answer = Answer::parse(printed).expect("compared with the reference");
            self.codes[answer.code as usize] += 1;
            self.cascades += u32::from(answer.cuts > 1);
            self.long_cascades += u32::from(answer.cuts > 3);
            self.many_links += u32::from(answer.links > 20);
            self.padded += u32::from(answer.code == 0 && padding::is_padded(line));
            self.raises += u32::from(answer.code == 0 && answer.key > 0 && line.starts_with(b"A"));
        }
    }

    fn suffices(&self) -> Verdict {
        let others = [self.cascades, self.long_cascades, self.many_links, self.padded, self.raises];
        let seen = [&self.codes[..1], &self.codes[6..14], &self.codes[25..], &others].concat();
        match seen.iter().all(|&times| times >= 100) {
            true => Ok(()),
            false => Err(format!("codes, cascades, links, zeros and raises were seen only {seen:?} times")),
        }
    }
}

/// Runs each line as a kept run of its own: every moment's words are seen.
pub fn ledger(checker: &mut Checker) -> Verdict {
    let mut random = Random::new(3);
    for _ in 0..600 {
        let items = 3 + random.below(60) as u32;
        let played = random.size(120);
        let start = sheets::grown(&mut random, items, played);
        let profile = sheets::profile(&mut random, 90);
        let lines = sheets::lines(&mut random, &start, &profile);
        follow(checker, &start, &lines)?;
    }
    Ok(())
}

/// Demand 3 between every two moments of a list of lines, on the engine's own answers and words.
fn follow(checker: &mut Checker, start: &Queues, lines: &[Vec<u8>]) -> Verdict {
    let mut words = store::encode(start);
    let mut before = start.clone();
    let mut ledger = Ledger::open(potential(start));
    let mut held = in_heaps(start) as i64;
    for line in lines {
        let shown = String::from_utf8_lossy(line);
        let call = Call::parse(line);
        let ran = checker.kept(&words, &[line, &b"\n"[..]].concat(), 64)?;
        let answer = ran.answers().strip_suffix(b"\n").and_then(Answer::parse);
        let answer = answer.ok_or(format!("no answer line to {shown}"))?;
        let after = store::sound(&ran.words).ok_or(format!("an unsound store after {shown}"))?;
        if !ledger.enter(answer, allowance(&before, call), potential(&after)) {
            return Err(format!("demand 3 fails at {shown}"));
        }
        held += change(call, answer);
        if in_heaps(&after) as i64 != held {
            return Err(format!("the item counts do not sum after {shown}"));
        }
        (words, before) = (ran.words, after);
    }
    Ok(())
}

fn in_heaps(queues: &Queues) -> usize {
    (0..reference::HEAPS).map(|heap| queues.count(heap)).sum()
}

/// How a call changes the number of items held.
fn change(call: Option<Call>, answer: Answer) -> i64 {
    match call {
        _ if answer.code != 0 => 0,
        Some(Call::Insert { .. }) => 1,
        Some(Call::ExtractMin { .. } | Call::Delete { .. }) => -1,
        _ => 0,
    }
}

pub fn every_cut(checker: &mut Checker) -> Verdict {
    let mut random = Random::new(4);
    for _ in 0..200 {
        let start = small_start(&mut random);
        let profile = Profile { malformed: 5, ..sheets::profile(&mut random, 7) };
        let lines = sheets::lines(&mut random, &start, &profile);
        for mask in 0..1u32 << lines.len() {
            let ends = (1..lines.len()).filter(|end| mask >> end & 1 == 1).collect::<Vec<_>>();
            cut(checker, &start, &lines, &ends, mask & 1 == 1)?;
        }
    }
    for _ in 0..12 {
        let start = small_start(&mut random);
        let profile = sheets::profile(&mut random, 60);
        let lines = sheets::lines(&mut random, &start, &profile);
        for end in 0..=lines.len() {
            cut(checker, &start, &lines, &[end], end % 2 == 0)?;
        }
    }
    Ok(())
}

/// The empty store of a fresh run, or what some sheet left.
fn small_start(random: &mut Random) -> Queues {
    let items = 3 + random.below(20) as u32;
    let played = if random.chance(40) { 0 } else { 30 };
    sheets::grown(random, items, played)
}

/// Runs the lines in pieces that end at `ends`, and again in one; answers and store must agree.
pub fn cut(checker: &mut Checker, start: &Queues, lines: &[Vec<u8>], ends: &[usize], open: bool) -> Verdict {
    let fresh = start.rows.iter().all(Vec::is_empty);
    let first = store::encode(start);
    let whole = sheets::sheet(lines, open && lines.last().is_some_and(|line| !line.is_empty()));
    let begin = |checker: &mut Checker, sheet: &[u8], words: &[u32], is_first: bool| -> Verdict<Ran> {
        let room = 32 * text::lines(sheet).len() + 3;
        if fresh && is_first {
            checker.fresh(words, sheet, room)
        } else {
            checker.kept(words, sheet, room)
        }
    };
    let expected = begin(checker, &whole, &first, true)?;
    let (mut words, mut answers, mut from) = (first, Vec::new(), 0);
    for (number, &end) in ends.iter().chain([&lines.len()]).enumerate() {
        let open_now = end == lines.len() && !whole.ends_with(b"\n") && from < end;
        let piece = sheets::sheet(&lines[from..end], open_now);
        let ran = begin(checker, &piece, &words, number == 0)?;
        answers.extend_from_slice(ran.answers());
        (words, from) = (ran.words, end);
    }
    if answers != expected.answers() || words != expected.words {
        return Err(format!("runs cut at {ends:?} differ from the run in one"));
    }
    Ok(())
}
