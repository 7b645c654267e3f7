//! One entry at a time: the engine and the reference get the same input in separate buffers, and
//! everything that comes back is compared, untouched words and guard words included.

mod ceilings;
mod feeds;
mod turns;

pub use feeds::{BudgetCall, Fed, FeedCall, Full, Within};
pub use turns::Turned;

use crate::engine::{Engine, Part};
use reference::ledger::{allowance, potential, Ledger};
use reference::map::{self, FIELDS};
use reference::run::MODEM_ITEMS;
use reference::{program, run, store, text, Answer, Call, Queues};
use std::fmt::Debug;

pub type Verdict<T = ()> = Result<T, String>;

/// A buffer between two guards, so that a write outside the lent words is seen.
struct Guarded<T> {
    all: Vec<T>,
    guard: T,
}

const GUARD: usize = 16;

impl<T: Copy + PartialEq> Guarded<T> {
    fn new(content: &[T], guard: T) -> Guarded<T> {
        let mut all = vec![guard; GUARD];
        all.extend_from_slice(content);
        all.resize(all.len() + GUARD, guard);
        Guarded { all, guard }
    }

    fn lent(&mut self) -> &mut [T] {
        let end = self.all.len() - GUARD;
        &mut self.all[GUARD..end]
    }

    fn content(&self) -> &[T] {
        &self.all[GUARD..self.all.len() - GUARD]
    }

    /// The content, if both guards are as they were.
    fn intact(self, what: &str) -> Verdict<Vec<T>> {
        let end = self.all.len() - GUARD;
        let (before, after) = (&self.all[..GUARD], &self.all[end..]);
        if before.iter().chain(after).any(|word| *word != self.guard) {
            return Err(format!("{what}: written outside the lent buffer"));
        }
        Ok(self.content().to_vec())
    }
}

fn same<T: PartialEq + Debug>(what: &str, engine: &T, reference: &T) -> Verdict {
    if engine == reference {
        return Ok(());
    }
    let shown = |value: &T| format!("{value:?}").chars().take(300).collect::<String>();
    Err(format!("{what}: engine {}, reference {}", shown(engine), shown(reference)))
}

fn same_list<T: PartialEq + Debug>(what: &str, engine: &[T], reference: &[T]) -> Verdict {
    match engine.iter().zip(reference).position(|(a, b)| a != b) {
        Some(at) => Err(format!("{what}[{at}]: engine {:?}, reference {:?}", engine[at], reference[at])),
        None => same(what, &engine.len(), &reference.len()),
    }
}

/// Bytes that differ from place to place and never look like an answer.
fn pattern(length: usize) -> Vec<u8> {
    (0..length).map(|at| 128 + (at * 37 % 127) as u8).collect()
}

/// What a run left behind.
pub struct Ran {
    pub code: u32,
    pub bytes: usize,
    pub words: Vec<u32>,
    pub out: Vec<u8>,
}

impl Ran {
    pub fn done(&self) -> bool {
        self.code == 0
    }

    pub fn answers(&self) -> &[u8] {
        &self.out[..self.bytes]
    }
}

pub struct Checker<'a> {
    pub engine: &'a dyn Engine,
    pub cases: u64,
}

impl<'a> Checker<'a> {
    pub fn new(engine: &'a dyn Engine) -> Checker<'a> {
        Checker { engine, cases: 0 }
    }

    pub fn has(&self, part: Part) -> bool {
        self.engine.has(part)
    }

    pub fn modem(&mut self, sheet: &[u8], room: usize) -> Verdict<u32> {
        self.cases += 1;
        let mut out = Guarded::new(&pattern(room), 0xEE);
        let mut expected = pattern(room);
        let number = self.engine.queue_run(sheet, out.lent());
        let run = run::modem(sheet, &mut expected);
        same("queue_run", &number, &run.number())
            .and_then(|()| same_list("queue_run output", out.content(), &expected))
            .and_then(|()| out.intact("queue_run output"))
            .and_then(|out| demand_3(Queues::new(MODEM_ITEMS as u32), sheet, &out[..run.bytes]))
            .map_err(|fault| in_sheet(fault, sheet))?;
        Ok(number)
    }

    pub fn fresh(&mut self, words: &[u32], sheet: &[u8], room: usize) -> Verdict<Ran> {
        self.run(false, words, sheet, room)
    }

    pub fn kept(&mut self, words: &[u32], sheet: &[u8], room: usize) -> Verdict<Ran> {
        self.run(true, words, sheet, room)
    }

    fn run(&mut self, kept: bool, words: &[u32], sheet: &[u8], room: usize) -> Verdict<Ran> {
        self.cases += 1;
        let mut store = Guarded::new(words, 0xA5A5_A5A5);
        let mut out = Guarded::new(&pattern(room), 0xEE);
        let (mut expected_words, mut expected_out) = (words.to_vec(), pattern(room));
        let mut figures = [77; 2];
        let (code, expected) = if kept {
            let code = self.engine.kept_run(store.lent(), sheet, out.lent(), &mut figures);
            (code, run::kept(&mut expected_words, sheet, &mut expected_out))
        } else {
            let code = self.engine.fresh_run(store.lent(), sheet, out.lent(), &mut figures);
            (code, run::fresh(&mut expected_words, sheet, &mut expected_out))
        };
        let name = if kept { "kept_run" } else { "fresh_run" };
        let compared = || {
            same(name, &code, &expected.code)?;
            same(&format!("{name} figures"), &figures, &expected.figures())?;
            same_list(&format!("{name} output"), out.content(), &expected_out)?;
            same_list(&format!("{name} store"), store.content(), &expected_words)?;
            let (after, out) = (store.intact(name)?, out.intact(name)?);
            let start = if kept { store::sound(words) } else { store::items(words.len()).map(emptied) };
            demand_3(start.unwrap_or(Queues::new(0)), sheet, &out[..expected.bytes])?;
            Ok(Ran { code, bytes: expected.bytes, words: after, out })
        };
        compared().map_err(|fault| in_sheet(fault, sheet))
    }

    /// Compares the verdict on any words, and returns it.
    pub fn sound(&mut self, words: &[u32]) -> Verdict<bool> {
        self.cases += 1;
        let sound = store::sound(words).is_some();
        same("store_sound", &self.engine.store_sound(words), &u32::from(sound))
            .map_err(|fault| format!("{fault} on {:?}", &words[..words.len().min(120)]))?;
        Ok(sound)
    }

    /// Compares the map reader with span lists of the given lengths; returns the code.
    pub fn read(&mut self, text: &[u8], rooms: [usize; FIELDS]) -> Verdict<u32> {
        self.cases += 1;
        let lists: [Vec<u32>; FIELDS] = std::array::from_fn(|list| {
            (0..rooms[list] as u32).map(|at| at ^ (0xC000_0000 + ((list as u32) << 24))).collect()
        });
        let mut lent = lists.each_ref().map(|list| Guarded::new(list, 0xA5A5_A5A5));
        let mut figures = [77; 4];
        let code = self.engine.read_map(text, lent.each_mut().map(Guarded::lent), &mut figures);

        let mut expected = lists;
        let header = map::read(text, expected.each_mut().map(|list| &mut list[..]));
        let compared = || {
            same("read_map", &code, &header.code)?;
            same("read_map figures", &figures, &header.numbers())?;
            for (number, list) in lent.into_iter().enumerate() {
                same_list("read_map list", &list.intact("read_map list")?, &expected[number])?;
            }
            Ok(())
        };
        compared().map_err(|fault| in_sheet(fault, text))?;
        Ok(code)
    }

    pub fn queue_program(&mut self, input: &[u8]) -> Verdict {
        self.cases += 1;
        let printed = self.engine.queue_program(input);
        same_list("queue program", &printed, &program::queue(input)).map_err(|fault| in_sheet(fault, input))
    }

    pub fn feed_program(&mut self, input: &[u8]) -> Verdict {
        self.cases += 1;
        let printed = self.engine.feed_program(input);
        ceilings::printed_keeps_ceilings(input, &printed)
            .map_err(|fault| format!("feed program: {fault}"))
            .and_then(|()| same_list("feed program", &printed, &program::feed(input)))
            .map_err(|fault| in_sheet(fault, input))
    }
}

fn emptied(items: usize) -> Queues {
    Queues::new(items as u32)
}

/// Demand 3 between every two moments of a run, with the counts that it printed; a refused run printed nothing.
fn demand_3(mut queues: Queues, sheet: &[u8], answers: &[u8]) -> Verdict {
    let mut ledger = Ledger::open(potential(&queues));
    for (line, printed) in text::lines(sheet).into_iter().zip(text::lines(answers)) {
        let call = Call::parse(line);
        let allowed = allowance(&queues, call);
        queues.answer(call);
        let answer = Answer::parse(printed).ok_or("an answer is not five numbers")?;
        if !ledger.enter(answer, allowed, potential(&queues)) {
            return Err(format!("demand 3 fails at {}", String::from_utf8_lossy(line)));
        }
    }
    Ok(())
}

fn in_sheet(fault: String, sheet: &[u8]) -> String {
    let shown = String::from_utf8_lossy(&sheet[..sheet.len().min(400)]).replace('\n', " ");
    format!("{fault}; text of {} bytes: {shown}", sheet.len())
}
