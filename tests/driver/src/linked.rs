//! The real engine: static libraries through their C interface, programs as child processes.
//!
//! Features choose the libraries; the folder of the programs is taken from the environment.

#[cfg(feature = "engine-host")]
use crate::engine::{BudgetLists, FeedLists};
use crate::engine::{Engine, Part};
#[cfg(feature = "engine-modem")]
use crate::own_run;
#[cfg(feature = "engine-host")]
use crate::{budget_call, feed_call, lent_run};
#[cfg(feature = "engine-host")]
use reference::feed::{Asked, Spans};
use std::io::Write;
use std::path::PathBuf;
use std::process::{Command, Stdio};

/// Names the folder that holds the programs `queue` and `feed`.
pub const PROGRAMS: &str = "CABLE_QUEUE_BIN";

#[cfg(feature = "engine-host")]
extern "C" {
    fn store_sound(store: *const u32, store_len: usize) -> u32;
    fn read_map(
        text: *const u8,
        text_len: usize,
        from: *mut u32,
        from_len: usize,
        to: *mut u32,
        to_len: usize,
        loss: *mut u32,
        loss_len: usize,
        opens: *mut u32,
        opens_len: usize,
        closes: *mut u32,
        closes_len: usize,
        figures: *mut [u32; 4],
    ) -> u32;
}

#[cfg(feature = "engine-turn")]
extern "C" {
    fn turn_store(old: *const u32, old_len: usize, turned: *mut u32, turned_len: usize) -> u32;
}

pub struct Linked {
    programs: Option<PathBuf>,
}

impl Linked {
    pub fn from_environment() -> Linked {
        Linked { programs: std::env::var_os(PROGRAMS).map(PathBuf::from) }
    }

    /// True if nothing of the engine is there.
    pub fn is_absent(&self) -> bool {
        let libraries = cfg!(any(feature = "engine-modem", feature = "engine-host", feature = "engine-turn"));
        !libraries && self.programs.is_none()
    }

    fn program(&self, name: &str) -> Option<PathBuf> {
        self.programs.as_ref().map(|folder| folder.join(name)).filter(|path| path.is_file())
    }

    /// Feeds the input from another thread, since a program may print before it has read all.
    fn print(&self, name: &str, input: &[u8]) -> Vec<u8> {
        let path = self.program(name).expect("campaigns ask for the part first");
        let mut child =
            Command::new(path).stdin(Stdio::piped()).stdout(Stdio::piped()).spawn().expect("the program starts");
        let mut stdin = child.stdin.take().expect("piped");
        let input = input.to_vec();
        let writer = std::thread::spawn(move || {
            // A program may stop reading once the input is too long: a closed pipe is no fault.
            let _ = stdin.write_all(&input);
        });
        let output = child.wait_with_output().expect("the program ends");
        writer.join().expect("the writer ends");
        output.stdout
    }
}

impl Engine for Linked {
    fn has(&self, part: Part) -> bool {
        match part {
            Part::Modem => cfg!(feature = "engine-modem"),
            Part::Runs | Part::Feed | Part::Budget | Part::Map => cfg!(feature = "engine-host"),
            // Its campaigns run sheets on the stores that it leaves.
            Part::Turn => cfg!(all(feature = "engine-turn", feature = "engine-host")),
            Part::QueueProgram => self.program("queue").is_some(),
            Part::FeedProgram => self.program("feed").is_some(),
        }
    }

    #[cfg(feature = "engine-modem")]
    fn queue_run(&self, sheet: &[u8], out: &mut [u8]) -> u32 {
        own_run!(queue_run, sheet, out)
    }

    #[cfg(feature = "engine-host")]
    fn fresh_run(&self, store: &mut [u32], sheet: &[u8], out: &mut [u8], figures: &mut [u32; 2]) -> u32 {
        lent_run!(fresh_run, store, sheet, out, figures)
    }

    #[cfg(feature = "engine-host")]
    fn kept_run(&self, store: &mut [u32], sheet: &[u8], out: &mut [u8], figures: &mut [u32; 2]) -> u32 {
        lent_run!(kept_run, store, sheet, out, figures)
    }

    #[cfg(feature = "engine-host")]
    fn store_sound(&self, store: &[u32]) -> u32 {
        // SAFETY: pointer and length are those of a live slice.
        unsafe { store_sound(store.as_ptr(), store.len()) }
    }

    #[cfg(feature = "engine-turn")]
    fn turn_store(&self, old: &mut [u32], turned: &mut [u32]) -> u32 {
        // SAFETY: pointers and lengths are those of live slices that do not overlap.
        unsafe { turn_store(old.as_mut_ptr(), old.len(), turned.as_mut_ptr(), turned.len()) }
    }

    #[cfg(feature = "engine-host")]
    fn feed_table(&self, asked: Asked, lists: FeedLists, figures: &mut [u32; 3]) -> u32 {
        feed_call!(feed_table, asked, lists, figures)
    }

    #[cfg(feature = "engine-host")]
    fn feed_budget(&self, asked: Asked, budget: u32, lists: BudgetLists, figures: &mut [u32; 4]) -> u32 {
        budget_call!(feed_budget, asked, budget, lists, figures)
    }

    #[cfg(feature = "engine-host")]
    fn read_map(&self, text: &[u8], lists: [&mut [u32]; 5], figures: &mut [u32; 4]) -> u32 {
        // SAFETY: pointers and lengths are those of live slices that do not overlap.
        unsafe {
            let [from, to, loss, opens, closes] = lists;
            read_map(
                text.as_ptr(),
                text.len(),
                from.as_mut_ptr(),
                from.len(),
                to.as_mut_ptr(),
                to.len(),
                loss.as_mut_ptr(),
                loss.len(),
                opens.as_mut_ptr(),
                opens.len(),
                closes.as_mut_ptr(),
                closes.len(),
                figures,
            )
        }
    }

    fn queue_program(&self, input: &[u8]) -> Vec<u8> {
        self.print("queue", input)
    }

    fn feed_program(&self, input: &[u8]) -> Vec<u8> {
        self.print("feed", input)
    }
}
