//! The feed program, made of the wrong engine's own reader and feed call.

use super::Mock;
use super::Variant::*;
use crate::engine::FeedLists;
use reference::feed::{Asked, Spans};
use reference::map::FIELDS;
use reference::{program, store, NONE};

impl Mock {
    pub(super) fn faulty_feed_program(&self, text: &[u8]) -> String {
        let printed = self.table_text(text).unwrap_or_else(|code| format!("{code}\n"));
        match self.is(ProgramShowsNoneAsNumber) {
            true => printed.replace('-', "4294967295"),
            false => printed,
        }
    }

    fn table_text(&self, text: &[u8]) -> Result<String, u32> {
        let most = program::ITEMS + usize::from(self.is(ProgramHoldsOnePlaceMore));
        let room = program::SPANS + usize::from(self.is(ProgramHoldsOneSpanMore));
        let mut lists = [(); FIELDS].map(|()| vec![0; room]);
        let mut header = [0; 4];
        refused(self.faulty_map(text, lists.each_mut().map(|list| &mut list[..]), &mut header))?;
        let [places, start, minute, spans] = header;
        if places as usize > most {
            return Err(14);
        }
        if self.is(FeedProgramStoreOf8224Words) && places == 1024 {
            return Err(17);
        }
        let [from, to, loss, opens, closes] = lists.each_ref().map(|list| &list[..spans as usize]);
        let asked = Asked { places, start, minute, spans: Spans { from, to, loss, opens, closes } };
        let [best, last, joints] = &mut [(); 3].map(|()| vec![0; places as usize]);
        let (mut store, mut figures) = (vec![0; store::length(places as usize)], [0; 3]);
        refused(self.faulty_table(asked, FeedLists { best, last, joints, store: &mut store }, &mut figures))?;
        Ok(self.printed_table([best, last, joints], figures))
    }

    /// The lines of the program, with faults in the last field of a place.
    fn printed_table(&self, [best, last, joints]: [&[u32]; 3], figures: [u32; 3]) -> String {
        let with = |joints: Vec<u32>| program::printed_table([best, last, &joints], figures);
        let instead = |word: u32, other: u32| move |&hops: &u32| if hops == word { other } else { hops };
        match self.variant {
            Some(ProgramShowsJointsBeforeSpan) => program::printed_table([best, joints, last], figures),
            Some(ProgramShowsJointsBeforeLoss) => program::printed_table([joints, best, last], figures),
            Some(ProgramShowsZeroForNoJoints) => with(joints.iter().map(instead(NONE, 0)).collect()),
            Some(ProgramShowsNoJointsAtTheStart) => with(joints.iter().map(instead(0, NONE)).collect()),
            Some(ProgramOmitsJoints) => without_last_fields(&with(joints.to_vec()), best.len()),
            _ => with(joints.to_vec()),
        }
    }
}

/// The lines, of which the first few lose what is after their last comma.
fn without_last_fields(lines: &str, first: usize) -> String {
    let kept = |(number, line): (usize, &str)| match line.rsplit_once(',') {
        Some((start, _)) if number < first => format!("{start}\n"),
        _ => format!("{line}\n"),
    };
    lines.lines().enumerate().map(kept).collect()
}

fn refused(code: u32) -> Result<(), u32> {
    match code {
        0 => Ok(()),
        code => Err(code),
    }
}
