//! Faults in reading maps.

use super::Mock;
use super::Variant::*;
use crate::engine::{Engine, Faithful};
use reference::feed::{is_faulty_window, MINUTES};
use reference::map::FIELDS;

const OPENS: usize = 3;
const CLOSES: usize = 4;

impl Mock {
    pub(super) fn faulty_map(&self, text: &[u8], mut lists: [&mut [u32]; FIELDS], figures: &mut [u32; 4]) -> u32 {
        let room = lists[0].len();
        if self.is(MapRoomTestedFirst) && lists.iter().any(|list| list.len() != room) {
            *figures = [0; 4];
            return 16;
        }
        let before = *figures;
        let code = self.read_into(&self.misread_lines(&self.misread(text)), &mut lists, figures);
        if code != 0 && self.is(MapListsTouchedOnRefusal) {
            lists[0].fill(0);
        }
        if code != 0 && self.is(MapFiguresLeftOnRefusal) {
            *figures = before;
        }
        if code == 0 {
            return self.spoil_map(lists, figures);
        }
        code
    }

    /// Reads, with a list of the right length in place of one that isn't compared.
    fn read_into(&self, text: &[u8], lists: &mut [&mut [u32]; FIELDS], figures: &mut [u32; 4]) -> u32 {
        let mut lent = lists.each_ref().map(|list| list.to_vec());
        let room = lent[0].len();
        if self.is(MapOpeningListNotCompared) {
            lent[OPENS].resize(room, 0);
        }
        if self.is(MapClosingListNotCompared) {
            lent[CLOSES].resize(room, 0);
        }
        let code = Faithful.read_map(text, lent.each_mut().map(|list| &mut list[..]), figures);
        for (list, read) in lists.iter_mut().zip(lent) {
            list.iter_mut().zip(read).for_each(|(word, number)| *word = number);
        }
        code
    }

    /// Faults in what a reading that is done leaves; returns its code.
    fn spoil_map(&self, lists: [&mut [u32]; FIELDS], figures: &mut [u32; 4]) -> u32 {
        let [places, start, minute, spans] = *figures;
        let [_, _, _, opens, closes] = lists;
        let windows = || opens.iter().zip(closes.iter()).take(spans as usize);
        let code = match self.variant {
            Some(MapWindowsTested) if windows().any(|(&opens, &closes)| is_faulty_window(opens, closes)) => 23,
            Some(MapMinuteTested) if minute >= MINUTES => 24,
            _ => 0,
        };
        match self.variant {
            Some(MapWindowsExchanged) => opens[..spans as usize].swap_with_slice(&mut closes[..spans as usize]),
            Some(MapWindowListsFilled) => closes[spans as usize..].fill(MINUTES),
            Some(MapMinuteMissing) => figures[2] = 0,
            Some(MapMinuteAfterSpans) => *figures = [places, start, spans, minute],
            Some(MapStartAndMinuteExchanged) => *figures = [places, minute, start, spans],
            _ => {}
        }
        if code != 0 {
            *figures = [0; 4];
        }
        code
    }

    /// The text in which the reference reads what this engine reads in the given one.
    fn misread_lines(&self, text: &[u8]) -> Vec<u8> {
        let lines = text.split_inclusive(|&byte| byte == b'\n').enumerate();
        let kept = lines.filter(|(_, line)| !self.is(MapEmptyLineSkipped) || *line != b"\n");
        kept.flat_map(|(number, line)| self.misread_line(number, line)).collect()
    }

    /// A line that is to be accepted with too few numbers gets more, one with too many loses the last.
    fn misread_line(&self, number: usize, line: &[u8]) -> Vec<u8> {
        let (content, end) = match line {
            [content @ .., b'\n'] => (content, &b"\n"[..]),
            content => (content, &b""[..]),
        };
        let fields: Vec<&[u8]> = content.split(|&byte| byte == b',').collect();
        let with = |more: &[u8]| [content, more, end].concat();
        let without_last = || [&fields[..fields.len() - 1].join(&b','), end].concat();
        match (self.variant, number, fields.len()) {
            (Some(MapTwoNumberHeadAccepted), 0, 2) => with(b",0"),
            (Some(MapFourthHeadNumberIgnored), 0, 4) => without_last(),
            (Some(MapThreeNumbersAccepted), 1.., 3) => with(b",0,1440"),
            (Some(MapFourNumbersAccepted), 1.., 4) => with(b",1440"),
            (Some(MapSixthNumberIgnored), 1.., 6) => without_last(),
            _ => line.to_vec(),
        }
    }
}
