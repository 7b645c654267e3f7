//! The two programs, from standard input to standard output.

use crate::feed::{self, Asked, Lent, Spans};
use crate::map::{self, Header, FIELDS};
use crate::run::{self, LINE_ROOM, MAX_LINES};
use crate::{store, NONE};

pub const ITEMS: usize = 1024;
pub const SPANS: usize = 4096;

pub fn queue(sheet: &[u8]) -> Vec<u8> {
    let mut out = vec![0; LINE_ROOM * MAX_LINES];
    let run = run::fresh(&mut vec![0; store::length(ITEMS)], sheet, &mut out);
    if run.code != 0 {
        return format!("{}\n", run.code).into_bytes();
    }
    out.truncate(run.bytes);
    out
}

pub fn feed(text: &[u8]) -> Vec<u8> {
    table_text(text).unwrap_or_else(|code| format!("{code}\n")).into_bytes()
}

fn table_text(text: &[u8]) -> Result<String, u32> {
    let mut lists = [(); FIELDS].map(|()| vec![0; SPANS]);
    let header = map::read(text, lists.each_mut().map(|list| &mut list[..]));
    if header.code != 0 {
        return Err(header.code);
    }
    if header.places as usize > ITEMS {
        return Err(14);
    }
    let Header { places, start, minute, .. } = header;
    let [from, to, loss, opens, closes] = lists.each_ref().map(|list| &list[..header.spans as usize]);
    let asked = Asked { places, start, minute, spans: Spans { from, to, loss, opens, closes } };
    let [mut best, mut last, mut joints] = [(); 3].map(|()| vec![0; places as usize]);
    let mut words = vec![0; store::length(places as usize)];
    let lent = Lent { best: &mut best, last: &mut last, joints: &mut joints, words: &mut words };
    let figures = feed::table(asked, lent);
    match figures.code {
        0 => Ok(printed_table([&best, &last, &joints], [figures.links, figures.cuts, figures.examined])),
        code => Err(code),
    }
}

/// The lines of a table, given as losses, spans and joints, and one with the figures.
pub fn printed_table([best, last, joints]: [&[u32]; 3], [links, cuts, examined]: [u32; 3]) -> String {
    let mut printed = String::new();
    for place in 0..best.len() {
        let [loss, span, hops] = [best[place], last[place], joints[place]].map(shown);
        printed += &format!("{place},{loss},{span},{hops}\n");
    }
    printed + &format!("{links},{cuts},{examined}\n")
}

fn shown(word: u32) -> String {
    if word == NONE {
        "-".to_string()
    } else {
        word.to_string()
    }
}
