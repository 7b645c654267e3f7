//! Ceilings on links and cuts of a feed call that is done, tested on what it returned and on the losses that it left. This
//! needs no answer of the reference, only its formulas.

use super::Verdict;
use reference::ceiling::{ceiling, map_ceiling, sharp_map_ceiling};
use reference::text;

/// The size of a map, and what a call on it says of its work.
pub(super) struct Work {
    pub(super) places: u64,
    pub(super) spans: u64,
    /// The places that the table shows a loss for.
    pub(super) reached: u64,
    pub(super) links: u32,
    pub(super) cuts: u32,
    pub(super) examined: u64,
}

impl Work {
    /// The ceilings of the map, the higher one first, and that of the call, which is the lowest.
    pub(super) fn keeps_ceilings(&self) -> Verdict {
        let Work { places, spans, reached, examined, .. } = *self;
        self.has_a_ceiling()?;
        self.is_within(map_ceiling(places, spans), format!("a map of {places} places and {spans} spans"))?;
        if let Some(most) = sharp_map_ceiling(places, spans) {
            self.is_within(most, format!("a map of {places} places, at least 5, and {spans} spans"))?;
        }
        self.is_within(ceiling(reached, examined), format!("{reached} places reached and {examined} spans examined"))
    }

    /// The start is reached, and every other place over a span of its own: no term of the ceiling is negative.
    fn has_a_ceiling(&self) -> Verdict {
        let Work { reached, examined, .. } = *self;
        match 1 <= reached && reached <= examined + 1 {
            true => Ok(()),
            false => Err(format!("{reached} places are reached and {examined} spans examined, which has no ceiling")),
        }
    }

    fn is_within(&self, most: u64, of: String) -> Verdict {
        let Work { links, cuts, .. } = *self;
        match u64::from(links) + u64::from(cuts) <= most {
            true => Ok(()),
            false => Err(format!("{links} links and {cuts} cuts are above {most}, the ceiling of {of}")),
        }
    }
}

/// The same for the feed program: for the table and the figures that it prints on a map text. A code alone has no ceiling.
pub(super) fn printed_keeps_ceilings(map: &[u8], printed: &[u8]) -> Verdict {
    let lines = text::lines(printed);
    match lines.split_last() {
        Some((figures, table)) if !table.is_empty() => printed_work(map, table, figures)?.keeps_ceilings(),
        _ => Ok(()),
    }
}

/// The map's places and spans are taken from its text: a number of its first line, and the lines after it.
fn printed_work(map: &[u8], table: &[&[u8]], figures: &[u8]) -> Verdict<Work> {
    let lines = text::lines(map);
    let head = lines.first().and_then(|line| text::numbers(line)).ok_or("a table for a text without a first line")?;
    let figures = text::numbers(figures).ok_or("the last line is not made of numbers")?;
    let [links, cuts, examined] = figures[..] else { return Err("the last line is not three figures".into()) };
    let has_loss = |line: &&&[u8]| line.split(|&byte| byte == b',').nth(1).is_some_and(|loss| loss != b"-");
    Ok(Work {
        places: head[0].into(),
        spans: lines.len() as u64 - 1,
        reached: table.iter().filter(has_loss).count() as u64,
        links,
        cuts,
        examined: examined.into(),
    })
}

#[cfg(test)]
mod tests {
    use super::Work;

    fn fault(reached: u64, examined: u64, moves: u32) -> String {
        let work = Work { places: 11, spans: 55, reached, examined, links: moves - 1, cuts: 1 };
        work.keeps_ceilings().err().unwrap_or_default()
    }

    /// Of 11 places and 55 spans the ceilings are 265 and 235, of 5 places reached and 20 spans examined 84. Each is
    /// tested: one more than the lower ones is within the next.
    #[test]
    fn each_ceiling_by_itself() {
        assert_eq!(fault(5, 20, 84), "");
        assert!(fault(5, 20, 85).contains("above 84, the ceiling of 5 places reached and 20 spans examined"));
        assert!(fault(5, 20, 235).contains("above 84, "));
        assert!(fault(5, 20, 236).contains("above 235, the ceiling of a map of 11 places, at least 5, and 55 spans"));
        assert!(fault(5, 20, 265).contains("above 235, "));
        assert!(fault(5, 20, 266).contains("above 265, the ceiling of a map of 11 places and 55 spans"));
    }

    #[test]
    fn places_within_the_spans() {
        assert_eq!(fault(1, 0, 1), "");
        assert_eq!(fault(8, 7, 1), "");
        assert!(fault(0, 0, 1).contains("0 places are reached"));
        assert!(fault(8, 6, 1).contains("8 places are reached and 6 spans examined"));
    }
}
