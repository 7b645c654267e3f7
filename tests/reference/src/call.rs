//! The seven calls, how a sheet line names them, and the answer to a line.

use crate::text;

#[derive(Clone, Copy, Debug, PartialEq, Eq)]
pub enum Call {
    Insert { heap: u32, item: u32, key: u32 },
    FindMin { heap: u32 },
    ExtractMin { heap: u32 },
    DecreaseKey { item: u32, key: u32 },
    Delete { item: u32 },
    Meld { into: u32, from: u32 },
    Raise { heap: u32, by: u32 },
}

impl Call {
    /// The call that a line names, if it names one.
    pub fn parse(line: &[u8]) -> Option<Call> {
        if line.len() < 2 || line[1] != b',' {
            return None;
        }
        let fields = text::numbers(&line[2..])?;
        match (line[0], &fields[..]) {
            (b'I', &[heap, item, key]) => Some(Call::Insert { heap, item, key }),
            (b'M', &[heap]) => Some(Call::FindMin { heap }),
            (b'T', &[heap]) => Some(Call::ExtractMin { heap }),
            (b'D', &[item, key]) => Some(Call::DecreaseKey { item, key }),
            (b'X', &[item]) => Some(Call::Delete { item }),
            (b'J', &[into, from]) => Some(Call::Meld { into, from }),
            (b'A', &[heap, by]) => Some(Call::Raise { heap, by }),
            _ => None,
        }
    }

    /// The heap numbers that the call carries.
    pub fn heaps(&self) -> Vec<u32> {
        match *self {
            Call::Insert { heap, .. }
            | Call::FindMin { heap }
            | Call::ExtractMin { heap }
            | Call::Raise { heap, .. } => vec![heap],
            Call::Meld { into, from } => vec![into, from],
            Call::DecreaseKey { .. } | Call::Delete { .. } => vec![],
        }
    }

    /// The item number that the call carries.
    pub fn item(&self) -> Option<u32> {
        match *self {
            Call::Insert { item, .. } | Call::DecreaseKey { item, .. } | Call::Delete { item } => Some(item),
            _ => None,
        }
    }
}

/// What one line answers; a refusal has its code and zeros.
#[derive(Clone, Copy, Debug, Default, PartialEq, Eq)]
pub struct Answer {
    pub code: u32,
    pub item: u32,
    pub key: u32,
    pub links: u32,
    pub cuts: u32,
}

impl Answer {
    pub fn refused(code: u32) -> Answer {
        Answer { code, ..Answer::default() }
    }

    pub fn done(item: u32, key: u32, links: u32, cuts: u32) -> Answer {
        Answer { code: 0, item, key, links, cuts }
    }

    /// The printed line, LF included.
    pub fn line(&self) -> String {
        format!("{},{},{},{},{}\n", self.code, self.item, self.key, self.links, self.cuts)
    }

    /// Reads a printed line (without LF) back; one with zeros in front of its numbers was never printed.
    pub fn parse(line: &[u8]) -> Option<Answer> {
        let [code, item, key, links, cuts] = text::numbers(line)?[..] else { return None };
        let answer = Answer { code, item, key, links, cuts };
        (answer.line().as_bytes() == [line, b"\n"].concat()).then_some(answer)
    }
}
