//! Map texts.

use super::feeds::{expect, WORKED};
use crate::check::{Checker, Verdict};
use crate::malformed;
use crate::maps;
use crate::padding;
use crate::random::Random;
use reference::NONE;

/// A map text of exactly so many bytes.
fn sized_text(bytes: usize) -> Vec<u8> {
    let mut text = b"3,0,720\n".to_vec();
    while text.len() + 40 < bytes {
        text.extend_from_slice(b"0,1,1000000,0,1440\n");
    }
    while text.len() + 19 <= bytes {
        text.extend_from_slice(b"0,2,7,0,1\n");
    }
    // The last line takes up what is left, ten to nineteen bytes: a loss of one to ten digits.
    let digits = bytes - text.len() - 9;
    text.extend_from_slice(b"0,1,");
    text.extend(std::iter::repeat_n(b'1', digits));
    text.extend_from_slice(b",0,1\n");
    text
}

pub fn limits(checker: &mut Checker) -> Verdict {
    for (bytes, code) in [(59_999, 0), (60_000, 0), (60_001, 21), (60_002, 21)] {
        let text = sized_text(bytes);
        assert_eq!(text.len(), bytes);
        expect(checker.read(&text, [6_000; 5])?, code, "length of the text")?;
        expect(checker.read(&text, [10; 5])?, if code == 0 { 16 } else { 21 }, "lists run out")?;
    }
    let malformed = [
        "",
        "\n",
        "3",
        "3,0",
        "3,0,",
        "3,0,0,",
        ",0,0",
        "3,0,0,0",
        "3,0,0\n\n",
        "\n3,0,0",
        "3,0,0\r\n",
        "3,0,0\n0,1",
        "3,0,0\n0,1,2",
        "3,0,0\n0,1,2,3",
        "3,0,0\n0,1,2,3,",
        "3,0,0\n0,1,2,,4",
        "3,0,0\n0,1,2,3,4,5",
        "3,0,0\n0,1,2,3,4\n\n",
        "3,0,0\n\n0,1,2,3,4",
        "00000000003,0,0",
        "3,00000000000,0",
        "3,0,00000000000",
        "3,0,0\n0,00000000001,2,3,4",
        "3,0,0\n0,1,4294967296,3,4",
        "3,0,0\n0,1,2,4294967296,4",
        "3,0,0\n0,1,2,3,4294967296",
        "4294967296,0,0",
        "3,0,4294967296",
        "3,-1,0",
        "3,0,-1",
        "3,0,:",
        "3,0,0\n0,1,2/,3,4",
        "3,0,0\n0,1,2:,3,4",
        "3 ,0,0",
        "3,0,0\n0,1,2,3,4 ",
        "3,0,0\n0;1;2;3;4",
        "T,0",
        "3,0,0\nI,0,1,2,3",
        "3,0,0\n0,1,99999999999999999999,3,4",
        "3,0,0\n0,1,2,3,4\n0",
    ];
    for text in malformed {
        expect(checker.read(text.as_bytes(), [4; 5])?, 21, text)?;
        expect(checker.read(text.as_bytes(), [0, 1, 2, 3, 4])?, 21, text)?;
    }
    let fine = [
        "3,0,0",
        "3,0,0\n",
        "0,0,0",
        "03,00,000",
        "4294967295,4294967295,4294967295\n",
        "3,0,0\n0,1,2,3,4",
        "3,0,0\n0,1,2,3,4\n",
        "3,0,0\n0,01,2,003,4",
        "0000000003,0000000000,0000000001\n0000000000,0000000001,0000000002,0000000003,0000000004\n",
        "0,9,1440\n4294967295,7,0,4294967295,0\n9,9,9,9,9",
    ];
    for text in fine {
        expect(checker.read(text.as_bytes(), [4; 5])?, 0, text)?;
    }
    // No limit on lines but that of the bytes.
    let text = [&b"1,0,0\n"[..], &b"0,0,1,0,1\n".repeat(5_999)].concat();
    expect(checker.read(&text, [16_384; 5])?, 0, "many lines")
}

/// So many numbers, each with its place in the line.
fn numbers(count: usize) -> String {
    (1..=count).map(|number| number.to_string()).collect::<Vec<_>>().join(",")
}

/// First lines of one to five numbers, and span lines of one to seven in each place: three and five are right.
pub fn lines(checker: &mut Checker) -> Verdict {
    for head in 1..=5 {
        for count in 1..=7 {
            for at in 0..3 {
                let mut lines = [numbers(head), numbers(5), numbers(5), numbers(5)];
                lines[1 + at] = numbers(count);
                let code = if head == 3 && count == 5 { 0 } else { 21 };
                let text = lines.join("\n");
                expect(checker.read(text.as_bytes(), [3; 5])?, code, &text)?;
                expect(checker.read((text.clone() + "\n").as_bytes(), [4; 5])?, code, &text)?;
                expect(checker.read(text.as_bytes(), [2; 5])?, if code == 0 { 16 } else { 21 }, &text)?;
            }
        }
        expect(checker.read(numbers(head).as_bytes(), [0; 5])?, if head == 3 { 0 } else { 21 }, "no spans")?;
    }
    Ok(())
}

/// Each list one shorter or longer than the spans while the others are exact.
pub fn one_list(checker: &mut Checker) -> Verdict {
    let text = maps::text_at(3, 0, 720, &maps::open(&WORKED), false);
    expect(checker.read(&text, [3; 5])?, 0, "exact lists")?;
    for list in 0..5 {
        for room in [2, 4] {
            let mut rooms = [3; 5];
            rooms[list] = room;
            expect(checker.read(&text, rooms)?, 16, "one list of another length")?;
        }
    }
    Ok(())
}

/// Minutes and windows that no feed call accepts are read as they are, and each number stays in its own list.
pub fn ranges(checker: &mut Checker) -> Verdict {
    let ends = [0, 1, 719, 720, 1_439, 1_440, 1_441, 65_536, NONE];
    for minute in ends {
        for opens in ends {
            for closes in ends {
                let text = maps::text_at(3, 1, minute, &[[0, 1, 7, opens, closes], [2, 0, 9, closes, opens]], false);
                expect(checker.read(&text, [2; 5])?, 0, "any minutes")?;
            }
        }
    }
    Ok(())
}

pub fn texts(checker: &mut Checker) -> Verdict {
    let mut random = Random::new(14);
    for _ in 0..25_000 {
        let (call, _) = maps::with_windows(&mut random);
        let open = random.chance(40);
        let padded = *random.pick(&[0, 0, 30, 100]);
        let mut text = padding::pad(&mut random, padded, &maps::text_of(&call, open));
        for _ in 0..random.size(3) {
            malformed::damage(&mut random, &mut text);
        }
        let room = (call.from.len() + random.size(3)).saturating_sub(random.size(2));
        checker.read(&text, [room; 5])?;
    }
    Ok(())
}

/// Lists of every choice of lengths up to 4, on texts of up to three spans; and the same for a text with a fault.
pub fn lists(checker: &mut Checker) -> Verdict {
    for spans in 0..4u32 {
        let listed: Vec<[u32; 5]> =
            (0..spans).map(|span| [span, 70 + span, u32::MAX - span, 500 + span, 9_000 + span]).collect();
        let text = maps::text_at(5, 2, 1_200, &listed, spans % 2 == 0);
        let broken = [&text[..], b"x"].concat();
        for rooms in 0..5usize.pow(5) {
            let rooms = [1, 5, 25, 125, 625].map(|power| rooms / power % 5);
            checker.read(&text, rooms)?;
            checker.read(&broken, rooms)?;
        }
    }
    Ok(())
}
