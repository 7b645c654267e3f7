//! Lines that are no call, and damage to any text.

use crate::random::Random;

/// Lines that are no call, by one small fault each.
#[rustfmt::skip]
pub const NO_CALLS: [&str; 86] = [
    "", ",", ",0", "0", "T", "T,", "T0", "T,0,", "T,,0", "T,0,0", "TT,0", "t,0", " T,0", "T ,0", "T, 0", "T,0 ",
    "T,0\r", "\r", "\t", "T,00000000000", "T,00000000007", "T,07,", "T,0-7", "M,0 9", "M,9,", "M,8,1", "M,8\r",
    "T,+0", "T,-0", "T,-7", "T,-07", "T,04294967295", "T,/", "T,:", "T,0/", "I,0,0,5:", "X,0:",
    "T,0x0", "T,1e0", "T,0.0", "T,4294967296", "T,9999999999", "T,10000000000", "T,18446744073709551616", "I",
    "I,0", "I,0,0", "I,8,0", "I,9,9,9,9", "I,0,0,00000000000", "I,0,00000000000,0", "I,00000000000,0,0",
    "I,0,0,4294967296", "I,0,0,0,",
    "I,0,0,0,0", "D", "D,0", "D,0,0,0", "D,0,", "D,4294967296,0", "X", "X,", "X,0,0", "X,00000000001", "J", "J,0", "J,9",
    "J,0,1,2", "A", "A,", "A,0", "A,0,", "A,,1", "A,,", "A,0,1,", "A,0,1,2", "A,8", "A,8,", "A0,1", "a,0,1", "A,0,-1",
    "A,0,4294967296", "A,0,00000000001", "A,00000000000,1", "A,0,1\r", "A, 0,1",
];

pub fn line(random: &mut Random) -> Vec<u8> {
    if random.chance(50) {
        return random.pick(&NO_CALLS).as_bytes().to_vec();
    }
    let mut line =
        random.pick(&["I,0,1,5", "M,0", "T,0", "D,1,4294967295", "X,2", "J,0,1", "A,0,7"]).as_bytes().to_vec();
    for _ in 0..1 + random.size(2) {
        damage(random, &mut line);
    }
    line.retain(|&byte| byte != b'\n');
    line
}

/// Changes, adds or removes one byte.
pub fn damage(random: &mut Random, text: &mut Vec<u8>) {
    let byte = match random.below(4) {
        0 => random.below(256) as u8,
        _ => *random.pick(b"0123456789,,\n\r IMTDXJA-+"),
    };
    let at = random.size(text.len() + 1);
    match random.below(3) {
        0 => text.insert(at, byte),
        1 if at < text.len() => drop(text.remove(at)),
        _ if at < text.len() => text[at] = byte,
        _ => text.push(byte),
    }
}
