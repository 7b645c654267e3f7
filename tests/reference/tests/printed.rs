//! The two runs that the scope paper prints.

use reference::{program, run};

const SHEET: &str = "I,0,0,5\nI,0,1,3\nI,0,2,8\nI,0,3,1\nT,0\nD,0,2\nM,0\nT,1\n";
const ANSWERS: &str = "0,0,5,0,0\n0,1,3,0,0\n0,2,8,0,0\n0,3,1,0,0\n0,3,1,1,0\n0,0,2,0,1\n0,0,2,0,0\n12,0,0,0,0\n";

#[test]
fn queue_program() {
    assert_eq!(program::queue(SHEET.as_bytes()), ANSWERS.as_bytes());
    assert_eq!(program::queue(b""), b"");
    assert_eq!(program::queue(&[b'M'; 60_001]), b"2\n");
    assert_eq!(program::queue(&[b'\n'; 2_001]), b"3\n");
}

#[test]
fn modem_run() {
    let mut out = vec![7; 8 * 32];
    let run = run::modem(SHEET.as_bytes(), &mut out);
    assert_eq!(run.number() as usize, ANSWERS.len());
    assert_eq!((run.code, run.lines), (0, 8));
    assert_eq!(&out[..run.bytes], ANSWERS.as_bytes());
    assert!(out[run.bytes..].iter().all(|&byte| byte == 7));
}

#[test]
fn feed_program() {
    let printed = program::feed(b"3,0,0\n0,1,7,0,1440\n0,2,20,0,1440\n1,2,5,0,1440\n");
    assert_eq!(printed, b"0,0,-,0\n1,7,0,1\n2,12,2,2\n0,0,3\n");
    let padded = b"03,00,000\n0,1,0000000007,00,01440\n00,2,020,0,1440\n1,02,5,0000000000,1440\n";
    assert_eq!(program::feed(padded), printed);
    assert_eq!(program::feed(b"2,1,1439\n"), b"0,-,-,-\n1,0,-,0\n0,0,0\n");
    assert_eq!(program::feed(b""), b"21\n");
    assert_eq!(program::feed(b"1025,0,0\n"), b"14\n");
}

/// The same map with the last span open from 600 to 720 only.
#[test]
fn feed_program_at_a_minute() {
    let printed =
        |minute| program::feed(format!("3,0,{minute}\n0,1,7,0,1440\n0,2,20,0,1440\n1,2,5,600,720\n").as_bytes());
    for minute in [600, 601, 719] {
        assert_eq!(printed(minute), b"0,0,-,0\n1,7,0,1\n2,12,2,2\n0,0,3\n");
    }
    for minute in [0, 599, 720, 1_439] {
        assert_eq!(printed(minute), b"0,0,-,0\n1,7,0,1\n2,20,1,1\n0,0,3\n");
    }
    assert_eq!(printed(1_440), b"24\n");
    assert_eq!(program::feed(b"3,0,0\n0,1,7,600,600\n"), b"23\n");
    // What was a map before spans had windows.
    assert_eq!(program::feed(b"3,0\n0,1,7\n0,2,20\n1,2,5\n"), b"21\n");
}
