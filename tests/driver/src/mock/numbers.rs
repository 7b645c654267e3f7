//! Faults in reading numbers, for sheets and maps alike.

use super::Variant::*;
use super::{Mock, Variant};
use reference::run::MAX_BYTES;
use reference::text;
use std::borrow::Cow;

const FAULTS: [Variant; 10] = [
    PaddedNumberRefused,
    ElevenDigitsAccepted,
    AnyZerosAccepted,
    FirstNineDigitsRead,
    DigitDroppedWithZeros,
    PaddedNumberReadAsOctal,
    TenDigitsRefused,
    NumberAboveTheLargestWraps,
    NumberAboveTheLargestLowered,
    ColonReadAsDigit,
];

impl Mock {
    /// The text in which the reference reads what this engine reads in the given one: each run of digits is
    /// replaced by what it is taken for. No text becomes longer.
    pub(super) fn misread<'a>(&self, text: &'a [u8]) -> Cow<'a, [u8]> {
        if text.len() > MAX_BYTES || !self.variant.is_some_and(|variant| FAULTS.contains(&variant)) {
            return Cow::Borrowed(text);
        }
        let is_digit = |byte: u8| byte.is_ascii_digit() || byte == b':' && self.is(ColonReadAsDigit);
        let parts = text.chunk_by(|&a, &b| is_digit(a) == is_digit(b));
        let taken_for = |part: &[u8]| match is_digit(part[0]) {
            true => self.number(part).map_or(b"x".to_vec(), |number| number.to_string().into_bytes()),
            false => part.to_vec(),
        };
        Cow::Owned(parts.flat_map(taken_for).collect())
    }

    /// What a run of digits is read as.
    fn number(&self, digits: &[u8]) -> Option<u32> {
        let zeros = digits.iter().take_while(|&&digit| digit == b'0').count();
        let padded = zeros > 0 && digits.len() > 1;
        match self.variant {
            Some(PaddedNumberRefused) if padded => None,
            Some(TenDigitsRefused) if digits.len() == 10 => None,
            Some(ElevenDigitsAccepted) if digits.len() == 11 && padded => text::number(&digits[1..]),
            Some(AnyZerosAccepted) if digits.len() > 10 => text::number(&digits[zeros.min(digits.len() - 1)..]),
            Some(FirstNineDigitsRead) if digits.len() == 10 => text::number(&digits[..9]),
            Some(DigitDroppedWithZeros) if padded && digits.len() <= 10 => {
                text::number(&digits[(zeros + 1).min(digits.len() - 1)..])
            }
            Some(PaddedNumberReadAsOctal) if padded && digits.len() <= 10 => {
                u32::from_str_radix(&String::from_utf8_lossy(digits), 8).ok()
            }
            Some(NumberAboveTheLargestWraps) if digits.len() == 10 => {
                String::from_utf8_lossy(digits).parse::<u64>().ok().map(|value| value as u32)
            }
            Some(NumberAboveTheLargestLowered) if digits.len() == 10 => {
                String::from_utf8_lossy(digits).parse::<u64>().ok().map(|value| value.min(u32::MAX.into()) as u32)
            }
            Some(ColonReadAsDigit) if digits.len() <= 10 => {
                let value = digits.iter().fold(0, |value, &digit| 10 * value + u64::from(digit - b'0'));
                u32::try_from(value).ok()
            }
            _ => text::number(digits),
        }
    }
}
