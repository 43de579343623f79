//! "Collect a WebVTT timestamp", step by step as document 003 has it, and where and at which step it fails (request Q-5).

use super::numbers::{is_digit, Decimal};
use super::{over_limit, Refusal};

/// The greatest hours of a time.
pub const GREATEST_HOURS: u64 = 99_999;
/// The greatest time in milliseconds: 99999:59:59.999.
pub const GREATEST_TIME: u64 = 3_600_000 * GREATEST_HOURS + 60_000 * 59 + 1_000 * 59 + 999;

/// A time that reads: its milliseconds, or hours above the limit.
#[derive(Debug, Clone, Copy, PartialEq, Eq)]
pub enum Time {
    At(u64),
    OverLimit,
}

/// What request Q-5 calls the steps that fail, in the order of their numbers, which count from 1.
#[derive(Debug, Clone, Copy, PartialEq, Eq)]
pub enum Fault {
    DigitMissing = 1,
    WrongDigitCount,
    ColonMissing,
    FullStopMissing,
    Over59,
    ArrowMissing,
    SomethingAfter,
}

/// The step that failed, and the position at that moment.
#[derive(Debug, Clone, Copy, PartialEq, Eq)]
pub struct Failed {
    pub fault: Fault,
    pub place: usize,
}

impl Failed {
    /// The values of an answer: the step's number, and the place.
    pub fn values(self) -> Vec<u64> {
        vec![self.fault as u64, self.place as u64]
    }
}

fn failed<T>(fault: Fault, place: usize) -> Result<T, Failed> {
    Err(Failed { fault, place })
}

fn collect_digits<'a>(input: &'a [u8], position: &mut usize) -> &'a [u8] {
    let from = *position;
    while *position < input.len() && is_digit(input[*position]) {
        *position += 1;
    }
    &input[from..*position]
}

/// Moves forwards over one character, or fails where it is not the one expected.
pub fn expect(input: &[u8], position: &mut usize, c: u8, fault: Fault) -> Result<(), Failed> {
    if input.get(*position) != Some(&c) {
        return failed(fault, *position);
    }
    *position += 1;
    Ok(())
}

/// Collects digits that have to be so many. The position is after them also where they are not.
fn collect_exactly<'a>(input: &'a [u8], position: &mut usize, count: usize) -> Result<&'a [u8], Failed> {
    let string = collect_digits(input, position);
    if string.len() != count {
        return failed(Fault::WrongDigitCount, *position);
    }
    Ok(string)
}

/// The number that a few digits make.
fn value(string: &[u8]) -> u64 {
    string.iter().fold(0, |number, &digit| number * 10 + u64::from(digit - b'0'))
}

/// The steps by their numbers. "Return an error" tells the step, and where the position is then.
pub fn collect_timestamp(input: &[u8], position: &mut usize) -> Result<Time, Failed> {
    // 2. Let most significant units be minutes.
    let mut hours_first = false;
    // 3. Past the end of input.
    if *position >= input.len() {
        return failed(Fault::DigitMissing, *position);
    }
    // 4. Not a digit.
    if !is_digit(input[*position]) {
        return failed(Fault::DigitMissing, *position);
    }
    // 5. Digits, as many as there are. 6. Their value is asked for where it counts, for they may be any number of digits.
    let string1 = collect_digits(input, position);
    // 7. Not exactly two characters, or value1 greater than 59.
    if string1.len() != 2 || value(string1) > 59 {
        hours_first = true;
    }
    // 8. A colon.
    expect(input, position, b':', Fault::ColonMissing)?;
    // 9, 10. Exactly two digits.
    let string2 = collect_exactly(input, position, 2)?;
    // 11.
    let mut value2 = value(string2);
    // 12. Hours, or one more colon.
    let hours: &[u8];
    let value3;
    if hours_first || input.get(*position) == Some(&b':') {
        // 12.1. A colon.
        expect(input, position, b':', Fault::ColonMissing)?;
        // 12.2, 12.3. Exactly two digits.
        let string3 = collect_exactly(input, position, 2)?;
        // 12.4.
        value3 = value(string3);
        hours = string1;
    } else {
        // 12, otherwise.
        value3 = value2;
        value2 = value(string1);
        hours = b"0";
    }
    // 13. A full stop.
    expect(input, position, b'.', Fault::FullStopMissing)?;
    // 14, 15. Exactly three digits.
    let string4 = collect_exactly(input, position, 3)?;
    // 16.
    let value4 = value(string4);
    // 17. Only now are the values tested.
    if value2 > 59 || value3 > 59 {
        return failed(Fault::Over59, *position);
    }
    // 18, 19, in milliseconds. Hours are at most 99,999.
    let hours = Decimal::read(hours).expect("digits");
    if hours.is_above(GREATEST_HOURS) {
        return Ok(Time::OverLimit);
    }
    let hours = hours.millionths() / 1_000_000;
    Ok(Time::At(3_600_000 * hours + 60_000 * value2 + 1_000 * value3 + value4))
}

/// The time of a timestamp tag, from what stands between `<` and `>`: "a time and nothing else".
pub fn whole_timestamp(value: &[u8]) -> Result<Time, Failed> {
    let mut position = 0;
    let time = collect_timestamp(value, &mut position)?;
    if position != value.len() {
        return failed(Fault::SomethingAfter, position);
    }
    Ok(time)
}

/// The values of an answer about a time: the step that fails and the place; or 0, the place where the time ends, and its milliseconds.
fn told(time: Result<Time, Failed>, end: usize) -> Result<Vec<u64>, Refusal> {
    match time {
        Err(failed) => Ok(failed.values()),
        Ok(Time::OverLimit) => Err(over_limit()),
        Ok(Time::At(milliseconds)) => Ok(vec![0, end as u64, milliseconds]),
    }
}

/// The timestamp that a text begins with.
pub fn time(text: &[u8]) -> Result<Vec<u64>, Refusal> {
    let mut position = 0;
    let time = collect_timestamp(text, &mut position);
    told(time, position)
}

/// The time that a text is.
pub fn tag_time(text: &[u8]) -> Result<Vec<u64>, Refusal> {
    told(whole_timestamp(text), text.len())
}
