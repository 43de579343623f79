//! Times by themselves, as timing lines and the tags of a cue's text have them: read, or where the reading fails and at which step.
use crate::file::accepted;
use crate::lent::{self, Values};
use crate::refusal::Refusal;
use std::fmt;

/// The step at which the reading of a time fails: the first failing one of the standard's "collect a WebVTT timestamp", and what timing lines and
/// tags add. It prints as the words of a sentence.
#[derive(Clone, Copy, Debug, PartialEq, Eq)]
pub enum TimeFault {
    /// 1: no digit stands where the time begins.
    DigitMissing,
    /// 2: not two digits stand after a colon, or not three after the full stop. The place is after them.
    WrongDigitCount,
    /// 3: no colon stands after the first digits, or after the second where the first are hours.
    ColonMissing,
    /// 4: no full stop stands after the seconds.
    FullStopMissing,
    /// 5: minutes or seconds are above 59. This is the last test, so the place is where the time ends.
    Over59,
    /// 6, of a timing line alone: no `-->` stands after the start time. The place is that of the first of its characters that is not there.
    ArrowMissing,
    /// 7, of a tag alone: something stands after the time.
    SomethingAfter,
}

/// The steps in the order of their numbers, from 1, and their words.
const STEPS: [(TimeFault, &str); 7] = [
    (TimeFault::DigitMissing, "digit missing"),
    (TimeFault::WrongDigitCount, "wrong digit count"),
    (TimeFault::ColonMissing, "colon missing"),
    (TimeFault::FullStopMissing, "full stop missing"),
    (TimeFault::Over59, "value over 59"),
    (TimeFault::ArrowMissing, "arrow missing"),
    (TimeFault::SomethingAfter, "something after the time"),
];

impl TimeFault {
    /// The step's number, 1 to 7, as the functions over lent memory tell it.
    pub fn number(self) -> u64 {
        self as u64 + 1
    }
}

impl fmt::Display for TimeFault {
    fn fmt(&self, f: &mut fmt::Formatter<'_>) -> fmt::Result {
        f.write_str(STEPS[*self as usize].1)
    }
}

/// A time that fails to be read: the step, and the place where the reading then stands.
#[derive(Clone, Copy, Debug, PartialEq, Eq)]
pub struct Failed {
    pub fault: TimeFault,
    /// In bytes, from 0 at the start of the text or line that was lent. All bytes before it are ASCII, so characters give the same count.
    pub place: usize,
}

impl fmt::Display for Failed {
    fn fmt(&self, f: &mut fmt::Formatter<'_>) -> fmt::Result {
        write!(f, "{} at place {}", self.fault, self.place)
    }
}

impl std::error::Error for Failed {}

/// Why no time is handed out.
#[derive(Clone, Copy, Debug, PartialEq, Eq)]
pub enum NoTime {
    /// A step failed: a player reads no time there.
    Failed(Failed),
    /// All of it reads, and a number is above its limit: always [`Refusal::OverLimit`].
    Refused(Refusal),
}

impl fmt::Display for NoTime {
    fn fmt(&self, f: &mut fmt::Formatter<'_>) -> fmt::Result {
        match self {
            NoTime::Failed(failed) => failed.fmt(f),
            NoTime::Refused(refusal) => refusal.fmt(f),
        }
    }
}

impl std::error::Error for NoTime {}

/// A time that a text begins with.
#[derive(Clone, Copy, Debug, PartialEq, Eq)]
pub struct Time {
    pub milliseconds: u64,
    /// The place where it ends, in bytes.
    pub ends_at: usize,
}

/// The times of a timing line, in milliseconds.
#[derive(Clone, Copy, Debug, PartialEq, Eq)]
pub struct TimingLine {
    pub start: u64,
    pub end: u64,
    /// The place where the end time ends, in bytes. What stands from there on are the cue's settings.
    pub ends_at: usize,
}

/// What one of the functions on times puts where all reads. They are asked alike, and tell a failing step alike.
fn read(call: fn(&[u8], &mut Values) -> u64, text: &[u8]) -> Result<Values, NoTime> {
    let mut values = [0; 8];
    accepted(call(text, &mut values), &values).map_err(NoTime::Refused)?;
    match values[0].checked_sub(1) {
        None => Ok(values),
        Some(step) => Err(NoTime::Failed(Failed { fault: STEPS[step as usize].0, place: values[1] as usize })),
    }
}

/// The timestamp that a text begins with. What stands after it is not looked at.
///
/// ```
/// use spatzenherd::{time, Failed, NoTime, Refusal, Time, TimeFault};
/// assert_eq!(time(b"00:01.500 and more"), Ok(Time { milliseconds: 1500, ends_at: 9 }));
/// let failed = Failed { fault: TimeFault::FullStopMissing, place: 5 };
/// assert_eq!(time(b"00:01,500"), Err(NoTime::Failed(failed)));
/// assert_eq!(failed.to_string(), "full stop missing at place 5");
/// assert_eq!(time(b"100000:00:00.000"), Err(NoTime::Refused(Refusal::OverLimit)));
/// ```
pub fn time(text: &[u8]) -> Result<Time, NoTime> {
    read(lent::time, text).map(|values| Time { milliseconds: values[2], ends_at: values[1] as usize })
}

/// The milliseconds of a time that is all of a text, as what stands between `<` and `>` in a cue's text has to be. The place of a failure is
/// counted from the character after `<`.
pub fn tag_time(text: &[u8]) -> Result<u64, NoTime> {
    read(lent::tag_time, text).map(|values| values[2])
}

/// The times of a line, lent without its line end, that is a cue's timing line. The place of a failure is counted from the line's start, in the end
/// time too. A block whose timing line fails gives no cue.
///
/// ```
/// use spatzenherd::{timing_line, Failed, NoTime, TimeFault, TimingLine};
/// let line = b"00:01.000 --> 00:02.500 align:left";
/// assert_eq!(timing_line(line), Ok(TimingLine { start: 1000, end: 2500, ends_at: 23 }));
/// let failed = Failed { fault: TimeFault::WrongDigitCount, place: 22 };
/// assert_eq!(timing_line(b"00:01.000 --> 00:02.50 align:left"), Err(NoTime::Failed(failed)));
/// ```
pub fn timing_line(line: &[u8]) -> Result<TimingLine, NoTime> {
    read(lent::timing_line, line).map(|values| TimingLine { start: values[2], end: values[3], ends_at: values[1] as usize })
}
