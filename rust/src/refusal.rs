//! Why a call is refused: document 01's numbers, the values that go with each, and a sentence for people.
use crate::lent::Values;
use std::fmt;

/// A refusal of the library, by document 01's number.
#[derive(Clone, Copy, Debug, PartialEq, Eq)]
pub enum Refusal {
    /// 1: a raw file, read or to be made, is over 16,777,216 bytes, or a text over 50,331,648.
    TooLong,
    /// 2: the text room is shorter than needed.
    RoomTooShort { needed: u64 },
    /// 3: the text holds CR, NUL or ill-formed bytes.
    NotPlain { place: u64 },
    /// 4: the file does not begin as a WebVTT file.
    NoSignature,
    /// 5: a time, a line number or a region's count of lines is above its limit.
    OverLimit,
    /// 6: a list of the file has more entries than its table.
    TablesTooShort { cues: u64, regions: u64, styles: u64 },
    /// 6: a cue's text has more nodes than their table has rows.
    NodesTooShort { nodes: u64 },
    /// 7: the cue number is not below the count.
    NoSuchCue { count: u64 },
    /// 8: an entry cannot be written: the first one, and the first of document 01's tests that it fails.
    NotWritable { list: List, index: u64, test: u64 },
    /// 9: the new identifier is not empty, and neither is the line before the cue.
    NoGap,
    /// 10: the output room is shorter than the file.
    OutTooShort { needed: u64 },
}

/// The lists of a file, in the order in which they are written.
#[derive(Clone, Copy, Debug, PartialEq, Eq)]
pub enum List {
    Styles,
    Regions,
    Cues,
}

impl Refusal {
    /// Document 01's number.
    pub fn number(&self) -> u64 {
        match self {
            Refusal::TooLong => 1,
            Refusal::RoomTooShort { .. } => 2,
            Refusal::NotPlain { .. } => 3,
            Refusal::NoSignature => 4,
            Refusal::OverLimit => 5,
            Refusal::TablesTooShort { .. } | Refusal::NodesTooShort { .. } => 6,
            Refusal::NoSuchCue { .. } => 7,
            Refusal::NotWritable { .. } => 8,
            Refusal::NoGap => 9,
            Refusal::OutTooShort { .. } => 10,
        }
    }

    /// The values that go with the refusal, in document 01's order.
    pub fn values(&self) -> Vec<u64> {
        match *self {
            Refusal::TooLong | Refusal::NoSignature | Refusal::OverLimit | Refusal::NoGap => vec![],
            Refusal::RoomTooShort { needed } | Refusal::OutTooShort { needed } => vec![needed],
            Refusal::NotPlain { place } => vec![place],
            Refusal::TablesTooShort { cues, regions, styles } => vec![cues, regions, styles],
            Refusal::NodesTooShort { nodes } => vec![nodes],
            Refusal::NoSuchCue { count } => vec![count],
            Refusal::NotWritable { list, index, test } => vec![list as u64, index, test],
        }
    }

    /// The refusal of a number that a function handed back, with the values that it put. Refusal 6 is about nodes where a tree was asked for.
    pub(crate) fn told(number: u64, values: &Values, nodes: bool) -> Refusal {
        match number {
            1 => Refusal::TooLong,
            2 => Refusal::RoomTooShort { needed: values[0] },
            3 => Refusal::NotPlain { place: values[0] },
            4 => Refusal::NoSignature,
            5 => Refusal::OverLimit,
            6 if nodes => Refusal::NodesTooShort { nodes: values[0] },
            6 => Refusal::TablesTooShort { cues: values[0], regions: values[1], styles: values[2] },
            7 => Refusal::NoSuchCue { count: values[0] },
            8 => Refusal::NotWritable { list: list_of(values[0]), index: values[1], test: values[2] },
            9 => Refusal::NoGap,
            10 => Refusal::OutTooShort { needed: values[0] },
            _ => unreachable!("document 01 has the numbers 1 to 10, not {number}"),
        }
    }
}

fn list_of(number: u64) -> List {
    match number {
        0 => List::Styles,
        1 => List::Regions,
        _ => List::Cues,
    }
}

impl fmt::Display for Refusal {
    fn fmt(&self, f: &mut fmt::Formatter<'_>) -> fmt::Result {
        match self {
            Refusal::TooLong => write!(f, "the file is longer than 16,777,216 bytes, or the text than 50,331,648"),
            Refusal::RoomTooShort { needed } => write!(f, "the room for the text is too short: {needed} bytes are needed"),
            Refusal::NotPlain { place } => write!(f, "the text holds CR, NUL or an ill-formed byte at place {place}"),
            Refusal::NoSignature => write!(f, "the file does not begin with WEBVTT"),
            Refusal::OverLimit => write!(f, "a time, a line number or a region's count of lines is above its limit"),
            Refusal::TablesTooShort { cues, regions, styles } => {
                write!(f, "the tables are too short for {cues} cues, {regions} regions and {styles} styles")
            }
            Refusal::NodesTooShort { nodes } => write!(f, "the table is too short for {nodes} nodes"),
            Refusal::NoSuchCue { count } => write!(f, "there is no such cue: the file has {count}, counted from 0"),
            Refusal::NotWritable { list, index, test } => write!(f, "{} {index} cannot be written: it fails test {test}", list.entry()),
            Refusal::NoGap => write!(f, "the new cue has an identifier, and no empty line stands before the cue"),
            Refusal::OutTooShort { needed } => write!(f, "the output room is too short: {needed} bytes are needed"),
        }
    }
}

impl List {
    fn entry(self) -> &'static str {
        match self {
            List::Styles => "style",
            List::Regions => "region",
            List::Cues => "cue",
        }
    }
}

impl std::error::Error for Refusal {}
