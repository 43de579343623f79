//! What cues and regions are made of, their opening values, and the words of their rows.

use super::lines::Lines;
use super::numbers::ONE;
use super::{CueRow, RegionRow, StyleRow};

/// From a place of a text up to another.
#[derive(Debug, Clone, Copy, PartialEq, Eq)]
pub struct Part {
    pub from: usize,
    pub to: usize,
}

impl Part {
    pub const NONE: Part = Part { from: 0, to: 0 };

    pub fn of<'a>(&self, text: &'a [u8]) -> &'a [u8] {
        &text[self.from..self.to]
    }

    /// The words of a part; 0, 0 for an empty one.
    pub fn words(&self) -> StyleRow {
        if self.from == self.to {
            [0, 0]
        } else {
            [self.from as u64, self.to as u64]
        }
    }
}

// The named choices. The code of a choice is its place in these lists; the first of VERTICAL and of POSITION_ALIGN is never written.
pub const VERTICAL: [&str; 3] = ["horizontal", "rl", "lr"];
pub const LINE_ALIGN: [&str; 3] = ["start", "center", "end"];
pub const POSITION_ALIGN: [&str; 4] = ["auto", "line-left", "center", "line-right"];
pub const ALIGN: [&str; 5] = ["start", "center", "end", "left", "right"];
pub const SCROLL: [&str; 2] = ["none", "up"];

// The places of opening values in these lists.
pub const HORIZONTAL: usize = 0;
pub const LINE_ALIGN_START: usize = 0;
pub const POSITION_ALIGN_AUTO: usize = 0;
pub const ALIGN_CENTER: usize = 1;

/// 100 percent, in millionths.
pub const HUNDRED: u64 = 100 * ONE;

/// A cue's settings. Numbers are in millionths, None is auto or no region.
#[derive(Debug, Clone, PartialEq, Eq)]
pub struct Settings {
    pub vertical: usize,
    pub line: Option<i128>,
    pub snap: bool,
    pub line_align: usize,
    pub position: Option<u64>,
    pub position_align: usize,
    pub size: u64,
    pub align: usize,
    /// An index in the list of regions.
    pub region: Option<u64>,
}

impl Settings {
    pub const OPENING: Settings = Settings {
        vertical: HORIZONTAL,
        line: None,
        snap: true,
        line_align: LINE_ALIGN_START,
        position: None,
        position_align: POSITION_ALIGN_AUTO,
        size: HUNDRED,
        align: ALIGN_CENTER,
        region: None,
    };
}

#[derive(Debug, Clone, PartialEq, Eq)]
pub struct Cue {
    pub identifier: Part,
    pub start: u64,
    pub end: u64,
    pub text: Part,
    pub settings: Settings,
}

impl Cue {
    /// The row of a cue that was read from these lines.
    pub fn row(&self, lines: Lines) -> CueRow {
        let [id_from, id_to] = self.identifier.words();
        let [text_from, text_to] = self.text.words();
        let s = &self.settings;
        let (line, line_number) = match s.line {
            None => (0, 0),
            Some(number) if number >= 0 => (1, number.unsigned_abs() as u64),
            Some(number) => (2, number.unsigned_abs() as u64),
        };
        let (position, position_number) = match s.position {
            None => (0, 0),
            Some(number) => (1, number),
        };
        [
            id_from,
            id_to,
            self.start,
            self.end,
            text_from,
            text_to,
            s.vertical as u64,
            line,
            line_number,
            if s.snap { 0 } else { 1 },
            s.line_align as u64,
            position,
            position_number,
            s.position_align as u64,
            s.size,
            s.align as u64,
            s.region.map_or(0, |index| index + 1),
            lines.first as u64,
            lines.count as u64,
        ]
    }
}

/// A region. Percentages are in millionths.
#[derive(Debug, Clone, PartialEq, Eq)]
pub struct Region {
    pub identifier: Part,
    pub width: u64,
    pub lines: u64,
    pub anchor: (u64, u64),
    pub viewport_anchor: (u64, u64),
    pub scroll_up: bool,
}

impl Region {
    pub const OPENING: Region =
        Region { identifier: Part::NONE, width: HUNDRED, lines: 3, anchor: (0, HUNDRED), viewport_anchor: (0, HUNDRED), scroll_up: false };

    pub fn row(&self) -> RegionRow {
        let [id_from, id_to] = self.identifier.words();
        [
            id_from,
            id_to,
            self.width,
            self.lines,
            self.anchor.0,
            self.anchor.1,
            self.viewport_anchor.0,
            self.viewport_anchor.1,
            u64::from(self.scroll_up),
        ]
    }
}
