//! A cue's settings and a region's, as choices and numbers in place of the words of a row. Percentages and line numbers are whole numbers of
//! millionths, as they are read: no rounding comes in between.
use crate::lent::{CueRow, RegionRow};

/// One, in millionths.
pub const ONE: u64 = 1_000_000;
/// The percentage 100, in millionths.
pub const ALL: u64 = 100 * ONE;

/// The writing direction.
#[derive(Clone, Copy, Debug, Default, PartialEq, Eq)]
pub enum Vertical {
    #[default]
    Horizontal,
    GrowingLeft,
    GrowingRight,
}

/// Where the cue's box stands across the lines.
#[derive(Clone, Copy, Debug, Default, PartialEq, Eq)]
pub enum Line {
    #[default]
    Auto,
    /// A line number in millionths; below 0 it is counted from the end.
    Number(i64),
    /// A percentage in millionths.
    Percentage(u64),
}

/// What of the cue's box stands at its line.
#[derive(Clone, Copy, Debug, Default, PartialEq, Eq)]
pub enum LineAlign {
    #[default]
    Start,
    Center,
    End,
}

/// What of the cue's box stands at its position.
#[derive(Clone, Copy, Debug, Default, PartialEq, Eq)]
pub enum PositionAlign {
    #[default]
    Auto,
    LineLeft,
    Center,
    LineRight,
}

/// How the text stands in the cue's box.
#[derive(Clone, Copy, Debug, Default, PartialEq, Eq)]
pub enum Align {
    Start,
    #[default]
    Center,
    End,
    Left,
    Right,
}

/// A cue's settings but for its region. The default has the opening values that a cue without settings has.
#[derive(Clone, Copy, Debug, PartialEq, Eq)]
pub struct Settings {
    pub vertical: Vertical,
    pub line: Line,
    pub line_align: LineAlign,
    /// A percentage in millionths, or auto.
    pub position: Option<u64>,
    pub position_align: PositionAlign,
    /// A percentage in millionths.
    pub size: u64,
    pub align: Align,
}

impl Default for Settings {
    fn default() -> Self {
        Settings {
            vertical: Vertical::default(),
            line: Line::default(),
            line_align: LineAlign::default(),
            position: None,
            position_align: PositionAlign::default(),
            size: ALL,
            align: Align::default(),
        }
    }
}

/// Does a region scroll.
#[derive(Clone, Copy, Debug, Default, PartialEq, Eq)]
pub enum Scroll {
    #[default]
    None,
    Up,
}

/// A region's settings but for its identifier. The default has the opening values. Percentages are in millionths.
#[derive(Clone, Copy, Debug, PartialEq, Eq)]
pub struct Area {
    pub width: u64,
    pub lines: u64,
    /// x and y.
    pub region_anchor: (u64, u64),
    /// x and y.
    pub viewport_anchor: (u64, u64),
    pub scroll: Scroll,
}

impl Default for Area {
    fn default() -> Self {
        Area { width: ALL, lines: 3, region_anchor: (0, ALL), viewport_anchor: (0, ALL), scroll: Scroll::None }
    }
}

/// The choice that a word of a row names. Rows come here from the proved reader alone, which names no other.
fn named<T: Copy>(choices: &[T], word: u64) -> T {
    choices[word as usize]
}

const VERTICALS: [Vertical; 3] = [Vertical::Horizontal, Vertical::GrowingLeft, Vertical::GrowingRight];
const LINE_ALIGNS: [LineAlign; 3] = [LineAlign::Start, LineAlign::Center, LineAlign::End];
const POSITION_ALIGNS: [PositionAlign; 4] = [PositionAlign::Auto, PositionAlign::LineLeft, PositionAlign::Center, PositionAlign::LineRight];
const ALIGNS: [Align; 5] = [Align::Start, Align::Center, Align::End, Align::Left, Align::Right];
const SCROLLS: [Scroll; 2] = [Scroll::None, Scroll::Up];

/// The words 7, 8 and 9 of a cue's row.
fn line_of(row: &CueRow) -> Line {
    match (row[7], row[9]) {
        (0, _) => Line::Auto,
        (_, 1) => Line::Percentage(row[8]),
        (1, _) => Line::Number(row[8] as i64),
        _ => Line::Number(-(row[8] as i64)),
    }
}

fn line_words(line: Line) -> [u64; 3] {
    match line {
        Line::Auto => [0, 0, 0],
        Line::Number(n) if n < 0 => [2, n.unsigned_abs(), 0],
        Line::Number(n) => [1, n.unsigned_abs(), 0],
        Line::Percentage(p) => [1, p, 1],
    }
}

/// The settings that the words 6 to 15 of a cue's row say.
pub(crate) fn settings_of(row: &CueRow) -> Settings {
    Settings {
        vertical: named(&VERTICALS, row[6]),
        line: line_of(row),
        line_align: named(&LINE_ALIGNS, row[10]),
        position: (row[11] == 1).then_some(row[12]),
        position_align: named(&POSITION_ALIGNS, row[13]),
        size: row[14],
        align: named(&ALIGNS, row[15]),
    }
}

/// The words 6 to 15 of a cue's row that say these settings.
pub(crate) fn settings_words(s: &Settings) -> [u64; 10] {
    let [line, line_number, snap] = line_words(s.line);
    let position = [s.position.is_some() as u64, s.position.unwrap_or(0)];
    [
        s.vertical as u64,
        line,
        line_number,
        snap,
        s.line_align as u64,
        position[0],
        position[1],
        s.position_align as u64,
        s.size,
        s.align as u64,
    ]
}

/// The settings that the words 2 to 8 of a region's row say.
pub(crate) fn area_of(row: &RegionRow) -> Area {
    Area {
        width: row[2],
        lines: row[3],
        region_anchor: (row[4], row[5]),
        viewport_anchor: (row[6], row[7]),
        scroll: named(&SCROLLS, row[8]),
    }
}

/// The words 2 to 8 of a region's row that say these settings.
pub(crate) fn area_words(a: &Area) -> [u64; 7] {
    [a.width, a.lines, a.region_anchor.0, a.region_anchor.1, a.viewport_anchor.0, a.viewport_anchor.1, a.scroll as u64]
}
