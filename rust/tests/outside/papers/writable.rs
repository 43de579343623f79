//! "Writable" (document 01): rows that anyone may have written become contents by test 1, and the other tests follow in their order.

use super::blocks::contains_arrow;
use super::model::{
    Cue, Part, Region, Settings, ALIGN, HUNDRED, LINE_ALIGN, LINE_ALIGN_START, POSITION_ALIGN, POSITION_ALIGN_AUTO, SCROLL, VERTICAL,
};
use super::numbers::{is_space, GREATEST_NUMBER, ONE};
use super::plain::first_not_plain;
use super::times::GREATEST_TIME;
use super::{CueRow, RegionRow, StyleRow};

/// The number of the first failing test.
pub type Failed = u64;

/// Test 1: a part is inside the text and is itself plain.
pub fn part(text: &[u8], from: u64, to: u64) -> Result<Part, Failed> {
    if from > to || to > text.len() as u64 {
        return Err(1);
    }
    let part = Part { from: from as usize, to: to as usize };
    if first_not_plain(part.of(text)).is_some() {
        return Err(1);
    }
    Ok(part)
}

/// Test 1: a coded choice is one of those named.
fn choice(code: u64, names: usize) -> Result<usize, Failed> {
    if code < names as u64 {
        Ok(code as usize)
    } else {
        Err(1)
    }
}

/// Test 1 of a cue, for the words 0 to 15 of its row. The region is left to the caller.
pub fn cue_contents(text: &[u8], row: &[u64; 16]) -> Result<Cue, Failed> {
    let identifier = part(text, row[0], row[1])?;
    let cue_text = part(text, row[4], row[5])?;
    let vertical = choice(row[6], VERTICAL.len())?;
    // An auto carries no number. Minus zero is 0.
    let line = match choice(row[7], 3)? {
        0 => None,
        1 => Some(i128::from(row[8])),
        _ => Some(-i128::from(row[8])),
    };
    let snap = choice(row[9], 2)? == 0;
    let line_align = choice(row[10], LINE_ALIGN.len())?;
    let position = match choice(row[11], 2)? {
        0 => None,
        _ => Some(row[12]),
    };
    let position_align = choice(row[13], POSITION_ALIGN.len())?;
    let align = choice(row[15], ALIGN.len())?;
    let settings = Settings { vertical, line, snap, line_align, position, position_align, size: row[14], align, region: None };
    Ok(Cue { identifier, start: row[2], end: row[3], text: cue_text, settings })
}

/// Test 1 of a cue's whole row. Its lines are not looked at.
pub fn cue_of_row(text: &[u8], row: &CueRow) -> Result<Cue, Failed> {
    let mut words = [0; 16];
    words.copy_from_slice(&row[..16]);
    let mut cue = cue_contents(text, &words)?;
    cue.settings.region = row[16].checked_sub(1);
    Ok(cue)
}

fn is_percentage(number: u64) -> bool {
    number <= HUNDRED
}

fn has_empty_line(text: &[u8]) -> bool {
    text.split(|&c| c == b'\n').any(|line| line.is_empty())
}

/// Tests 2 to 5 of a cue.
pub fn cue_tests(text: &[u8], cue: &Cue) -> Result<(), Failed> {
    // 2. The identifier has no LF and no arrow.
    let identifier = cue.identifier.of(text);
    if identifier.contains(&b'\n') || contains_arrow(identifier) {
        return Err(2);
    }
    // 3. The cue text is empty or has no empty line, and no arrow.
    let cue_text = cue.text.of(text);
    if !cue_text.is_empty() && (has_empty_line(cue_text) || contains_arrow(cue_text)) {
        return Err(3);
    }
    // 4. Times are within the limit, end after start.
    if cue.start > GREATEST_TIME || cue.end > GREATEST_TIME || cue.end <= cue.start {
        return Err(4);
    }
    // 5.
    if !settings_test(&cue.settings) {
        return Err(5);
    }
    Ok(())
}

fn settings_test(settings: &Settings) -> bool {
    // A non-auto line or position where its alignment differs from its opening value.
    if settings.line_align != LINE_ALIGN_START && settings.line.is_none() {
        return false;
    }
    if settings.position_align != POSITION_ALIGN_AUTO && settings.position.is_none() {
        return false;
    }
    // Percentages in 0 to 100.
    if !is_percentage(settings.size) || settings.position.is_some_and(|number| !is_percentage(number)) {
        return false;
    }
    match settings.line {
        // Snap on where line is auto.
        None => settings.snap,
        // Line number within limit.
        Some(number) if settings.snap => number.unsigned_abs() <= u128::from(GREATEST_NUMBER * ONE),
        // A percentage.
        Some(number) => 0 <= number && number <= i128::from(HUNDRED),
    }
}

/// Test 6 of a cue: its region, if any, is in the list, has a non-empty identifier and is the last with it.
pub fn region_test(text: &[u8], cue: &Cue, regions: &[Region]) -> Result<(), Failed> {
    let Some(index) = cue.settings.region else {
        return Ok(());
    };
    if index >= regions.len() as u64 {
        return Err(6);
    }
    let index = index as usize;
    let identifier = regions[index].identifier.of(text);
    if identifier.is_empty() {
        return Err(6);
    }
    if regions[index + 1..].iter().any(|later| later.identifier.of(text) == identifier) {
        return Err(6);
    }
    Ok(())
}

/// The contents of a writable region.
pub fn region(text: &[u8], row: &RegionRow) -> Result<Region, Failed> {
    // 1.
    let identifier = part(text, row[0], row[1])?;
    let scroll_up = choice(row[8], SCROLL.len())? == 1;
    let region =
        Region { identifier, width: row[2], lines: row[3], anchor: (row[4], row[5]), viewport_anchor: (row[6], row[7]), scroll_up };
    // 2.
    let name = identifier.of(text);
    if name.iter().any(|&c| is_space(c)) || contains_arrow(name) {
        return Err(2);
    }
    // 3.
    let percentages = [row[2], row[4], row[5], row[6], row[7]];
    if percentages.iter().any(|&number| !is_percentage(number)) {
        return Err(3);
    }
    // 4.
    if region.lines > GREATEST_NUMBER {
        return Err(4);
    }
    Ok(region)
}

/// The part that is a writable style text.
pub fn style(text: &[u8], row: &StyleRow) -> Result<Part, Failed> {
    // 1.
    let style = part(text, row[0], row[1])?;
    // 2.
    let lines = style.of(text);
    if lines.is_empty() || has_empty_line(lines) || contains_arrow(lines) {
        return Err(2);
    }
    Ok(style)
}
