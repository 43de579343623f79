//! "The one written form" (document 01), and writing a whole file with its checks.

use super::model::{
    Cue, Part, Region, ALIGN, ALIGN_CENTER, HORIZONTAL, HUNDRED, LINE_ALIGN, LINE_ALIGN_START, POSITION_ALIGN, POSITION_ALIGN_AUTO,
    VERTICAL,
};
use super::numbers::ONE;
use super::writable;
use super::{not_writable, out_too_short, too_long, CueRow, Refusal, RegionRow, StyleRow, GREATEST_FILE};

/// Hours in at least two digits.
fn time(milliseconds: u64) -> String {
    let (seconds, thousandths) = (milliseconds / 1_000, milliseconds % 1_000);
    let (hours, minutes, seconds) = (seconds / 3_600, seconds / 60 % 60, seconds % 60);
    format!("{hours:02}:{minutes:02}:{seconds:02}.{thousandths:03}")
}

/// Decimals without trailing zeros.
fn decimal(millionths: i128) -> String {
    let sign = if millionths < 0 { "-" } else { "" };
    let number = millionths.unsigned_abs();
    let (whole, rest) = (number / u128::from(ONE), number % u128::from(ONE));
    if rest == 0 {
        return format!("{sign}{whole}");
    }
    let decimals = format!("{rest:06}");
    format!("{sign}{whole}.{}", decimals.trim_end_matches('0'))
}

fn percentage(millionths: u64) -> String {
    decimal(i128::from(millionths)) + "%"
}

/// The timing line and the settings that are not at their opening values.
fn timing_line(cue: &Cue, region_name: &[u8]) -> Vec<u8> {
    let s = &cue.settings;
    let mut settings: Vec<Vec<u8>> = Vec::new();
    if s.vertical != HORIZONTAL {
        settings.push(format!("vertical:{}", VERTICAL[s.vertical]).into_bytes());
    }
    if let Some(number) = s.line {
        let sign = if s.snap { "" } else { "%" };
        let align = if s.line_align == LINE_ALIGN_START { String::new() } else { format!(",{}", LINE_ALIGN[s.line_align]) };
        settings.push(format!("line:{}{sign}{align}", decimal(number)).into_bytes());
    }
    if let Some(number) = s.position {
        let align = if s.position_align == POSITION_ALIGN_AUTO { String::new() } else { format!(",{}", POSITION_ALIGN[s.position_align]) };
        settings.push(format!("position:{}{align}", percentage(number)).into_bytes());
    }
    if s.size != HUNDRED {
        settings.push(format!("size:{}", percentage(s.size)).into_bytes());
    }
    if s.align != ALIGN_CENTER {
        settings.push(format!("align:{}", ALIGN[s.align]).into_bytes());
    }
    if !region_name.is_empty() {
        settings.push([b"region:", region_name].concat());
    }
    let mut line = format!("{} --> {}", time(cue.start), time(cue.end)).into_bytes();
    for setting in settings {
        line.push(b' ');
        line.extend(setting);
    }
    line
}

/// A cue's block without its last LF. An empty identifier or text gives no line; an empty region name means none.
pub fn cue_block(text: &[u8], cue: &Cue, region_name: &[u8]) -> Vec<u8> {
    let mut lines: Vec<Vec<u8>> = Vec::new();
    if !cue.identifier.of(text).is_empty() {
        lines.push(cue.identifier.of(text).to_vec());
    }
    lines.push(timing_line(cue, region_name));
    if !cue.text.of(text).is_empty() {
        lines.push(cue.text.of(text).to_vec());
    }
    lines.join(&b'\n')
}

fn region_block(text: &[u8], region: &Region) -> Vec<u8> {
    let mut lines: Vec<Vec<u8>> = vec![b"REGION".to_vec()];
    let name = region.identifier.of(text);
    if !name.is_empty() {
        lines.push([b"id:", name].concat());
    }
    let anchor = |pair: (u64, u64)| format!("{},{}", percentage(pair.0), percentage(pair.1));
    lines.push(format!("width:{}", percentage(region.width)).into_bytes());
    lines.push(format!("lines:{}", region.lines).into_bytes());
    lines.push(format!("regionanchor:{}", anchor(region.anchor)).into_bytes());
    lines.push(format!("viewportanchor:{}", anchor(region.viewport_anchor)).into_bytes());
    if region.scroll_up {
        lines.push(b"scroll:up".to_vec());
    }
    lines.join(&b'\n')
}

fn style_block(text: &[u8], style: &Part) -> Vec<u8> {
    [b"STYLE\n", style.of(text)].concat()
}

/// Each block after an empty line, every line ended by LF.
fn put_block(file: &mut Vec<u8>, block: Vec<u8>) -> Result<(), Refusal> {
    file.push(b'\n');
    file.extend(block);
    file.push(b'\n');
    if file.len() > GREATEST_FILE {
        return Err(too_long());
    }
    Ok(())
}

/// Writing: checks 8 (styles, regions, cues in order), 1, 10.
pub fn write(text: &[u8], styles: &[StyleRow], regions: &[RegionRow], cues: &[CueRow], out: usize) -> Result<Vec<u8>, Refusal> {
    let mut style_list: Vec<Part> = Vec::new();
    for (index, row) in styles.iter().enumerate() {
        style_list.push(writable::style(text, row).map_err(|test| not_writable(0, index, test))?);
    }
    let mut region_list: Vec<Region> = Vec::new();
    for (index, row) in regions.iter().enumerate() {
        region_list.push(writable::region(text, row).map_err(|test| not_writable(1, index, test))?);
    }
    let mut cue_list: Vec<Cue> = Vec::new();
    for (index, row) in cues.iter().enumerate() {
        cue_list.push(writable_cue(text, row, &region_list).map_err(|test| not_writable(2, index, test))?);
    }

    let mut file = b"WEBVTT\n".to_vec();
    for style in &style_list {
        put_block(&mut file, style_block(text, style))?;
    }
    for region in &region_list {
        put_block(&mut file, region_block(text, region))?;
    }
    for cue in &cue_list {
        let name = cue.settings.region.map_or(Part::NONE, |index| region_list[index as usize].identifier);
        put_block(&mut file, cue_block(text, cue, name.of(text)))?;
    }
    if file.len() > out {
        return Err(out_too_short(file.len()));
    }
    Ok(file)
}

/// The contents of a writable cue: tests 1 to 6.
fn writable_cue(text: &[u8], row: &CueRow, regions: &[Region]) -> Result<Cue, writable::Failed> {
    let cue = writable::cue_of_row(text, row)?;
    writable::cue_tests(text, &cue)?;
    writable::region_test(text, &cue, regions)?;
    Ok(cue)
}
