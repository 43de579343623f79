//! "Collect WebVTT cue timings and settings" and "parse the WebVTT cue settings" (000 section 6.3).

use super::model::{Region, Settings, ALIGN, HORIZONTAL, HUNDRED, LINE_ALIGN, POSITION_ALIGN, VERTICAL};
use super::names::last_region;
use super::numbers::{is_digit, is_space, line_number, percentage, Stored};
use super::times::{collect_timestamp, expect, Failed, Fault, Time};
use super::{over_limit, Refusal};

/// A timing line that reads. Where a number is above its limit, `over` is set and that number is of no use.
pub struct Timing {
    pub start: u64,
    pub end: u64,
    /// Where the end time ends in the line.
    pub times_end: usize,
    pub settings: Settings,
    pub over: bool,
}

/// Where the parts of an input that is split on spaces stand.
pub fn split_on_spaces(input: &[u8]) -> Vec<(usize, usize)> {
    let mut parts = Vec::new();
    let mut at = 0;
    while at < input.len() {
        if is_space(input[at]) {
            at += 1;
            continue;
        }
        let from = at;
        while at < input.len() && !is_space(input[at]) {
            at += 1;
        }
        parts.push((from, at));
    }
    parts
}

/// Name and value of a setting; None without a colon, or where the first colon is the first or the last character.
pub fn name_and_value(setting: &[u8]) -> Option<(&[u8], &[u8])> {
    let colon = setting.iter().position(|&c| c == b':')?;
    if colon == 0 || colon == setting.len() - 1 {
        return None;
    }
    Some((&setting[..colon], &setting[colon + 1..]))
}

/// What stands before the first comma and what stands after it, None without a comma.
pub fn split_at_comma(value: &[u8]) -> (&[u8], Option<&[u8]>) {
    match value.iter().position(|&c| c == b',') {
        Some(comma) => (&value[..comma], Some(&value[comma + 1..])),
        None => (value, None),
    }
}

/// The code of a choice: its place among the names.
fn choice(names: &[&str], value: &[u8]) -> Option<usize> {
    names.iter().position(|name| name.as_bytes() == value)
}

fn skip_whitespace(input: &[u8], position: &mut usize) {
    while *position < input.len() && is_space(input[*position]) {
        *position += 1;
    }
}

/// `text` is the plain text in which the identifiers of the regions stand.
pub fn collect_timings_and_settings(input: &[u8], text: &[u8], regions: &[Region]) -> Result<Timing, Failed> {
    // 2, 3.
    let mut position = 0;
    skip_whitespace(input, &mut position);
    // 4. The start time.
    let start = collect_timestamp(input, &mut position)?;
    // 5 to 8.
    skip_whitespace(input, &mut position);
    expect(input, &mut position, b'-', Fault::ArrowMissing)?;
    expect(input, &mut position, b'-', Fault::ArrowMissing)?;
    expect(input, &mut position, b'>', Fault::ArrowMissing)?;
    // 9, 10. The end time.
    skip_whitespace(input, &mut position);
    let end = collect_timestamp(input, &mut position)?;
    // 11, 12. From here on the line reads, so hours above the limit count.
    let times_end = position;
    let remainder = &input[times_end..];
    let mut over = false;
    let settings = parse_settings(remainder, text, regions, &mut over);
    let mut milliseconds = |time: Time| match time {
        Time::At(number) => number,
        Time::OverLimit => {
            over = true;
            0
        }
    };
    let (start, end) = (milliseconds(start), milliseconds(end));
    Ok(Timing { start, end, times_end, settings, over })
}

/// A line as a timing line: the step that fails and the place; or 0, where the end time ends, start and end (request Q-5).
pub fn timing_line(line: &[u8]) -> Result<Vec<u64>, Refusal> {
    match collect_timings_and_settings(line, b"", &[]) {
        Err(failed) => Ok(failed.values()),
        Ok(timing) if timing.over => Err(over_limit()),
        Ok(timing) => Ok(vec![0, timing.times_end as u64, timing.start, timing.end]),
    }
}

fn parse_settings(input: &[u8], text: &[u8], regions: &[Region], over: &mut bool) -> Settings {
    let mut settings = Settings::OPENING;
    for (from, to) in split_on_spaces(input) {
        if let Some((name, value)) = name_and_value(&input[from..to]) {
            match name {
                b"region" => settings.region = last_region(value, text, regions),
                b"vertical" => vertical(value, &mut settings),
                b"line" => line(value, &mut settings, over),
                b"position" => position(value, &mut settings),
                b"size" => size(value, &mut settings),
                b"align" => align(value, &mut settings),
                _ => {}
            }
        }
    }
    settings
}

fn vertical(value: &[u8], settings: &mut Settings) {
    // 1, 2. The name horizontal cannot be asked for.
    if let Some(code) = choice(&VERTICAL[1..], value) {
        settings.vertical = code + 1;
    }
    // 3. There are no vertical regions. This holds for a bad value, too.
    if settings.vertical != HORIZONTAL {
        settings.region = None;
    }
}

fn line(value: &[u8], settings: &mut Settings, over: &mut bool) {
    // 1.
    let (linepos, linealign) = split_at_comma(value);
    // 2.
    if !linepos.iter().any(|&c| is_digit(c)) {
        return;
    }
    // 3.
    let is_percentage = linepos.last() == Some(&b'%');
    let number = if is_percentage { percentage(linepos).map(|number| Stored::Within(i128::from(number))) } else { line_number(linepos) };
    let Some(number) = number else {
        return;
    };
    // 4 to 7. Without an alignment the one read so far stays.
    if let Some(linealign) = linealign {
        match choice(&LINE_ALIGN, linealign) {
            Some(code) => settings.line_align = code,
            None => return,
        }
    }
    // 8. Here the number is stored, so one above the limit counts.
    match number {
        Stored::Within(number) => settings.line = Some(number),
        Stored::Above => {
            *over = true;
            settings.line = Some(0);
        }
    }
    // 9.
    settings.snap = !is_percentage;
    // 10. The line is not auto by now.
    settings.region = None;
}

fn position(value: &[u8], settings: &mut Settings) {
    // 1.
    let (colpos, colalign) = split_at_comma(value);
    // 2.
    let Some(number) = percentage(colpos) else {
        return;
    };
    // 3 to 6. The name auto cannot be asked for.
    if let Some(colalign) = colalign {
        match choice(&POSITION_ALIGN[1..], colalign) {
            Some(code) => settings.position_align = code + 1,
            None => return,
        }
    }
    // 7.
    settings.position = Some(number);
}

fn size(value: &[u8], settings: &mut Settings) {
    // 1, 2.
    let Some(number) = percentage(value) else {
        return;
    };
    settings.size = number;
    // 3.
    if number != HUNDRED {
        settings.region = None;
    }
}

fn align(value: &[u8], settings: &mut Settings) {
    if let Some(code) = choice(&ALIGN, value) {
        settings.align = code;
    }
}
