//! Reading a plain text into rows, with its checks.

use super::blocks::parse;
use super::lines::Beginnings;
use super::plain::first_not_plain;
use super::{no_signature, not_plain, over_limit, table_too_short, too_long, Lists, Refusal, GREATEST_TEXT};

/// Reading: checks 1, 3, 4, 5, 6.
pub fn read(text: &[u8], cues: usize, regions: usize, styles: usize) -> Result<Lists, Refusal> {
    if text.len() > GREATEST_TEXT {
        return Err(too_long());
    }
    if let Some(place) = first_not_plain(text) {
        return Err(not_plain(place));
    }
    let Some(file) = parse(text) else {
        return Err(no_signature());
    };
    if file.over {
        return Err(over_limit());
    }
    if file.cues.len() > cues || file.regions.len() > regions || file.styles.len() > styles {
        let counts = [file.cues.len() as u64, file.regions.len() as u64, file.styles.len() as u64];
        return Err(table_too_short(&counts));
    }
    let beginnings = Beginnings::of(text);
    Ok(Lists {
        cues: file.cues.iter().map(|read| read.cue.row(beginnings.lines(&read.own))).collect(),
        regions: file.regions.iter().map(|region| region.row()).collect(),
        styles: file.styles.iter().map(|style| style.words()).collect(),
    })
}
