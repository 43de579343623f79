//! Handing back a part of the text: the identifier or the text of a cue.

use super::model::{Cue, Part};
use super::writable::cue_of_row;
use super::{no_such_cue, not_writable, CueRow, Refusal};

/// Checks 7, then 8 by test 1 alone.
fn cue(text: &[u8], cues: &[CueRow], number: usize) -> Result<Cue, Refusal> {
    let Some(row) = cues.get(number) else {
        return Err(no_such_cue(cues.len()));
    };
    cue_of_row(text, row).map_err(|test| not_writable(2, number, test))
}

fn places(part: Part) -> (u64, u64) {
    (part.from as u64, part.to as u64)
}

pub fn identifier(text: &[u8], cues: &[CueRow], number: usize) -> Result<(u64, u64), Refusal> {
    Ok(places(cue(text, cues, number)?.identifier))
}

pub fn text(text: &[u8], cues: &[CueRow], number: usize) -> Result<(u64, u64), Refusal> {
    Ok(places(cue(text, cues, number)?.text))
}
