//! Replacing one cue in a raw file, and rewriting a raw file: converting, reading and writing one after the other.

use super::blocks::parse;
use super::lines::Beginnings;
use super::model::{Cue, Part, Region};
use super::names::last_region;
use super::writable::{cue_contents, cue_tests, part, Failed};
use super::written::{cue_block, write};
use super::{
    convert, no_gap, no_signature, no_such_cue, not_writable, out_too_short, over_limit, read, too_long, Refusal, Replaced, GREATEST_FILE,
    NEW_CUE_WORDS,
};

/// Replacing: checks 1 (input), 2, 4, 5, 7, 8, 9, 1 (output), 10. A row of another count of words fails test 1.
pub fn replace(raw: &[u8], number: usize, row: &[u64], text: &[u8], scratch: usize, out: usize) -> Replaced {
    // Checks 1 (input) and 2 are those of converting; where they pass, scratch holds the plain text.
    let plain = match convert(raw, scratch) {
        Ok(plain) => plain,
        Err(refusal) => return Replaced { scratch: None, answer: Err(refusal) },
    };
    let answer = replace_in(raw, &plain, number, row, text, out);
    Replaced { scratch: Some(plain), answer }
}

fn replace_in(raw: &[u8], plain: &[u8], number: usize, row: &[u64], text: &[u8], out: usize) -> Result<Vec<u8>, Refusal> {
    // 4, 5.
    let file = parse(plain).ok_or_else(no_signature)?;
    if file.over {
        return Err(over_limit());
    }
    // 7.
    let old = file.cues.get(number).ok_or_else(|| no_such_cue(file.cues.len()))?;
    // 8.
    let (cue, name) = new_cue(text, row, plain, &file.regions).map_err(|test| not_writable(2, number, test))?;
    // 9. Raw lines and plain lines have the same numbers. No cue stands on the first line, where the signature is.
    let numbers = Beginnings::of(plain).lines(&old.own);
    let (first, last) = (numbers.first - 1, numbers.first + numbers.count - 2);
    let lines = raw_lines(raw);
    let line_before = lines[first - 1];
    if !cue.identifier.of(text).is_empty() && line_before.from != line_before.to {
        return Err(no_gap());
    }
    // The cue's own bytes, and the written form that takes their place.
    let before = &raw[..lines[first].from];
    let after = &raw[lines[last].to..];
    let block = cue_block(text, &cue, name.of(text));
    let length = before.len() + block.len() + after.len();
    // 1 (output), 10.
    if length > GREATEST_FILE {
        return Err(too_long());
    }
    if length > out {
        return Err(out_too_short(length));
    }
    Ok([before, &block, after].concat())
}

/// The new cue and the part that is its region's name, or the first failing test.
fn new_cue(text: &[u8], row: &[u64], plain: &[u8], regions: &[Region]) -> Result<(Cue, Part), Failed> {
    // 1. The name is a part like the others. The last two words are not looked at.
    if row.len() != NEW_CUE_WORDS {
        return Err(1);
    }
    let mut words = [0; 16];
    words.copy_from_slice(&row[..16]);
    let mut cue = cue_contents(text, &words)?;
    let name = part(text, row[16], row[17])?;
    // 2 to 5.
    cue_tests(text, &cue)?;
    // 6. The file's last region with the name, or none where the name is empty.
    if !name.of(text).is_empty() {
        cue.settings.region = Some(last_region(name.of(text), plain, regions).ok_or(6_u64)?);
    }
    Ok((cue, name))
}

/// Where the raw lines stand, without their terminators. They end at CR LF, at any other CR or LF, or with the file.
fn raw_lines(raw: &[u8]) -> Vec<Part> {
    let mut lines = Vec::new();
    let mut from = 0;
    let mut at = 0;
    while at < raw.len() {
        if raw[at] == b'\r' && raw.get(at + 1) == Some(&b'\n') {
            lines.push(Part { from, to: at });
            at += 2;
            from = at;
        } else if raw[at] == b'\r' || raw[at] == b'\n' {
            lines.push(Part { from, to: at });
            at += 1;
            from = at;
        } else {
            at += 1;
        }
    }
    lines.push(Part { from, to: raw.len() });
    lines
}

/// Converting, reading, writing, in rooms and tables of these sizes, with the first refusal.
pub fn rewrite(raw: &[u8], text: usize, cues: usize, regions: usize, styles: usize, out: usize) -> Result<Vec<u8>, Refusal> {
    let plain = convert(raw, text)?;
    let lists = read(&plain, cues, regions, styles)?;
    write(&plain, &lists.styles, &lists.regions, &lists.cues, out)
}
