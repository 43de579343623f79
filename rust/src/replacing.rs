//! Replacing one cue of a raw file: that cue's own bytes change and nothing else.
use crate::file::{accepted, cue_words, Joined};
use crate::lent::{self, NewCueRow, NEW_CUE_WORDS};
use crate::refusal::Refusal;
use crate::settings::Settings;

/// A cue to stand in the place of another. Its region is asked for by name.
#[derive(Clone, Copy, Debug, Default, PartialEq, Eq)]
pub struct NewCue<'a> {
    /// Empty for none.
    pub identifier: &'a str,
    /// In milliseconds.
    pub start: u64,
    /// In milliseconds.
    pub end: u64,
    pub text: &'a str,
    pub settings: Settings,
    /// The file's last region of this name is taken; empty for none.
    pub region: &'a str,
}

/// No timing line without its region's name is longer: two times and their arrow have at most 35 bytes, the settings' longest forms 107.
const TIMING_LINE: usize = 256;

/// The raw file with the cue of this number replaced: comments, line ends and odd bytes around it stay, and the new file reads as the old one
/// with that cue replaced.
///
/// ```
/// use spatzenherd::{replace, NewCue};
/// let old = b"WEBVTT\r\n\r\nNOTE stays\r\n\r\n00:01.000 --> 00:02.000\r\nThe first tram.\r\n";
/// let new = replace(old, 0, &NewCue { start: 1000, end: 2500, text: "The last tram.", ..NewCue::default() })?;
/// assert_eq!(new, b"WEBVTT\r\n\r\nNOTE stays\r\n\r\n00:00:01.000 --> 00:00:02.500\nThe last tram.\r\n");
/// # Ok::<(), spatzenherd::Refusal>(())
/// ```
pub fn replace(raw: &[u8], number: usize, cue: &NewCue<'_>) -> Result<Vec<u8>, Refusal> {
    let mut text = Joined::default();
    let (identifier, words) = (text.put(cue.identifier), text.put(cue.text));
    let mut row: NewCueRow = [0; NEW_CUE_WORDS];
    row[0..16].copy_from_slice(&cue_words(identifier, [cue.start, cue.end], words, &cue.settings));
    row[16..18].copy_from_slice(&text.put(cue.region));
    let held = raw.len().min(crate::MAX_FILE);
    let mut scratch = vec![0; held];
    let mut out = vec![0; (held + text.bytes().len() + TIMING_LINE).min(crate::MAX_FILE)];
    let mut values = [0; 8];
    loop {
        match lent::replace(raw, number, &row, text.bytes(), &mut scratch, &mut out, &mut values) {
            2 => scratch = vec![0; values[0] as usize],
            10 => out = vec![0; values[0] as usize],
            answer => {
                accepted(answer, &values)?;
                out.truncate(values[0] as usize);
                return Ok(out);
            }
        }
    }
}
