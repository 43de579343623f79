//! From bytes to plain text (document 01, and request Q-2 of document 02), and the test whether a text is plain.

use super::{room_too_short, too_long, Refusal, GREATEST_FILE};
use std::collections::HashSet;
use std::sync::OnceLock;

const REPLACEMENT: &[u8] = "\u{FFFD}".as_bytes();

/// The length of the well-formed sequence that begins at this place, by the Unicode Standard's table of well-formed byte sequences.
fn well_formed(bytes: &[u8], at: usize) -> Option<usize> {
    let byte = |distance: usize| bytes.get(at + distance).copied();
    let is_in = |distance: usize, low: u8, high: u8| byte(distance).is_some_and(|b| low <= b && b <= high);
    let first = byte(0)?;
    // First byte, then the range of the second byte, then how many bytes 80 to BF follow the second.
    let (low, high, more) = match first {
        0x00..=0x7F => return Some(1),
        0xC2..=0xDF => (0x80, 0xBF, 0),
        0xE0 => (0xA0, 0xBF, 1),
        0xE1..=0xEC => (0x80, 0xBF, 1),
        0xED => (0x80, 0x9F, 1),
        0xEE..=0xEF => (0x80, 0xBF, 1),
        0xF0 => (0x90, 0xBF, 2),
        0xF1..=0xF3 => (0x80, 0xBF, 2),
        0xF4 => (0x80, 0x8F, 2),
        _ => return None,
    };
    if !is_in(1, low, high) {
        return None;
    }
    for distance in 2..2 + more {
        if !is_in(distance, 0x80, 0xBF) {
            return None;
        }
    }
    Some(2 + more)
}

/// Could these bytes have begun a sequence: is one character's encoding longer and does it start with them. Every character is tried, so that
/// no table is asked.
fn could_begin(bytes: &[u8]) -> bool {
    static STARTS: OnceLock<HashSet<Vec<u8>>> = OnceLock::new();
    let starts = STARTS.get_or_init(|| {
        let mut starts = HashSet::new();
        for character in '\0'..=char::MAX {
            let mut room = [0; 4];
            let encoding = character.encode_utf8(&mut room).as_bytes();
            for length in 1..encoding.len() {
                if !starts.contains(&encoding[..length]) {
                    starts.insert(encoding[..length].to_vec());
                }
            }
        }
        starts
    });
    starts.contains(bytes)
}

/// The length of the longest run from this place on that could have begun a sequence, and 1 for a stray byte.
fn run(bytes: &[u8], at: usize) -> usize {
    (1..=bytes.len() - at).take_while(|length| could_begin(&bytes[at..at + length])).last().unwrap_or(1)
}

/// "From bytes to plain text" with request Q-2, without limits.
pub fn plain_text(raw: &[u8]) -> Vec<u8> {
    let mut text = Vec::new();
    // Drop one leading EF BB BF.
    let mut at = if raw.starts_with(&[0xEF, 0xBB, 0xBF]) { 3 } else { 0 };
    while at < raw.len() {
        if raw[at] == 0 {
            // Each NUL becomes U+FFFD.
            text.extend_from_slice(REPLACEMENT);
            at += 1;
        } else if raw[at] == b'\r' && raw.get(at + 1) == Some(&b'\n') {
            // Each CR LF pair becomes LF.
            text.push(b'\n');
            at += 2;
        } else if raw[at] == b'\r' {
            // Each other CR becomes LF.
            text.push(b'\n');
            at += 1;
        } else if let Some(length) = well_formed(raw, at) {
            // Well-formed UTF-8 stays.
            text.extend_from_slice(&raw[at..at + length]);
            at += length;
        } else {
            // "One U+FFFD for each longest run that could have begun a sequence and for each stray byte."
            text.extend_from_slice(REPLACEMENT);
            at += run(raw, at);
        }
    }
    text
}

/// Converting: checks 1, 2.
pub fn convert(raw: &[u8], room: usize) -> Result<Vec<u8>, Refusal> {
    if raw.len() > GREATEST_FILE {
        return Err(too_long());
    }
    let text = plain_text(raw);
    if text.len() > room {
        return Err(room_too_short(text.len()));
    }
    Ok(text)
}

/// The first place that holds CR, NUL or a byte that belongs to no well-formed sequence.
pub fn first_not_plain(text: &[u8]) -> Option<usize> {
    let mut at = 0;
    while at < text.len() {
        if text[at] == b'\r' || text[at] == 0 {
            return Some(at);
        }
        match well_formed(text, at) {
            Some(length) => at += length,
            None => return Some(at),
        }
    }
    None
}
