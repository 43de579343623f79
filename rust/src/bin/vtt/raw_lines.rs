//! The lines of a raw file: each ends at CR LF, at any other CR or LF, or with the file. Line n of the raw file is line n of its plain text, so
//! the numbers that the library gives of a cue's lines lead to the cue's own bytes.
use spatzenherd::LineSpan;
use std::ops::Range;

/// Where each line stands, without its end, in order. After a last line end comes one more line, an empty one.
pub fn raw_lines(raw: &[u8]) -> impl Iterator<Item = Range<usize>> + '_ {
    let mut next = Some(0);
    std::iter::from_fn(move || {
        let from = next?;
        let end = raw[from..].iter().position(|byte| matches!(byte, b'\n' | b'\r')).map(|length| from + length);
        next = end.map(|end| end + if raw[end..].starts_with(b"\r\n") { 2 } else { 1 });
        Some(from..end.unwrap_or(raw.len()))
    })
}

/// Where a cue's own bytes stand: from its first line to the end of its last, that line's end left out.
pub fn own_bytes(raw: &[u8], lines: LineSpan) -> Range<usize> {
    let first = lines.first.saturating_sub(1) as usize;
    let mut own = raw_lines(raw).skip(first).take(lines.count as usize);
    let from = own.next().unwrap_or(raw.len()..raw.len());
    from.start..own.last().unwrap_or(from).end
}

/// The number of the line, from 1, that a place of a text with LF ends is in, and its column in characters, from 1.
pub fn line_and_column(text: &str, place: usize) -> (u64, u64) {
    let before = &text[..place];
    let line = before.bytes().filter(|byte| *byte == b'\n').count() as u64;
    let column = before[before.rfind('\n').map_or(0, |at| at + 1)..].chars().count() as u64;
    (line + 1, column + 1)
}

#[cfg(test)]
mod tests {
    use super::*;

    #[test]
    fn lines_end_as_document_01_says() {
        let raw = b"a\r\nb\rc\n\r\r\nd";
        let lines: Vec<&[u8]> = raw_lines(raw).map(|line| &raw[line]).collect();
        assert_eq!(lines, [&b"a"[..], b"b", b"c", b"", b"", b"d"]);
        assert_eq!(raw_lines(b"").collect::<Vec<_>>(), [0..0]);
        assert_eq!(raw_lines(b"a\r\n").collect::<Vec<_>>(), [0..1, 3..3]);
    }

    #[test]
    fn own_bytes_leave_the_last_line_end_out() {
        let raw = b"WEBVTT\r\n\r\nid\r00:01.000 --> 00:02.000\na\r\n\r\n";
        assert_eq!(&raw[own_bytes(raw, LineSpan { first: 3, count: 3 })], b"id\r00:01.000 --> 00:02.000\na");
        assert_eq!(own_bytes(raw, LineSpan { first: 40, count: 3 }), raw.len()..raw.len());
    }

    #[test]
    fn columns_count_characters() {
        assert_eq!(line_and_column("ab\näöx", 7), (2, 3));
        assert_eq!(line_and_column("", 0), (1, 1));
    }
}
