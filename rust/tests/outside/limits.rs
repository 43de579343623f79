//! The limits themselves, on both sides: the lengths of files and texts, read and made, and the numbers.
use crate::compare::Case;
use crate::papers;
use spatzenherd::{replace, write, Cue, File, LineSpan, NewCue, Refusal, Tree, MAX_FILE, MAX_TEXT};

/// A start and then one byte over and over, up to a length.
pub fn filled(start: &[u8], byte: u8, length: usize) -> Vec<u8> {
    let mut bytes = start.to_vec();
    bytes.resize(length, byte);
    bytes
}

#[test]
fn raw_files() {
    let mut case = Case::new(1);
    let start = b"WEBVTT\n\n00:00.000 --> 00:01.000\n";
    for (byte, text_length) in [(b'x', MAX_FILE), (b'\0', 3 * MAX_FILE - 2 * start.len()), (b'\n', MAX_FILE)] {
        let longest = filled(start, byte, MAX_FILE);
        assert_eq!(papers::plain_text(&longest).len(), text_length);
        case.convert(&longest, text_length);
        case.convert(&longest, text_length - 1);
        assert_eq!(File::read(&longest).expect("it is read").cues().len(), 1);
        let longer = filled(start, byte, MAX_FILE + 1);
        case.convert(&longer, 0);
        assert_eq!(File::read(&longer), Err(Refusal::TooLong));
        assert_eq!(replace(&longer, 0, &NewCue::default()), Err(Refusal::TooLong));
    }
}

#[test]
fn texts() {
    let mut case = Case::new(2);
    let longest = filled(b"WEBVTT\n\n00:00.000 --> 00:01.000\n", b'x', MAX_TEXT);
    case.read(&longest, [1, 0, 0]);
    case.read(&filled(&longest, b'x', MAX_TEXT + 1), [1, 0, 0]);
    // Not plain, and too long: 1 comes first.
    case.read(&filled(&longest, b'\r', MAX_TEXT + 1), [1, 0, 0]);
    case.first_not_plain(&filled(&longest, b'\r', MAX_TEXT + 1));
}

/// A cue on the last line of the longest file and of the longest text, after nothing but line ends; and a cue of a million lines.
#[test]
fn lines() {
    let (start, timing, mut case) = (b"WEBVTT", b"00:00.000 --> 00:01.000", Case::new(4));
    for (byte, length) in [(b'\n', MAX_FILE), (b'\r', MAX_FILE), (b'\n', MAX_TEXT)] {
        let mut last = filled(start, byte, length - timing.len());
        last.extend_from_slice(timing);
        let found = if length == MAX_FILE { File::read(&last) } else { File::of_text(String::from_utf8(last).expect("it is text")) };
        let lines = found.expect("it is read").cue(0).expect("a cue").lines;
        assert_eq!(lines, LineSpan { first: (length - start.len() - timing.len() + 1) as u64, count: 1 });
    }
    let most = [b"WEBVTT\n\n".as_slice(), timing, &b"\nx".repeat(1_000_000)].concat();
    case.read(&most, [1, 0, 0]);
    assert_eq!(File::read(&most).expect("it is read").cue(0).expect("a cue").lines, LineSpan { first: 3, count: 1_000_001 });
}

#[test]
fn cue_texts() {
    let longest = "<i>".repeat(MAX_TEXT / 3);
    assert_eq!(longest.len(), MAX_TEXT);
    let tree = Tree::read(&longest).expect("it is read");
    assert_eq!(tree.nodes().len(), MAX_TEXT / 3);
    assert_eq!(tree.nodes().last().expect("a node").parent, Some(MAX_TEXT / 3 - 2));
    assert_eq!(Tree::read(&(longest + "x")), Err(Refusal::TooLong));
}

/// Files to be made, of exactly the greatest length and one byte more.
#[test]
fn files_made() {
    let head = "WEBVTT\n\n00:00:00.000 --> 00:00:01.000\n".len();
    for (length, refused) in [(MAX_FILE - head - 1, false), (MAX_FILE - head, true)] {
        let text = "x".repeat(length);
        let cue = Cue { text: text.as_str(), end: 1000, ..Cue::default() };
        let made = write(&[], &[], &[cue]);
        assert_eq!(made.as_ref().err(), refused.then_some(&Refusal::TooLong));
        let old = b"WEBVTT\n\n00:00.000 --> 00:00.001\n";
        let replaced = replace(old, 0, &NewCue { text: &text, end: 1000, ..NewCue::default() });
        assert_eq!(replaced.as_ref().err(), refused.then_some(&Refusal::TooLong));
        if !refused {
            assert_eq!(made.map(|file| file.len()), Ok(MAX_FILE));
            assert_eq!(replaced.map(|file| file.len()), Ok(MAX_FILE));
        }
    }
}

/// Times, line numbers and counts of lines at their limits, in files and in rows.
#[test]
fn numbers() {
    let mut case = Case::new(3);
    let digits =
        ["99999", "100000", "099999", "0100000", "999999", "1000000", "999999.0", "999999.0000000000000000001", "18446744073709551616"];
    for digits in digits {
        for line in [
            format!("{digits}:00:00.000 --> {digits}:00:01.000"),
            format!("00:00.000 --> {digits}:00:01.000 x"),
            format!("00:00.000 --> 00:01.000 line:{digits}"),
            format!("00:00.000 --> 00:01.000 line:-{digits},end line:0"),
            format!("00:00.000 --> 00:01.000 line:{digits},middle size:{digits}%"),
        ] {
            case.file(format!("WEBVTT\n\nREGION\nid:r\nlines:3\n\n{line}\nx\n").as_bytes());
        }
        case.file(format!("WEBVTT\n\nREGION\nlines:{digits} lines:2\n\n00:00.000 --> 00:01.000\n<{digits}:00:00.000>").as_bytes());
    }
    for time in [359_999_999_999, 360_000_000_000, u64::MAX] {
        let cue = Cue { text: "x", start: 0, end: time, ..Cue::default() };
        let refused = Refusal::NotWritable { list: spatzenherd::List::Cues, index: 0, test: 4 };
        assert_eq!(write(&[], &[], &[cue]).err(), (time > 359_999_999_999).then_some(refused));
    }
}
