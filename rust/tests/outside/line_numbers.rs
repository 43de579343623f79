//! The lines of cues: the examples of request Q-8 with the numbers that stand there, and files on which a count can go wrong, through the functions
//! over lent memory and through the safe ones. What a change of one cue does to the lines is stated here by itself, without reading.
use crate::compare::{first_seed, number_from};
use crate::generate::file;
use crate::papers;
use crate::random::Random;
use spatzenherd::lent::{self, CueRow, NewCueRow, CUE_WORDS, NEW_CUE_WORDS, REGION_WORDS, STYLE_WORDS};
use spatzenherd::{replace, File, NewCue};
use std::cmp::Ordering;

/// The number of a cue's first line, and its count of lines.
type Lines = [u64; 2];

const ACCEPTED: u64 = 0;
const NOT_WRITABLE: u64 = 8;

/// Two numbers that a caller may lend with a new cue.
const LENT: [Lines; 6] = [[0, 0], [3, 3], [1, 0], [99, 7], [u64::MAX, u64::MAX], [0, u64::MAX]];

fn lines_of(rows: &[CueRow]) -> Vec<Lines> {
    rows.iter().map(|row| [row[17], row[18]]).collect()
}

/// The lines of a raw file's cues, as reading in one call stores them.
pub fn lines(raw: &[u8]) -> Vec<Lines> {
    let (mut text, mut values) = (vec![0; 3 * raw.len()], [0; 8]);
    let asked = lent::read_file(raw, &mut text, &mut [], &mut [], &mut [], &mut values);
    let [cues, regions, styles] = [0, 1, 2].map(|list| if asked == 6 { values[list] as usize } else { 0 });
    // A word that is not stored shows.
    let mut cues = vec![[7; CUE_WORDS]; cues];
    let (mut regions, mut styles) = (vec![[7; REGION_WORDS]; regions], vec![[7; STYLE_WORDS]; styles]);
    assert_eq!(lent::read_file(raw, &mut text, &mut cues, &mut regions, &mut styles, &mut values), ACCEPTED);
    lines_of(&cues)
}

/// How many lines a cue's written form has: its identifier, its timing line and its text's lines, where "an empty identifier or text gives no
/// line".
pub fn written_lines(identifier: &[u8], text: &[u8]) -> u64 {
    let of_text = if text.is_empty() { 0 } else { text.split(|&byte| byte == b'\n').count() };
    u64::from(!identifier.is_empty()) + 1 + of_text as u64
}

/// "The first lines of cues after the changed one move by the difference in line counts; it and the others keep theirs, and it has as many lines as
/// its written form."
pub fn moved(old: &[Lines], number: usize, written: u64) -> Vec<Lines> {
    let before = old[number][1];
    let new = |(index, &[first, count]): (usize, &Lines)| match index.cmp(&number) {
        Ordering::Less => [first, count],
        Ordering::Equal => [first, written],
        Ordering::Greater => [first + written - before, count],
    };
    old.iter().enumerate().map(new).collect()
}

/// Every function that reads, and the papers, give these lines.
fn reads(raw: &[u8], expected: &[Lines]) {
    let shown = String::from_utf8_lossy(&raw[..raw.len().min(500)]).into_owned();
    let text = papers::plain_text(raw);
    let lists = papers::read(&text, usize::MAX, usize::MAX, usize::MAX).expect("the papers read it");
    assert_eq!(lines_of(&lists.cues), expected, "the papers on {shown:?}");
    assert_eq!(lines(raw), expected, "read_file on {shown:?}");
    let mut cues = vec![[7; CUE_WORDS]; expected.len() + 1];
    let (mut regions, mut styles) = (vec![[7; REGION_WORDS]; lists.regions.len()], vec![[7; STYLE_WORDS]; lists.styles.len()]);
    assert_eq!(lent::read(&text, &mut cues, &mut regions, &mut styles, &mut [0; 8]), ACCEPTED, "read on {shown:?}");
    assert_eq!(cues.pop(), Some([7; CUE_WORDS]), "the row after the cues of {shown:?}");
    assert_eq!(lines_of(&cues), expected, "read on {shown:?}");
    for file in [File::read(raw), File::of_text(String::from_utf8(text).expect("plain text is well-formed"))] {
        let found: Vec<Lines> = file.expect("it is read").cues().map(|cue| [cue.lines.first, cue.lines.count]).collect();
        assert_eq!(found, expected, "File on {shown:?}");
    }
}

#[test]
fn examples_of_reading() {
    let cases: [(&[u8], &[Lines]); 10] = [
        (b"WEBVTT\n\n00:01.000 --> 00:02.000", &[[3, 1]]),
        (b"WEBVTT\n\na\n00:01.000 --> 00:02.000\nx\ny\n\n\n00:03.000 --> 00:04.000\n", &[[3, 4], [9, 1]]),
        (b"WEBVTT\n00:01.000 --> 00:02.000\nx", &[[2, 2]]),
        (b"WEBVTT\r\nh\r\n\r\n00:01.000 --> 00:02.000\r\nx\r\n", &[[4, 2]]),
        (b"\xEF\xBB\xBFWEBVTT\r\r00:01.000 --> 00:02.000\rx", &[[3, 2]]),
        (b"WEBVTT\n\r\r00:01.000 --> 00:02.000\n\rx", &[[4, 1]]),
        (b"WEBVTT\n\n00:01.000 --> 00:02.000\n00:03.000 --> 00:04.000\nx", &[[3, 1], [4, 2]]),
        (b"WEBVTT\n\n00:01.000 --> bad\n\na\n00:03.000 --> 00:04.000", &[[5, 2]]),
        (b"WEBVTT\n\nNOTE\n\nSTYLE\nx\n\na\n00:03.000 --> 00:04.000\nb", &[[8, 3]]),
        (b"WEBVTT\n\n00:01.000 --> 00:02.000\nx\xC2\x85y\xE2\x80\xA8z\x0B\n\x0C\nq", &[[3, 4]]),
    ];
    for (raw, expected) in cases {
        reads(raw, expected);
    }
}

/// A new cue from the seventh second to the eighth: its row, with these lines, over a text of its own.
fn new_cue(identifier: &str, text: &str, lines: Lines) -> (NewCueRow, Vec<u8>) {
    let joined = [identifier, text].concat().into_bytes();
    let mut row = [0; NEW_CUE_WORDS];
    row[0..6].copy_from_slice(&[0, identifier.len() as u64, 7000, 8000, identifier.len() as u64, joined.len() as u64]);
    row[14..16].copy_from_slice(&[100_000_000, 1]);
    row[18..].copy_from_slice(&lines);
    (row, joined)
}

/// The file that replacing gives, or the refusal's number and values.
fn replaced(raw: &[u8], number: usize, row: &[u64], text: &[u8]) -> Result<Vec<u8>, (u64, [u64; 8])> {
    let (mut scratch, mut out, mut values) = (vec![0; 3 * raw.len()], vec![0; raw.len() + text.len() + 200], [0; 8]);
    let refused = lent::replace(raw, number, row, text, &mut scratch, &mut out, &mut values);
    if refused != ACCEPTED {
        assert!(out.iter().all(|&byte| byte == 0), "refusal {refused} leaves the output room as it was");
        return Err((refused, values));
    }
    out.truncate(values[0] as usize);
    Ok(out)
}

/// Replacing cue `number` gives these bytes with these lines, whatever two numbers are lent. A row of another count of words is refused.
fn replaces(raw: &[u8], number: usize, identifier: &str, text: &str, new: Result<(&[u8], &[Lines]), u64>) {
    for lent in LENT {
        let (row, joined) = new_cue(identifier, text, lent);
        let found = replaced(raw, number, &row, &joined);
        assert_eq!(found.as_deref().map_err(|refused| refused.0), new.map(|(file, _)| file), "with {lent:?}");
        let expected = papers::replace(raw, number, &row, &joined, usize::MAX, usize::MAX).answer;
        assert_eq!(expected.as_deref().map_err(|refused| refused.number), new.map(|(file, _)| file), "the papers with {lent:?}");
        for words in (0..NEW_CUE_WORDS).chain(NEW_CUE_WORDS + 1..30) {
            let mut row = row.to_vec();
            row.resize(words, lent[0]);
            assert_eq!(replaced(raw, number, &row, &joined), Err((NOT_WRITABLE, [2, number as u64, 1, 0, 0, 0, 0, 0])), "{words} words");
        }
    }
    let safe = replace(raw, number, &NewCue { identifier, text, start: 7000, end: 8000, ..NewCue::default() });
    assert_eq!(safe.as_deref().map_err(|refusal| refusal.number()), new.map(|(file, _)| file));
    if let Ok((file, expected)) = new {
        reads(file, expected);
        assert_eq!(moved(&lines(raw), number, written_lines(identifier.as_bytes(), text.as_bytes())), expected);
    }
}

#[test]
fn examples_of_replacing() {
    let three = b"WEBVTT\n\na\n00:01.000 --> 00:02.000\nx\n\n00:03.000 --> 00:04.000\r\ny\r\nz\n\n00:05.000 --> 00:06.000";
    reads(three, &[[3, 3], [7, 3], [11, 1]]);
    let cases: [(usize, &str, &str, &[u8], &[Lines]); 6] = [
        (
            0,
            "",
            "",
            b"WEBVTT\n\n00:00:07.000 --> 00:00:08.000\n\n00:03.000 --> 00:04.000\r\ny\r\nz\n\n00:05.000 --> 00:06.000",
            &[[3, 1], [5, 3], [9, 1]],
        ),
        (
            0,
            "b",
            "1\n2\n3",
            b"WEBVTT\n\nb\n00:00:07.000 --> 00:00:08.000\n1\n2\n3\n\n00:03.000 --> 00:04.000\r\ny\r\nz\n\n00:05.000 --> 00:06.000",
            &[[3, 5], [9, 3], [13, 1]],
        ),
        (
            1,
            "",
            "1",
            b"WEBVTT\n\na\n00:01.000 --> 00:02.000\nx\n\n00:00:07.000 --> 00:00:08.000\n1\n\n00:05.000 --> 00:06.000",
            &[[3, 3], [7, 2], [10, 1]],
        ),
        (
            1,
            "c",
            "y\nz",
            b"WEBVTT\n\na\n00:01.000 --> 00:02.000\nx\n\nc\n00:00:07.000 --> 00:00:08.000\ny\nz\n\n00:05.000 --> 00:06.000",
            &[[3, 3], [7, 4], [12, 1]],
        ),
        (
            2,
            "",
            "e",
            b"WEBVTT\n\na\n00:01.000 --> 00:02.000\nx\n\n00:03.000 --> 00:04.000\r\ny\r\nz\n\n00:00:07.000 --> 00:00:08.000\ne",
            &[[3, 3], [7, 3], [11, 2]],
        ),
        (
            2,
            "d",
            "",
            b"WEBVTT\n\na\n00:01.000 --> 00:02.000\nx\n\n00:03.000 --> 00:04.000\r\ny\r\nz\n\nd\n00:00:07.000 --> 00:00:08.000",
            &[[3, 3], [7, 3], [11, 2]],
        ),
    ];
    for (number, identifier, text, new, after) in cases {
        replaces(three, number, identifier, text, Ok((new, after)));
    }
    let no_gap = b"WEBVTT\n\n00:01.000 --> 00:02.000\n00:03.000 --> 00:04.000\nx";
    reads(no_gap, &[[3, 1], [4, 2]]);
    let new = b"WEBVTT\n\n00:01.000 --> 00:02.000\n00:00:07.000 --> 00:00:08.000\n1\n2";
    replaces(no_gap, 1, "", "1\n2", Ok((new, &[[3, 1], [4, 3]])));
    replaces(no_gap, 1, "id", "1\n2", Err(9));
}

/// Each of these with LF, CR LF and CR as its line ends, and with an LF, two or none at its end: the same lines.
#[test]
fn line_ends() {
    let time = "00:01.000 --> 00:02.000";
    let cases: [(String, &[Lines]); 16] = [
        (String::new(), &[]),
        (format!("\n{time}"), &[[3, 1]]),
        (format!("\nid\n{time}"), &[[3, 2]]),
        // The header: an arrow line right after the signature, or after the header's lines.
        (time.to_string(), &[[2, 1]]),
        (format!("header\nmore\n{time}\nx"), &[[4, 2]]),
        (format!("header -->\n\n{time}"), &[[4, 1]]),
        // Cues without a text, one right after the other.
        (format!("\n{time}\n{time}\n{time}\nx\n{time}"), &[[3, 1], [4, 1], [5, 2], [7, 1]]),
        // Timing lines that fail: their blocks' lines count and give no cue.
        (format!("\n{time}x\n00:01.000 --> bad\nx\ny\n\nid\n00:01.000 --> bad\nx\n{time}\nz"), &[[3, 1], [11, 2]]),
        (format!("\na --> b\nx\n{time}"), &[[5, 1]]),
        (format!("\nid\na --> b\n{time}"), &[[5, 1]]),
        // Of two lines before a timing line neither is its identifier.
        (format!("\na\nb\n{time}\nx"), &[[5, 2]]),
        (format!("\nREGION\nid:r\n\nSTYLE\nx\n\nNOTE\na\nb\n\nid\n{time} region:r\nx"), &[[13, 3]]),
        (format!("\nREGION\n{time}\nSTYLE\nx\n\nSTYLE\n{time}"), &[[3, 4], [8, 2]]),
        // A line of blanks is not empty. A character of several bytes, a NUL, a broken one and another byte order mark end no line.
        (format!("\n \n{time}\n \n\t\n\u{FEFF}\n\n{time}"), &[[3, 5], [9, 1]]),
        (format!("\0\n\n\0\0\n{time}\n\u{2029}\0\u{1F600}\u{1C}\u{85}\n\u{0B}\u{2028}\n\n{time}"), &[[4, 4], [9, 1]]),
        (format!("\n{time}\n{}x\n{time}", "\n".repeat(299)), &[[3, 1], [303, 2]]),
    ];
    for (after, expected) in cases {
        for end in ["\n", "\r\n", "\r"] {
            for last in ["", "\n", "\n\n"] {
                for start in ["WEBVTT", "\u{FEFF}WEBVTT", "WEBVTT x --> y"] {
                    let raw = format!("{start}\n{after}{last}").replace('\n', end);
                    reads(raw.as_bytes(), expected);
                }
            }
        }
    }
    // LF CR is two line ends, and CR CR LF too; a broken sequence ends before them.
    reads(b"WEBVTT\n\r00:01.000 --> 00:02.000\n\rx\n\r00:01.000 --> 00:02.000", &[[3, 1], [7, 1]]);
    reads(b"WEBVTT\r\r\n00:01.000 --> 00:02.000\r\r\nx\r\r\n00:01.000 --> 00:02.000", &[[3, 1], [7, 1]]);
    reads(b"WEBVTT \xE2\x82\r\n\xF0\x9F\r\r\xE2\n00:01.000 --> 00:02.000\xFF\rx\xF0\x9F\x98\n\n00:01.000 --> 00:02.000", &[[4, 3], [8, 1]]);
}

/// A file of so many cues that differ in all that counts, with their lines as they are put there.
fn many(cues: usize) -> (Vec<u8>, Vec<Lines>) {
    let (mut raw, mut line, mut expected) = (b"WEBVTT".to_vec(), 1, Vec::new());
    let mut put = |bytes: &[u8], end: usize| {
        // An LF after the CR of an empty line would be one line end with it.
        let ends = if raw.ends_with(b"\r") { ["\r"; 3] } else { ["\n", "\r\n", "\r"] };
        raw.extend_from_slice(ends[end % 3].as_bytes());
        raw.extend_from_slice(bytes);
        line += 1;
        line
    };
    for cue in 0..cues {
        // A new block: an empty line in most cases, since a timing line begins one by itself.
        let empty = [1, 1, 2, 0, 1][cue % 5];
        let many_more = if cue % 1000 == 999 { 300 } else { 0 };
        for _ in 0..empty + many_more {
            put(b"", cue);
        }
        if empty > 0 && cue % 7 == 0 {
            put(b"NOTE a comment", cue + 1);
            put(b"", cue);
        }
        if empty > 0 && cue % 11 == 0 {
            put(b"00:00.000 --> never", cue);
            put(b"lost", cue);
            put(b"", cue + 2);
        }
        let identifier = (empty > 0 && cue % 2 == 0).then(|| put(format!("{cue}").as_bytes(), cue));
        let timing = put(b"00:00.000 --> 00:01.000", cue);
        let last = (0..cue % 4).map(|_| put(b"x\xE2\x80\xA8", cue)).last().unwrap_or(timing);
        let first = identifier.unwrap_or(timing);
        expected.push([first, last - first + 1]);
    }
    (raw, expected)
}

#[test]
fn many_cues() {
    let (raw, expected) = many(100_000);
    assert_eq!(expected.len(), 100_000);
    reads(&raw, &expected);
    for number in [0, 1, 49_999, 50_000, 99_998, 99_999] {
        for text in ["", "a\nb\nc\nd\ne"] {
            let (row, joined) = new_cue("", text, [number as u64, u64::MAX]);
            let new = replaced(&raw, number, &row, &joined).expect("it is accepted");
            assert!(lines(&new) == moved(&expected, number, written_lines(b"", text.as_bytes())), "cue {number}");
        }
    }
}

/// A cue is replaced, and then put back as it was read: the file reads as before, the lines too.
#[test]
fn put_back() {
    let (seed, files, mut done) = (first_seed(), number_from("SPATZENHERD_FILES", 20_000), 0);
    println!("cues put back: {files} files, seeds {seed} to {}", seed + files - 1);
    for seed in seed..seed + files {
        let mut random = Random::new(seed);
        let blocks = 1 + random.below(8);
        let raw = file(&mut random, blocks);
        let Ok(read) = File::read(&raw) else { continue };
        let number = random.below(read.cues().len());
        let Ok(old) = read.cue(number) else { continue };
        let region = old.region.map_or("", |index| read.regions().nth(index).expect("its region").identifier);
        let back = NewCue { identifier: old.identifier, start: old.start, end: old.end, text: old.text, settings: old.settings, region };
        let other = NewCue { text: random.of(&["", "a", "a\nb\nc\nd\ne"]), end: 1, ..NewCue::default() };
        let Ok(other) = replace(&raw, number, &other) else { panic!("seed {seed}: a cue without an identifier fits everywhere") };
        // It may not be writable, since reading asks less.
        let Ok(back) = replace(&other, number, &back) else { continue };
        let again = File::read(&back).expect("it is read");
        assert!(again.cues().eq(read.cues()), "seed {seed}: cue {number} of {:?}", String::from_utf8_lossy(&raw));
        assert!(again.regions().eq(read.regions()) && again.styles().eq(read.styles()), "seed {seed}");
        done += 1;
    }
    println!("cues put back: {done} cues, 0 differences");
    assert!(done > files / 20, "too few cues can be put back: {done} of {files} files");
}
