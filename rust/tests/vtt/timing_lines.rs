//! Timing lines that fail: `vtt check` says where and why no cue begins there. Columns are the places of document 003's steps, from 1.
use crate::tools::Folder;

/// Each step in the start time and in the end time, and what stands between them: the line, the column where its reading fails, and what is said.
const STEPS: [(&str, u64, &str); 18] = [
    ("x --> 00:02.000", 1, "digit missing in the start time"),
    ("00:1.000 --> 00:02.000", 5, "wrong digit count in the start time"),
    ("00 --> 00:02.000", 3, "colon missing in the start time"),
    ("60:00.000 --> 61:00.000", 6, "colon missing in the start time"),
    ("00:01,000 --> 00:02,000", 6, "full stop missing in the start time"),
    ("00:60:00.000 --> 00:02.000", 13, "value over 59 in the start time"),
    ("00:60.000-->00:02.000", 10, "value over 59 in the start time"),
    ("00:01.000 x--> 00:02.000", 11, "arrow missing after the start time"),
    ("00:01.000 -- > 00:02.000 -->", 13, "arrow missing after the start time"),
    ("00:01.000--->00:02.000", 12, "arrow missing after the start time"),
    ("00:01.000-->", 13, "digit missing in the end time"),
    ("00:01.000 --> -00:02.000", 15, "digit missing in the end time"),
    ("00:01.000 --> 00:02.0000", 25, "wrong digit count in the end time"),
    ("00:01.000 --> 1:02.000", 19, "colon missing in the end time"),
    ("00:01.000 --> 00:02,000 align:left", 20, "full stop missing in the end time"),
    ("00:01.000 --> 00:02 --> 00:03.000", 20, "full stop missing in the end time"),
    ("00:01.000 --> 00:00:60.000 line:0", 27, "value over 59 in the end time"),
    ("100000:00:00.000 --> 00:60.000", 31, "value over 59 in the end time"),
];

/// What `check` prints of a file with so many cues, whose timing lines fail at these lines and columns.
fn expected(name: &str, cues: usize, failed: &[(u64, u64, &str)]) -> String {
    let plural = |count: usize, word: &str| if count == 1 { format!("1 {word}") } else { format!("{count} {word}s") };
    let mut printed = format!("{name}: accepted: {}, 0 regions, 0 styles; {}\n", plural(cues, "cue"), plural(failed.len(), "warning"));
    for (line, column, what) in failed {
        printed.push_str(&format!(
            "{name}:{line}:{column}: no cue here: {what}; \
             the standard: no cue begins here, and the lines of its block are passed over; \
             seen: Chromium and VLC lose this cue, libavformat all later ones too; webvtt-py reads it where only a comma is wrong\n"
        ));
    }
    printed
}

/// The same places with LF, with CR LF, and after a byte order mark, which is in no column and no line.
#[test]
fn each_step_is_told_with_its_place() {
    let folder = Folder::new("steps");
    let blocks: String = STEPS.iter().map(|(line, ..)| format!("\n{line}\nNo cue.\n")).collect();
    let file = format!("WEBVTT\n{blocks}\n00:05.000 --> 00:06.000\nA cue.\n");
    let failed: Vec<(u64, u64, &str)> = (3..).step_by(3).zip(STEPS).map(|(line, (_, column, what))| (line, column, what)).collect();
    for file in [file.clone(), file.replace('\n', "\r\n"), format!("\u{FEFF}{file}"), format!("\u{FEFF}{file}").replace('\n', "\r\n")] {
        folder.write("episode.vtt", &file);
        assert_eq!(folder.vtt(["check", "episode.vtt"]).text(), expected("episode.vtt", 1, &failed), "{file:?}");
        let rewritten = folder.vtt(["rewrite", "episode.vtt"]);
        assert!(rewritten.err.contains(&format!("are left out: {}; ", STEPS.len())), "{}", rewritten.err);
    }
}

/// Blanks before the times count, each for one column, tabs and form feeds too. The line after an identifier is told by its own number, and so is
/// one right after the file's first line.
#[test]
fn places_count_from_the_line_start() {
    let folder = Folder::new("places");
    let cases = [
        ("\n \t00:01,000 --> 00:02.000\n", (3, 8, "full stop missing in the start time")),
        ("\n\t\t\t-->\n", (3, 4, "digit missing in the start time")),
        ("\n  00:01.000\t -> --> 00:02.000\n", (3, 15, "arrow missing after the start time")),
        ("\n 00:01.000 \t-->\u{c} \t00:02.00\n", (3, 27, "wrong digit count in the end time")),
        ("\n00:01.000 --> \t\n", (3, 16, "digit missing in the end time")),
        ("\nSüd\n00:01,000 --> 00:02.000\nSüd\n", (4, 6, "full stop missing in the start time")),
        ("00:01,000 --> 00:02.000\n", (2, 6, "full stop missing in the start time")),
        ("A header.\nIts second line.\n00:01.000 --> 0002.000\n", (4, 19, "colon missing in the end time")),
    ];
    for (rest, failed) in cases {
        for mark in ["", "\u{FEFF}"] {
            for end in ["\n", "\r\n"] {
                folder.write("a.vtt", format!("{mark}WEBVTT\n{rest}").replace('\n', end));
                assert_eq!(folder.vtt(["check", "a.vtt"]).text(), expected("a.vtt", 0, &[failed]), "{rest:?}");
            }
        }
    }
}

/// What stands at the place may be anything: letters, broken bytes and NULs, which have warnings of their own.
#[test]
fn anything_may_stand_at_the_place() {
    let folder = Folder::new("anything");
    for (line, column, what, others) in [
        (&b"00:01.000 --> \xE5\xAD\x97"[..], 15, "digit missing in the end time", 0),
        (b"\xC2\xA000:01.000 --> 00:02.000", 1, "digit missing in the start time", 0),
        (b"00:01\x00000 --> 00:02.000", 6, "full stop missing in the start time", 1),
        (b"00:01.000 \xFF--> 00:02.000", 11, "arrow missing after the start time", 1),
        (b"00:01.0\xD9\xA30 --> 00:02.000", 8, "wrong digit count in the start time", 0),
    ] {
        folder.write("a.vtt", [b"WEBVTT\n\n", line, b"\nx\n"].concat());
        let printed = folder.vtt(["check", "a.vtt"]).text();
        let told = format!("a.vtt:3:{column}: no cue here: {what}; ");
        assert!(printed.contains(&told) && printed.lines().count() == 2 + others, "{printed}");
    }
}

/// A line whose times read never fails, whatever its settings are, and neither does the file's first line.
#[test]
fn lines_that_do_not_fail() {
    let folder = Folder::new("reading");
    folder.write("a.vtt", "WEBVTT --> 00:01,000\n\n00:01.000-->00:02.000x 00:01,000 --> x\n\n\t00:03.000\t-->\t60:00:00.000\n");
    let printed = folder.vtt(["check", "a.vtt"]).text();
    assert!(printed.starts_with("a.vtt: accepted: 2 cues, ") && !printed.contains(": no cue here: "), "{printed}");
}
