//! Refusals by document 01's numbers: each that a file or a change can bring, with a sentence that says where and what to do.
use crate::tools::{Done, Folder};

const FILE: &str = "WEBVTT

REGION
id:low

REGION
id:high

00:01.000 --> 00:02.000
The first tram.
00:03.000 --> 00:04.000
The second tram.
";

const MOST: usize = 16_777_216;

fn mend(folder: &Folder, words: &[&str]) -> Done {
    folder.write("a.vtt", FILE);
    let done = folder.vtt([&["mend", "a.vtt"], words].concat());
    assert!(folder.read("a.vtt") == FILE.as_bytes());
    done
}

/// 1: a file over 16,777,216 bytes, for every command.
#[test]
fn a_file_too_long() {
    let folder = Folder::new("refused-1");
    let mut file = b"WEBVTT\n\n00:01.000 --> 00:02.000\n".to_vec();
    file.resize(MOST + 1, b'x');
    folder.write("a.vtt", &file);
    const SENTENCE: &str = "a.vtt: refused 1: the file is longer than 16,777,216 bytes, the most that is read";
    for words in [
        &["list", "a.vtt"][..],
        &["tree", "a.vtt", "0"],
        &["mend", "a.vtt", "0", "--text", "x"],
        &["rewrite", "a.vtt"],
        &["plain", "a.vtt"],
    ] {
        assert_eq!(folder.vtt(words).refused(1), SENTENCE, "{words:?}");
    }
    let done = folder.vtt(["check", "a.vtt"]);
    assert_eq!((done.status, String::from_utf8_lossy(&done.out).trim_end()), (1, SENTENCE));
}

/// 1: a file that a change would make too long; at its greatest length it is made.
#[test]
fn a_change_that_makes_a_file_too_long() {
    let folder = Folder::new("refused-1-made");
    let mut file = b"WEBVTT\n\n00:00:01.000 --> 00:00:02.000\nx\n\nNOTE\n".to_vec();
    file.resize(MOST - 4, b'x');
    folder.write("a.vtt", &file);
    let made = folder.vtt(["mend", "a.vtt", "0", "--text", "x1234"]).printed();
    assert_eq!(made.len(), MOST);
    let sentence = folder.vtt(["mend", "a.vtt", "0", "--text", "x12345", "--in-place"]).refused(1);
    assert_eq!(sentence, "a.vtt: refused 1: the new file would be longer than 16,777,216 bytes, the most that is written");
    assert!(folder.read("a.vtt") == file);
    assert_eq!(folder.names(), ["a.vtt"]);
}

/// 1: a new text that is itself too long.
#[test]
fn a_new_text_too_long() {
    let folder = Folder::new("refused-1-text");
    folder.write("text.txt", vec![b'x'; MOST + 1]);
    let sentence = mend(&folder, &["0", "--text-file", "text.txt"]).refused(1);
    assert_eq!(sentence, "text.txt: refused 1: the new text is too long");
    folder.write("text.txt", vec![b'x'; MOST]);
    let sentence = mend(&folder, &["0", "--text-file", "text.txt"]).refused(1);
    assert!(sentence.starts_with("a.vtt: refused 1: the new file would be longer than"), "{sentence}");
}

/// 3: a new text with a NUL or broken bytes; the place in the text is told.
#[test]
fn a_new_text_that_is_not_plain() {
    let folder = Folder::new("refused-3");
    let cases: [(&[u8], &str); 4] = [
        (b"One\nt\xC3\xA4\0o", "text.txt:2:3: refused 3: the new text holds a NUL"),
        (b"One\r\n\xFF", "text.txt:2:1: refused 3: the new text holds a byte that is no UTF-8"),
        (b"One \xE2\x82", "text.txt:1:5: refused 3: "),
        (b"\0\xFF", "text.txt:1:1: refused 3: the new text holds a NUL"),
    ];
    for (text, expected) in cases {
        folder.write("text.txt", text);
        let sentence = mend(&folder, &["0", "--text-file", "text.txt"]).refused(3);
        assert!(sentence.starts_with(expected), "{sentence}");
    }
    folder.write("b.vtt", FILE);
    let sentence = folder.vtt_given(["mend", "b.vtt", "0", "--text-file", "-"], b"\xFF").refused(3);
    assert!(sentence.starts_with("standard input:1:1: "), "{sentence}");
}

/// 3: lines that end with CR alone count as lines there too.
#[test]
fn the_place_in_a_text_with_cr_ends() {
    let folder = Folder::new("refused-3-cr");
    folder.write("text.txt", b"One\rtw\xFF");
    let sentence = mend(&folder, &["0", "--text-file", "text.txt"]).refused(3);
    assert!(sentence.starts_with("text.txt:2:3: "), "{sentence}");
}

/// 4: a file that does not begin with WEBVTT; an empty one and one in UTF-16 are told as such.
#[test]
fn no_signature() {
    let folder = Folder::new("refused-4");
    let cases: [(&[u8], &str); 6] = [
        (b"", "it is empty"),
        (b"\xFF\xFEW\0E\0B\0V\0T\0T\0", "it looks like UTF-16: save it as UTF-8"),
        (b"\xFE\xFF\0W\0E\0B\0V\0T\0T", "it looks like UTF-16: save it as UTF-8"),
        (b"1\n00:00:01,000 --> 00:00:02,000\n", "begins with the word WEBVTT"),
        (b"WEBVTTX\n", "begins with the word WEBVTT"),
        (b" WEBVTT\n", "begins with the word WEBVTT"),
    ];
    for (file, expected) in cases {
        folder.write("a.vtt", file);
        for words in [&["list", "a.vtt"][..], &["tree", "a.vtt", "0"], &["mend", "a.vtt", "0", "--text", "x"], &["rewrite", "a.vtt"]] {
            let sentence = folder.vtt(words).refused(4);
            assert!(sentence.starts_with("a.vtt:1: refused 4: ") && sentence.contains(expected), "{sentence}");
        }
    }
}

/// 5: a number above its limit; the line where it stands is told, and it need not be the first of its block.
#[test]
fn a_number_above_its_limit() {
    let folder = Folder::new("refused-5");
    let cases = [
        ("WEBVTT\n\n00:01.000 --> 00:02.000\n\nid\n100000:00:00.000 --> 100000:00:01.000\nx\n", 6),
        ("WEBVTT\r\n\r\n00:01.000 --> 00:02.000 line:1000000\r\n\r\n00:02.000 --> 00:03.000 line:1000000", 3),
        ("WEBVTT\r\rREGION\rid:a\rlines:1000000\r", 5),
    ];
    for (file, line) in cases {
        folder.write("a.vtt", file);
        for words in [&["list", "a.vtt"][..], &["mend", "a.vtt", "0", "--text", "x"], &["rewrite", "a.vtt"]] {
            let sentence = folder.vtt(words).refused(5);
            assert!(sentence.starts_with(&format!("a.vtt:{line}: refused 5: a number is above its limit: ")), "{sentence}");
            assert!(sentence.contains("99,999") && sentence.contains("999,999"), "{sentence}");
        }
    }
    folder.write("a.vtt", "WEBVTT\n\nid\n00:01.000 --> 00:02.000\n<100000:00:00.000>x\n");
    folder.vtt(["list", "a.vtt"]).printed();
    let sentence = folder.vtt(["tree", "a.vtt", "0"]).refused(5);
    assert_eq!(sentence, "a.vtt:3: refused 5: the hours of a timestamp in the cue's text are above 99,999");
}

/// 7: no such cue.
#[test]
fn no_such_cue() {
    let folder = Folder::new("refused-7");
    let sentence = mend(&folder, &["2", "--text", "x"]).refused(7);
    assert_eq!(sentence, "a.vtt: refused 7: there is no cue 2; the file has 2 cues, numbered 0 to 1");
    mend(&folder, &["99999999999999999999", "--text", "x"]).refused(7);
    assert!(folder.vtt(["tree", "a.vtt", "--line", "1"]).refused(7).contains("no cue has line 1"));
}

/// 8, test 1: an identifier with a CR.
#[test]
fn an_identifier_that_is_not_plain() {
    let sentence = mend(&Folder::new("refused-8-1"), &["0", "--id", "a\rb"]).refused(8);
    assert_eq!(sentence, "a.vtt:9: refused 8: the new cue cannot be written: a part of it holds a CR, a NUL or a broken character");
}

/// 8, test 2: an identifier with a line break or an arrow.
#[test]
fn an_identifier_that_cannot_be_one() {
    let folder = Folder::new("refused-8-2");
    for identifier in ["a\nb", "a --> b", "\n", "-->"] {
        let sentence = mend(&folder, &["0", "--id", identifier]).refused(8);
        assert_eq!(sentence, "a.vtt:9: refused 8: the new cue cannot be written: its identifier has a line break or an arrow -->");
    }
}

/// 8, test 3: a text with an empty line or an arrow; its line in the text is told.
#[test]
fn a_text_that_cannot_stand_in_a_cue() {
    let folder = Folder::new("refused-8-3");
    let cases = [
        ("One\n\ntwo", "its line 2 is empty"),
        ("\nOne", "its line 1 is empty"),
        ("One\n", "its line 2 is empty"),
        ("\n", "its line 1 is empty"),
        ("One\r\n\r\ntwo", "its line 2 is empty"),
        ("One\ntwo --> three", "its line 2 has an arrow -->"),
        ("-->\n\n", "its line 1 has an arrow -->"),
    ];
    for (text, expected) in cases {
        let sentence = mend(&folder, &["1", "--text", text]).refused(8);
        assert!(
            sentence.starts_with("a.vtt:11: refused 8: the new text cannot stand in a cue: ") && sentence.contains(expected),
            "{sentence}"
        );
    }
}

/// 8, test 4: an end that is not after its start, or a time above the limit; the times are told.
#[test]
fn times_that_cannot_be_written() {
    let folder = Folder::new("refused-8-4");
    for (words, expected) in [
        (&["0", "--end", "1000"][..], "its end, 00:00:01.000, is not after its start, 00:00:01.000"),
        (&["0", "--start", "2001"], "its end, 00:00:02.000, is not after its start, 00:00:02.001"),
        (&["0", "--start", "5000", "--end", "4000"], "its end, 00:00:04.000, is not after its start, 00:00:05.000"),
        (&["0", "--end", "360000000000"], "its time 100000:00:00.000 is above 99999:59:59.999"),
        (&["0", "--end", "18446744073709551615"], "is above 99999:59:59.999"),
    ] {
        let sentence = mend(&folder, words).refused(8);
        assert!(sentence.starts_with("a.vtt:9: refused 8: the new cue cannot be written: ") && sentence.contains(expected), "{sentence}");
    }
    folder.write("b.vtt", "WEBVTT\n\n00:02.000 --> 00:01.000\nx\n");
    folder.vtt(["mend", "b.vtt", "0", "--text", "y"]).refused(8);
    assert!(folder.vtt(["mend", "b.vtt", "0", "--end", "3000"]).text().ends_with("00:00:02.000 --> 00:00:03.000\nx\n"));
    let sentence = folder.vtt(["rewrite", "b.vtt"]).refused(8);
    assert_eq!(sentence, "b.vtt:3: refused 8: cue 0 cannot be written: its end, 00:00:01.000, is not after its start, 00:00:02.000");
}

/// 8, test 6: a region that the file does not have; those that it has are told.
#[test]
fn a_region_that_is_not_there() {
    let folder = Folder::new("refused-8-6");
    let sentence = mend(&folder, &["1", "--settings", "region:lwo"]).refused(8);
    assert_eq!(sentence, "a.vtt:11: refused 8: the file has no region \"lwo\"; it has low, high");
    folder.write("b.vtt", "WEBVTT\n\n00:01.000 --> 00:02.000\n");
    let sentence = folder.vtt(["mend", "b.vtt", "0", "--settings", "region:low"]).refused(8);
    assert_eq!(sentence, "b.vtt:3: refused 8: the file has no region \"low\"; it has none");
    let regions: String = (0..30).map(|number| format!("REGION\nid:r{number}\n\n")).collect();
    folder.write("c.vtt", format!("WEBVTT\n\n{regions}00:01.000 --> 00:02.000\n"));
    let sentence = folder.vtt(["mend", "c.vtt", "0", "--settings", "region:low"]).refused(8);
    assert!(sentence.ends_with("it has 30, the first of them r0, r1, r2, r3, r4, r5, r6, r7"), "{sentence}");
}

/// 9: an identifier right after other text; the line before which an empty line is missing is told.
#[test]
fn an_identifier_right_after_text() {
    let folder = Folder::new("refused-9");
    let sentence = mend(&folder, &["1", "--id", "second"]).refused(9);
    assert_eq!(
        sentence,
        "a.vtt: refused 9: the new identifier would become the last line of the text above it; put an empty line before line 11"
    );
    assert!(mend(&folder, &["0", "--id", "first"]).text().contains("\n\nfirst\n00:00:01.000 --> "));
    assert!(mend(&folder, &["1", "--text", "x"]).text().contains("tram.\n00:00:03.000 --> 00:00:04.000\nx\n"), "no identifier, no refusal");
    for end in ["\r\n", "\r"] {
        folder.write("b.vtt", FILE.replace('\n', end));
        let sentence = folder.vtt(["mend", "b.vtt", "--line", "12", "--id", "second"]).refused(9);
        assert!(sentence.ends_with("put an empty line before line 11"), "{sentence}");
    }
}

/// Where several hold, the first by document 01's order is told.
#[test]
fn the_order_of_refusals() {
    let folder = Folder::new("refused-order");
    mend(&folder, &["2", "--id", "a\nb", "--text", "\n", "--end", "0"]).refused(7);
    assert!(mend(&folder, &["1", "--id", "a\nb", "--text", "\n", "--end", "0"]).refused(8).contains("its identifier has"));
    assert!(mend(&folder, &["1", "--id", "ab", "--text", "\n", "--end", "0"]).refused(8).contains("its line 1 is empty"));
    assert!(mend(&folder, &["1", "--id", "ab", "--end", "0", "--settings", "region:x"]).refused(8).contains("its end"));
    assert!(mend(&folder, &["1", "--id", "ab", "--settings", "region:x"]).refused(8).contains("no region"));
    mend(&folder, &["1", "--id", "ab"]).refused(9);
}
