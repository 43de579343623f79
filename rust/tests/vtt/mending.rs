//! `vtt mend`: what changes and what stays, how a cue is named, and where a new text comes from.
use crate::tools::{fields, Folder, END, FIRST_LINE, ID, LINE_COUNT, REGION, SETTINGS, START, TEXT};

/// Lines 1 to 21; cues 0 (lines 8 to 11), 1 (13), 2 (15 to 17) and 3 (18 to 21, with no empty line before it), of which 0 and 2 have an identifier.
const FILE: &str = "WEBVTT

NOTE stays

REGION
id:low

intro
00:01.000 --> 00:02.000 position:10%,line-left region:low align:left
The first tram
is late.

00:02.000 --> 00:03.000

outro
00:03.000 --> 00:04.000 line:-1 size:50%
The second tram.
00:05.000 --> 00:06.000
The third
tram.
NOTE a part of the third cue";

fn folder(name: &str) -> Folder {
    let folder = Folder::new(name);
    folder.write("a.vtt", FILE);
    folder
}

/// The cues of a file, each as the fields of its line.
fn cues(folder: &Folder, file: &[u8]) -> Vec<Vec<String>> {
    let listed = folder.vtt_given(["list", "-"], file).text();
    listed.lines().filter(|line| line.starts_with("cue\t")).map(fields).collect()
}

/// One cue of the file as it is after a change.
fn mended(folder: &Folder, number: usize, words: &[&str]) -> Vec<String> {
    let number_word = number.to_string();
    let new = folder.vtt([&["mend", "a.vtt", &number_word], words].concat()).printed();
    cues(folder, &new).swap_remove(number)
}

/// What is not named stays as the cue has it: each change touches its own fields and no others, of this cue and of no other.
#[test]
fn what_is_not_named_stays() {
    let folder = folder("stays");
    let old = cues(&folder, FILE.as_bytes());
    let changes: [(&str, &str, &[usize], &str); 6] = [
        ("--start", "1500", &[START], "1500"),
        ("--end", "00:01:00.000", &[END], "60000"),
        ("--id", "other", &[ID], "other"),
        ("--text", "One\ntwo", &[TEXT], "One\\ntwo"),
        ("--settings", "region:low", &[6, 7, 8, 9, 10, 11, 12], "horizontal auto start auto auto 100% center"),
        ("--settings", "line:5 region:low", &[6, 7, 8, 9, 10, 11, 12], "horizontal 5 start auto auto 100% center"),
    ];
    for (option, value, touched, expected) in changes {
        let new = folder.vtt(["mend", "a.vtt", "0", option, value]).printed();
        let new = cues(&folder, &new);
        let values: Vec<&str> = touched.iter().map(|field| new[0][*field].as_str()).collect();
        assert_eq!(values.join(" "), expected, "{option} {value}");
        for (number, (old, new)) in old.iter().zip(&new).enumerate() {
            for (field, (old, new)) in old.iter().zip(new).enumerate() {
                assert!(
                    old == new || number == 0 && touched.contains(&field),
                    "{option} {value}: cue {number}, field {field}: {old} {new}"
                );
            }
        }
    }
    assert_eq!((old[0][REGION].as_str(), old[0][FIRST_LINE].as_str(), old[0][LINE_COUNT].as_str()), ("0", "8", "4"));
}

/// Every byte outside the cue's own lines stays, and the cue is written in one form.
#[test]
fn the_new_bytes() {
    let folder = folder("bytes");
    let (old, new) = (
        "00:01.000 --> 00:02.000 position:10%,line-left region:low align:left\n",
        "00:00:01.000 --> 00:00:02.500 position:10%,line-left align:left region:low\n",
    );
    let expected = FILE.replace(old, new);
    for end in ["2500", "00:02.500", "00:00:02.500", "02500"] {
        assert_eq!(folder.vtt(["mend", "a.vtt", "0", "--end", end]).text(), expected, "{end}");
    }
    assert_eq!(folder.vtt(["mend", "a.vtt", "0", "--end", "2500", "-o", "b.vtt", "--quiet"]).text(), "");
    assert!(folder.read("b.vtt") == expected.as_bytes());
    assert!(folder.read("a.vtt") == FILE.as_bytes());
}

/// Times are milliseconds, or as a timing line has them.
#[test]
fn times_in_both_forms() {
    let folder = folder("times");
    for (given, read) in [("0", "0"), ("1999", "1999"), ("00:01.999", "1999"), ("00:00:01.999", "1999"), ("000:00:01.999", "1999")] {
        assert_eq!(mended(&folder, 0, &["--start", given])[START], read, "{given}");
    }
    let far = [("359999999999", "359999999999"), ("99999:59:59.999", "359999999999"), ("1:00:00.000", "3600000"), ("59:59.999", "3599999")];
    for (given, read) in far {
        assert_eq!(mended(&folder, 0, &["--end", given])[END], read, "{given}");
    }
    assert_eq!(mended(&folder, 0, &["--start=00:08.000", "--end=9000"])[START..=END], ["8000", "9000"]);
}

/// What is no time is bad usage, and the sentence says where it fails and how a time is written.
#[test]
fn what_is_no_time() {
    let folder = folder("no-times");
    for (given, reason) in [
        ("", "digit missing at character 1"),
        (" ", "digit missing at character 1"),
        ("1.5", "colon missing at character 2"),
        ("1,5", "colon missing at character 2"),
        ("00:01", "full stop missing at character 6"),
        ("00:01,000", "full stop missing at character 6"),
        ("00:01.0000", "wrong digit count at character 11"),
        ("00:61.000", "value over 59 at character 10"),
        ("0:01.000", "colon missing at character 5"),
        ("-1", "digit missing at character 1"),
        ("1s", "colon missing at character 2"),
        ("00:01.000 ", "something after the time at character 10"),
        ("100000:00:00.000x", "something after the time at character 17"),
        ("1\n2", "colon missing at character 2"),
        ("٣", "digit missing at character 1"),
    ] {
        for option in ["--start", "--end"] {
            let sentence = folder.vtt(["mend", "a.vtt", "0", &format!("{option}={given}")]);
            assert_eq!(sentence.status, 2, "{given}");
            let told = format!("{option}: \"{given}\" is not a time: {reason}; write HH:MM:SS.mmm or milliseconds");
            assert!(sentence.err.contains(&told), "{}", sentence.err);
        }
    }
    assert!(folder.vtt(["mend", "a.vtt", "0", "--end", "100000:00:00.000"]).failed(2).contains("above 99,999"));
    assert!(folder.vtt(["mend", "a.vtt", "0", "--end", "99999999999999999999"]).failed(2).contains("are too many"));
}

/// A cue by its number, by each of its lines, and by its identifier.
#[test]
fn a_cue_is_named_three_ways() {
    let folder = folder("named");
    for (number, lines) in [(0, 8..=11), (1, 13..=13), (2, 15..=17), (3, 18..=21)] {
        let by_number = folder.vtt(["mend", "a.vtt", &number.to_string(), "--text", "x"]).printed();
        assert_eq!(cues(&folder, &by_number)[number][TEXT], "x");
        for line in lines {
            assert!(folder.vtt(["mend", "a.vtt", "--line", &line.to_string(), "--text", "x"]).printed() == by_number, "line {line}");
        }
    }
    for (number, identifier) in [("0", "intro"), ("2", "outro")] {
        let by_number = folder.vtt(["mend", "a.vtt", number, "--text", "x"]).printed();
        assert!(folder.vtt(["mend", "a.vtt", "--identifier", identifier, "--text", "x"]).printed() == by_number);
    }
}

/// A line that no cue has: the sentence names the nearest cue and its lines.
#[test]
fn lines_of_no_cue() {
    let folder = folder("no-cue");
    let nearest =
        [(0, "cue 0 (lines 8 to 11)"), (1, "cue 0 (lines 8 to 11)"), (7, "cue 0 (lines 8 to 11)"), (22, "cue 3 (lines 18 to 21)")];
    for (line, near) in nearest.into_iter().chain([(12, "cue"), (14, "cue"), (1_000_000, "cue 3")]) {
        let sentence = folder.vtt(["mend", "a.vtt", "--line", &line.to_string(), "--text", "x"]).refused(7);
        assert!(sentence.contains(&format!("no cue has line {line}, the nearest is {near}")), "{sentence}");
        assert!(sentence.ends_with("the file has 4 cues, numbered 0 to 3"), "{sentence}");
    }
    folder.write("none.vtt", "WEBVTT\n");
    let sentence = folder.vtt(["mend", "none.vtt", "--line", "1", "--text", "x"]).refused(7);
    assert_eq!(sentence, "none.vtt: refused 7: no cue has line 1; the file has no cue");
    folder.write("one.vtt", "WEBVTT\n\n00:01.000 --> 00:02.000\n");
    let sentence = folder.vtt(["tree", "one.vtt", "1"]).refused(7);
    assert_eq!(sentence, "one.vtt: refused 7: there is no cue 1; the file has one cue, number 0");
}

/// An identifier that no cue has, or several: the first two are named.
#[test]
fn identifiers_of_none_and_of_several() {
    let folder = Folder::new("identifiers");
    let cue = |identifier: &str, start: u64| format!("{identifier}\n00:0{start}.000 --> 00:0{}.000\nx\n\n", start + 1);
    folder.write("a.vtt", ["WEBVTT\n\n".to_string(), cue("a", 1), cue("b", 2), cue("a", 3), cue("a", 4), cue(" a", 5)].concat());
    let sentence = folder.vtt(["mend", "a.vtt", "--identifier", "c", "--text", "x"]).refused(7);
    assert!(sentence.contains("no cue has the identifier \"c\""), "{sentence}");
    let sentence = folder.vtt(["mend", "a.vtt", "--identifier", "a", "--text", "x"]).refused(7);
    assert!(sentence.contains("3 cues have the identifier \"a\", 0 and 2 first"), "{sentence}");
    let new = folder.vtt(["mend", "a.vtt", "--identifier", " a", "--text", "y"]).printed();
    assert_eq!(cues(&folder, &new)[4][TEXT], "y");
}

/// No identifier at all names no cue: an empty variable of a shell must not change the one cue that has none.
#[test]
fn an_empty_identifier_names_no_cue() {
    let folder = Folder::new("identifier-empty");
    folder.write("a.vtt", "WEBVTT\n\na\n00:01.000 --> 00:02.000\n\n00:02.000 --> 00:03.000\n");
    for words in [&["mend", "a.vtt", "--identifier", "", "--text", "x"][..], &["tree", "a.vtt", "--identifier="]] {
        assert!(folder.vtt(words).failed(2).contains("--identifier needs an identifier"), "{words:?}");
    }
}

/// A number that is too great for the machine is told as it was given.
#[test]
fn a_number_too_great_is_told_as_given() {
    let folder = folder("too-great");
    const GIVEN: &str = "99999999999999999999999";
    for words in [&[GIVEN][..], &["--line", GIVEN]] {
        let sentence = folder.vtt([&["mend", "a.vtt"], words, &["--text", "x"]].concat()).refused(7);
        assert!(!sentence.contains("18446744073709551615"), "{sentence}");
    }
}

/// A text from a file: its line ends may be CR LF or CR, one last line end and a byte order mark are left out.
#[test]
fn a_text_from_a_file() {
    let folder = folder("text-file");
    for bytes in ["One\ntwo", "One\ntwo\n", "One\r\ntwo\r\n", "One\rtwo\r", "One\r\ntwo", "\u{FEFF}One\ntwo\n"] {
        folder.write("text.txt", bytes);
        assert_eq!(mended(&folder, 0, &["--text-file", "text.txt"])[TEXT], "One\\ntwo", "{bytes:?}");
        let new = folder.vtt_given(["mend", "a.vtt", "0", "--text-file", "-"], bytes.as_bytes()).printed();
        assert_eq!(cues(&folder, &new)[0][TEXT], "One\\ntwo", "{bytes:?} from standard input");
    }
    folder.write("text.txt", "");
    assert_eq!(mended(&folder, 0, &["--text-file", "text.txt"])[TEXT..=TEXT], [""]);
    folder.write("text.txt", "One\n\n");
    assert!(folder.vtt(["mend", "a.vtt", "0", "--text-file", "text.txt"]).refused(8).contains("line 2 is empty"));
    assert!(folder.vtt(["mend", "a.vtt", "0", "--text-file", "none.txt"]).failed(3).starts_with("none.txt: "));
    assert!(folder.vtt(["mend", "a.vtt", "0", "--text-file", "."]).failed(3).contains("it is a folder"));
}

/// A text may begin with a dash, and be the name of an option.
#[test]
fn a_text_that_begins_with_a_dash() {
    let folder = folder("dash");
    for text in ["- Who is it?", "-", "--", "--help", "--in-place", "-o", "–"] {
        assert_eq!(mended(&folder, 0, &["--text", text])[TEXT], text);
        assert_eq!(mended(&folder, 0, &[&format!("--text={text}")])[TEXT], text);
    }
    assert_eq!(mended(&folder, 0, &["--text", "- Who?\n- I."])[TEXT], "- Who?\\n- I.");
    assert_eq!(mended(&folder, 0, &["--id", "-x"])[ID], "-x");
    assert_eq!(mended(&folder, 0, &["--text", "a=b", "--id=c=d"])[ID..=TEXT], ["c=d", "a=b"]);
}

/// Empty values take away: the settings with the region, the identifier, the text.
#[test]
fn empty_values_take_away() {
    let folder = folder("empty-values");
    let opening = ["horizontal", "auto", "start", "auto", "auto", "100%", "center"];
    let new = mended(&folder, 0, &["--settings", ""]);
    assert_eq!((&new[SETTINGS], new[REGION].as_str(), new[ID].as_str()), (&opening.map(str::to_string)[..], "none", "intro"));
    assert_eq!(mended(&folder, 0, &["--id", ""])[ID], "");
    let new = folder.vtt(["mend", "a.vtt", "2", "--text=", "--id=", "--settings= "]).text();
    assert_eq!(new, FILE.replace("outro\n00:03.000 --> 00:04.000 line:-1 size:50%\nThe second tram.", "00:00:03.000 --> 00:00:04.000"));
}

/// Settings are given all together, in any order, and written in one.
#[test]
fn new_settings() {
    let folder = folder("settings");
    let written = |given: &str| {
        let new = folder.vtt(["mend", "a.vtt", "1", "--settings", given]).text();
        new.lines().nth(12).map(|line| line.replace("00:00:02.000 --> 00:00:03.000", "")).expect("line 13")
    };
    assert_eq!(written("region:low align:end size:100.0%"), " align:end region:low");
    assert_eq!(
        written("size:50% position:0.50%,center line:010,end vertical:rl"),
        " vertical:rl line:10,end position:0.5%,center size:50%"
    );
    assert_eq!(written("\tline:5 \u{c} line:10%"), " line:10%");
    assert_eq!(written("line:5 region:low"), " line:5 region:low");
    assert_eq!(written("align:center"), "");
}

/// Settings that would do nothing are bad usage; the sentence says how they are written.
#[test]
fn settings_without_effect_are_refused() {
    let folder = folder("settings-bad");
    let cases = [
        ("align:middle", "the word of 2013 for align:center"),
        ("line:5,", "line:5,end"),
        ("size:50", "size:50%"),
        ("position:101%", "position:10%"),
        ("foo:bar", "there is no such setting"),
        ("bold", "there is no such setting"),
        ("vertical:up", "vertical:rl or vertical:lr"),
        ("region:", "the identifier of a region"),
        ("align:left\nline:5", "settings stand on one line"),
        ("align:left line:5-->", "\"line:5-->\" would have no effect"),
        ("region:low line:5", "\"region:low\" is cancelled by a setting after it"),
        ("region:low vertical:rl", "put it last, or leave it out"),
    ];
    for (given, expected) in cases {
        let sentence = folder.vtt(["mend", "a.vtt", "1", "--settings", given]).failed(2);
        assert!(sentence.starts_with("vtt mend: --settings: ") && sentence.contains(expected), "{given}: {sentence}");
    }
}

/// A line number above its limit: the sentence says that it is too great, not that it is written otherwise.
#[test]
fn a_line_number_above_its_limit_is_told() {
    let folder = folder("settings-limit");
    assert!(folder.vtt(["mend", "a.vtt", "1", "--settings", "line:999999"]).text().contains(" line:999999\n"));
    for given in ["line:1000000", "line:-1000000", "line:1000000 line:5"] {
        let sentence = folder.vtt(["mend", "a.vtt", "1", "--settings", given]).failed(2);
        assert!(sentence.contains("is beyond 999,999"), "{sentence}");
    }
}

/// Where a cue held bytes that are no UTF-8 and its text stays, the exchange is told, with the cue's line.
#[test]
fn exchanged_bytes_are_told() {
    let folder = Folder::new("exchanged");
    folder.write("a.vtt", b"WEBVTT \xFF\n\na\n00:01.000 --> 00:02.000\nOne \xFF.\n\n00:03.000 --> 00:04.000\nTwo.\n");
    let done = folder.vtt(["mend", "a.vtt", "0", "--end", "2500"]);
    assert!(done.status == 0 && done.err.starts_with("a.vtt:3: note: ") && done.err.contains("U+FFFD"), "{}", done.err);
    assert!(done.out.ends_with("\n00:00:01.000 --> 00:00:02.500\nOne \u{FFFD}.\n\n00:03.000 --> 00:04.000\nTwo.\n".as_bytes()));
    for words in [&["0", "--text", "One."][..], &["1", "--end", "5000"]] {
        assert_eq!(folder.vtt([&["mend", "a.vtt"], words].concat()).err, "", "nothing was exchanged: {words:?}");
    }
}

/// A NUL is exchanged like a broken byte, and told like one.
#[test]
fn an_exchanged_nul_is_told() {
    let folder = Folder::new("exchanged-nul");
    folder.write("a.vtt", b"WEBVTT\n\n00:01.000 --> 00:02.000\nOne \0.\n");
    let done = folder.vtt(["mend", "a.vtt", "0", "--end", "2500"]);
    assert!(done.out.ends_with("One \u{FFFD}.\n".as_bytes()));
    assert!(done.err.starts_with("a.vtt:3: note: "), "nothing is said: {:?}", done.err);
}

/// An identifier that stays is exchanged too, also where the text is a new one.
#[test]
fn an_exchanged_identifier_is_told() {
    let folder = Folder::new("exchanged-identifier");
    folder.write("a.vtt", b"WEBVTT\n\na\xFF\n00:01.000 --> 00:02.000\nOne.\n");
    let done = folder.vtt(["mend", "a.vtt", "0", "--text", "Two."]);
    assert!(String::from_utf8_lossy(&done.out).contains("\na\u{FFFD}\n"));
    assert!(done.err.starts_with("a.vtt:3: note: "), "nothing is said: {:?}", done.err);
    let done = folder.vtt(["mend", "a.vtt", "0", "--id", "b"]);
    assert_eq!((String::from_utf8_lossy(&done.out).contains('\u{FFFD}'), done.err.as_str()), (false, ""), "nothing was exchanged");
}
