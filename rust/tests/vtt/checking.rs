//! `vtt check`: one line a file, the cues that cannot be written, and the warnings with their places.
use crate::tools::{of_repository, Folder};
use std::collections::BTreeSet;

const CLEAN: &str = "\u{FEFF}WEBVTT Night tram

NOTE A comment with <foo>, &copy; and 2 < 3 is nobody's text.

STYLE
::cue(b) { color: yellow }

REGION
id:low
lines:2

1
00:00:01.000 --> 00:00:02.000 line:5,end position:10%,line-left size:50% align:left
<v.loud Anna>The <i>last</i> <c.a.b>tram</c>
<00:00:01.500>&amp; no &lt;other&gt;.&nbsp;</v>

2
00:00:02.000 --> 00:00:03.000 vertical:rl region:low
<ruby>tram<rt>tram</rt></ruby> <lang de>Tram</lang> <b><u>Tom</u></b>

00:00:03.000 --> 00:00:04.000
AT&T & Co. > 5 &
";

/// A warning: its line, its column where it has one, and its kind.
type Place = (u64, Option<u64>, String);

/// The warnings that are printed of one file.
fn warnings(folder: &Folder, name: &str) -> Vec<Place> {
    let done = folder.vtt(["check", name]);
    assert_eq!((done.status, done.err.as_str()), (0, ""), "{name}");
    let printed = String::from_utf8(done.out).expect("UTF-8");
    assert!(printed.starts_with(&format!("{name}: accepted: ")), "{printed}");
    printed.lines().filter(|line| line.contains("; the standard: ")).map(|line| place(name, line)).collect()
}

/// A block without a cue is told as such, and every other warning with its kind.
fn place(name: &str, line: &str) -> Place {
    assert!(line.contains("; seen: "), "{line}");
    let rest = line.strip_prefix(&format!("{name}:")).unwrap_or_else(|| panic!("{line}"));
    let (numbers, kind) = match rest.split_once(": warning: ") {
        Some((numbers, rest)) => (numbers, rest.split(':').next().expect("a kind")),
        None => (rest.split_once(": no cue here: ").expect("a warning").0, "timing-line"),
    };
    let mut numbers = numbers.split(':').map(|number| number.parse::<u64>().expect("a number"));
    (numbers.next().expect("a line"), numbers.next(), kind.to_string())
}

fn kind(line: u64, column: u64, kind: &str) -> Place {
    (line, Some(column), kind.to_string())
}

/// The files on which players were tried, each with the kind that it is called after.
fn files_for_players() -> Vec<(String, std::path::PathBuf)> {
    let files = std::fs::read_dir(of_repository("rust/tests/vtt/players")).expect("the files for players");
    let paths = files.map(|file| file.expect("a file").path()).filter(|path| path.extension().is_some_and(|end| end == "vtt"));
    paths.map(|path| (path.file_stem().expect("a name").to_string_lossy().into_owned(), path)).collect()
}

/// `form-feed-2` is called after the kind `form-feed`.
fn kind_of(name: &str) -> &str {
    match name.rsplit_once('-') {
        Some((kind, number)) if number.bytes().all(|byte| byte.is_ascii_digit()) => kind,
        _ => name,
    }
}

/// Each file on which players were tried is warned of by the kind that it is called after, and by no other.
#[test]
fn each_file_for_players_has_its_kind() {
    let folder = Folder::new("players");
    for (name, path) in files_for_players() {
        let wanted = kind_of(&name);
        let also: &[&str] = match name.as_str() {
            "late-block-2" => &["region-unknown"],
            "line-above" | "line-above-2" => &["timing-line"],
            _ => &[],
        };
        std::fs::copy(&path, folder.path("a.vtt")).expect("a copy");
        let found = warnings(&folder, "a.vtt");
        assert!(found.iter().any(|(_, _, kind)| kind == wanted), "{name}: {found:?}");
        for (line, _, kind) in found {
            assert!(kind == wanted || also.contains(&kind.as_str()), "{name}, line {line}: {kind}");
        }
        let done = folder.vtt(["check", "--strict", "a.vtt"]);
        assert_eq!((done.status, done.err.as_str()), (1, ""), "{name}");
    }
}

/// The page on players has a row for each kind that has a file, and for no other.
#[test]
fn each_kind_is_on_the_page() {
    let page = std::fs::read_to_string(of_repository("docs/PLAYERS.md")).expect("docs/PLAYERS.md");
    let rows: BTreeSet<&str> = page.lines().filter_map(|line| line.strip_prefix("| `")?.split('`').next()).collect();
    let files = files_for_players();
    let kinds: BTreeSet<&str> = files.iter().map(|(name, _)| kind_of(name)).collect();
    assert_eq!(rows, kinds);
}

/// A clean file has one line and no warning, with every line end but CR alone.
#[test]
fn a_clean_file_has_no_warning() {
    let folder = Folder::new("clean");
    for file in [CLEAN.to_string(), CLEAN.replace('\n', "\r\n"), CLEAN.trim_end().to_string()] {
        folder.write("a.vtt", file);
        assert_eq!(folder.vtt(["check", "a.vtt"]).text(), "a.vtt: accepted: 3 cues, 1 region, 1 style; 0 warnings\n");
        assert_eq!(folder.vtt(["check", "--strict", "--all", "a.vtt"]).text(), "a.vtt: accepted: 3 cues, 1 region, 1 style; 0 warnings\n");
        assert_eq!(folder.vtt(["check", "--quiet", "--strict", "a.vtt"]).text(), "");
    }
    folder.write("a.vtt", "WEBVTT");
    assert_eq!(folder.vtt(["check", "a.vtt"]).text(), "a.vtt: accepted: 0 cues, 0 regions, 0 styles; 0 warnings\n");
}

/// Lines count from 1 by every line end, columns from 1 by characters, whatever stands before the place.
#[test]
fn lines_and_columns() {
    let folder = Folder::new("columns");
    let lines: [&[u8]; 18] = [
        "WEBVTT Grüße".as_bytes(),
        b"",
        "Straße".as_bytes(),
        "00:01.000 --> 00:02.000 grün:1 align:middle\tsize:50".as_bytes(),
        "Grüße &copy; \u{1F68B}<foo>e\u{301}</foo>".as_bytes(),
        "\u{1F68B}\u{1F68B}&euro;".as_bytes(),
        b"",
        "00:02.000 --> 00:03.000 region:süd align:left".as_bytes(),
        "äöü \0 und".as_bytes(),
        b"\xC3\xA4\xC3\xB6 \xE2\x82 \xFF",
        b"",
        "00:03.000-->00:04.000".as_bytes(),
        "Öl: 2 < 3".as_bytes(),
        b"",
        "00:04.000 -->00:05.000\u{c}size:50%".as_bytes(),
        "für".as_bytes(),
        "00:06.000 --> 00:05.000".as_bytes(),
        b"",
    ];
    let expected = [
        kind(4, 25, "setting-no-effect"),
        kind(4, 32, "setting-no-effect"),
        kind(4, 45, "setting-no-effect"),
        kind(5, 7, "escape-not-read"),
        kind(5, 15, "tag-unknown"),
        kind(5, 22, "tag-unknown"),
        kind(6, 3, "escape-not-read"),
        kind(8, 25, "region-unknown"),
        kind(9, 5, "nul"),
        kind(10, 4, "broken-utf8"),
        kind(12, 10, "arrow-without-space"),
        kind(13, 7, "tag-open"),
        kind(15, 11, "arrow-without-space"),
        kind(15, 23, "form-feed"),
        (17, None, "end-not-after-start".into()),
        (17, None, "no-empty-line".into()),
    ];
    for end in ["\n", "\r\n"] {
        folder.write("a.vtt", lines.join(end.as_bytes()));
        let mut found = warnings(&folder, "a.vtt");
        found.sort();
        assert_eq!(found, expected, "{end:?}");
    }
    folder.write("a.vtt", lines.join(&b'\r'));
    let found = warnings(&folder, "a.vtt");
    assert_eq!((found.len(), &found[0]), (expected.len() + 1, &(1, None, "cr-alone".into())));
}

/// A byte order mark is in no column: editors do not show it.
#[test]
fn a_byte_order_mark_is_in_no_column() {
    let folder = Folder::new("columns-mark");
    folder.write("a.vtt", b"\xEF\xBB\xBFWEBVTT \xFF");
    assert_eq!(warnings(&folder, "a.vtt"), [kind(1, 8, "broken-utf8")]);
}

/// The region's name, the setting and the tag stand in the sentence, on one line and not too long.
#[test]
fn what_stands_there_is_told() {
    let folder = Folder::new("told");
    let long = "x".repeat(500);
    folder.write(
        "a.vtt",
        format!(
            "WEBVTT\n\nREGION\nid:low\n\n00:01.000 --> 00:02.000 region:low line:5 align:middle\n<a\tb\nc\\d> <{long}>\n\n{long} --> x\n"
        ),
    );
    let printed = folder.vtt(["check", "a.vtt"]).text();
    for piece in [
        "\"region:low\" is cancelled by \"line:5\" after it",
        "the word of 2013 for align:center",
        "\"<a\\tb\\nc\\\\d>\" is no tag of WebVTT",
    ] {
        assert!(printed.contains(piece), "{printed}");
    }
    assert!(printed.contains(&format!("\"<{}...\"", "x".repeat(39))) && !printed.contains(&long), "{printed}");
    assert_eq!(printed.lines().count(), 6, "{printed}");
}

/// Of more than 20 of a kind, 20 are printed, and how many more there are; `--all` prints them all.
#[test]
fn more_than_twenty_of_a_kind() {
    let folder = Folder::new("twenty");
    let cues = |count: usize| format!("WEBVTT\n\n{}", "00:01.000 --> 00:02.000\n<foo>&copy;\n\n".repeat(count));
    for (count, more) in [(20, None), (21, Some(1)), (25, Some(5)), (300, Some(280))] {
        folder.write("a.vtt", cues(count));
        let printed = folder.vtt(["check", "a.vtt"]).text();
        assert!(printed.starts_with(&format!("a.vtt: accepted: {count} cues, 0 regions, 0 styles; {} warnings\n", 2 * count)), "{printed}");
        for kind in ["tag-unknown", "escape-not-read"] {
            assert_eq!(printed.matches(&format!(": warning: {kind}: \"")).count(), count.min(20));
            let line = more.map(|more| format!("a.vtt: warning: {kind}: {more} more of these; --all prints them\n"));
            assert_eq!(printed.matches(" more of these").count(), if more.is_some() { 2 } else { 0 });
            assert!(line.map_or(true, |line| printed.contains(&line)), "{printed}");
        }
        let all = folder.vtt(["check", "--all", "a.vtt"]).text();
        assert_eq!((all.lines().count(), all.contains("more of these")), (1 + 2 * count, false));
    }
}

/// A cue that can be read and not be written: its line, its number and the reason.
#[test]
fn cues_that_cannot_be_written() {
    let folder = Folder::new("unwritable");
    folder.write("a.vtt", "WEBVTT\n\n00:01.000 --> 00:02.000\n\nlast\n00:05.000 --> 00:04.000\nx\n");
    let done = folder.vtt(["check", "a.vtt"]);
    let printed = String::from_utf8(done.out).expect("UTF-8");
    let lines: Vec<&str> = printed.lines().collect();
    assert_eq!((done.status, lines.len()), (0, 3), "{printed}");
    assert_eq!(lines[0], "a.vtt: accepted: 2 cues, 0 regions, 0 styles; 1 warning");
    assert_eq!(lines[1], "a.vtt:5: cue 1 cannot be written: its end, 00:00:04.000, is not after its start, 00:00:05.000");
    assert!(lines[2].starts_with("a.vtt:6: warning: end-not-after-start: "), "{printed}");
    assert_eq!(folder.vtt(["check", "--strict", "a.vtt"]).status, 1);
}

/// Several files: each in turn, a summary at the end, and the gravest exit status.
#[test]
fn several_files_and_a_summary() {
    let folder = Folder::new("several");
    folder.write("clean.vtt", CLEAN);
    folder.write("warned.vtt", "WEBVTT\n\n00:02.000 --> 00:01.000\n<foo>\n");
    folder.write("refused.vtt", "no captions");
    folder.write("none.vtt", "");
    let check = |words: &[&str]| {
        let done = folder.vtt([&["check"], words].concat());
        let printed = String::from_utf8(done.out).expect("UTF-8");
        (done.status, printed.lines().last().unwrap_or_default().to_string(), printed.lines().count(), done.err)
    };
    let summary = |words: &[&str]| check(words).1;
    assert_eq!(summary(&["clean.vtt", "clean.vtt"]), "2 files: 2 accepted, 0 refused; 0 cues that cannot be written, 0 warnings");
    assert_eq!(summary(&["clean.vtt", "warned.vtt"]), "2 files: 2 accepted, 0 refused; 1 cue that cannot be written, 2 warnings");
    assert_eq!(check(&["clean.vtt", "warned.vtt"]).0, 0);
    assert_eq!(check(&["clean.vtt", "warned.vtt", "--strict"]).0, 1);
    let (status, line, count, err) = check(&["refused.vtt", "warned.vtt", "none.vtt", "clean.vtt"]);
    assert_eq!((status, count, err.as_str()), (1, 1 + 4 + 1 + 1 + 1, ""));
    assert_eq!(line, "4 files: 2 accepted, 2 refused; 1 cue that cannot be written, 2 warnings");
    let (status, line, count, err) = check(&["missing.vtt", "clean.vtt", "refused.vtt"]);
    assert_eq!((status, count, err.as_str()), (3, 3, "missing.vtt: cannot be read: there is no such file\n"));
    assert_eq!(line, "3 files: 1 accepted, 1 refused, 1 not read; 0 cues that cannot be written, 0 warnings");
    assert_eq!(check(&["missing.vtt", "."]).0, 3);
}

/// `--quiet` prints only what is wrong: no counts, no summary.
#[test]
fn quiet_prints_only_what_is_wrong() {
    let folder = Folder::new("quiet");
    folder.write("clean.vtt", CLEAN);
    folder.write("warned.vtt", "WEBVTT\n\n00:02.000 --> 00:01.000\n<foo>\n");
    folder.write("refused.vtt", "no captions");
    let done = folder.vtt(["check", "-q", "clean.vtt", "warned.vtt", "refused.vtt", "clean.vtt"]);
    let printed = String::from_utf8(done.out).expect("UTF-8");
    let starts: Vec<&str> = printed.lines().map(|line| line.split(": ").next().expect("a place")).collect();
    assert_eq!((done.status, starts), (1, vec!["warned.vtt:3", "warned.vtt:3", "warned.vtt:4:1", "refused.vtt:1"]), "{printed}");
}

/// What only looks like one of the kinds is not warned of.
#[test]
fn what_is_not_warned_of() {
    let folder = Folder::new("not-warned");
    for file in [
        "WEBVTT\n\nSTYLES\n00:01.000 --> 00:02.000\nx\n",
        "WEBVTT\n\n00:01.000 --> 00:02.000\nx\n\nSTYLE\n\nREGIONS\nid:a\n\nNOTE STYLE\nx\n",
        "WEBVTT\n\nREGION\nid:a\n\n00:01.000 --> 00:02.000 vertical:rl line:5 region:a\nx\n",
        "WEBVTT\n\nREGION\nid:a\n\n00:01.000 --> 00:02.000 region:a line:5 region:a\nx\n",
        "WEBVTT\n\nREGION\nid:a\n\n00:01.000 --> 00:02.000 region:a size:100% align:left\nx\n",
        "WEBVTT\n\n00:01.000 --> 00:02.000 \t \nR&D; AT&T; &; &c & d\n",
        "WEBVTT\n\n00:01.000\t-->\t00:02.000\n<v Tom & Anna>x</v><c></c><00:00:01.500>\n",
        "WEBVTT\n\n00:01.000 --> 00:02.000 align:center line:0 position:50% size:100%\n \n",
        "WEBVTT --> x\n\n00:01.000 --> 00:02.000\n",
    ] {
        folder.write("a.vtt", file);
        assert_eq!(warnings(&folder, "a.vtt"), [], "{file}");
    }
}
