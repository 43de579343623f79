//! `-` is standard input, for every command.
use crate::tools::Folder;

const FILE: &[u8] = b"WEBVTT\n\na\n00:01.000 --> 00:02.000 align:middle\nOne.\n";

/// Each command answers for `-` as for a file with the same bytes, under the name of standard input.
#[test]
fn each_command_reads_it() {
    let folder = Folder::new("input");
    folder.write("a.vtt", FILE);
    for words in [
        &["list", "FILE"][..],
        &["list", "--json", "FILE"],
        &["tree", "FILE", "0"],
        &["tree", "FILE", "--line", "3"],
        &["mend", "FILE", "0", "--text", "x"],
        &["mend", "--identifier", "a", "FILE", "--end=3000"],
        &["mend", "FILE", "0", "--text", "x", "--diff"],
        &["rewrite", "FILE"],
        &["check", "FILE"],
        &["plain", "FILE"],
    ] {
        let named = |name| words.iter().map(|word| if *word == "FILE" { name } else { *word }).collect::<Vec<&str>>();
        let (from_file, from_input) = (folder.vtt(named("a.vtt")), folder.vtt_given(named("-"), FILE));
        assert_eq!((from_file.status, from_input.status, from_input.err.as_str()), (0, 0, ""), "{words:?}");
        let renamed = String::from_utf8(from_file.out).expect("UTF-8").replace("a.vtt", "standard input");
        // A name with a space ends with a tab in a diff.
        assert_eq!(String::from_utf8(from_input.out).expect("UTF-8").replace("input\t\n", "input\n"), renamed, "{words:?}");
    }
    let sentence = folder.vtt_given(["list", "-"], b"x").refused(4);
    assert!(sentence.starts_with("standard input:1: refused 4: "), "{sentence}");
}

/// Its result goes to a file where one is named.
#[test]
fn from_standard_input_to_a_file() {
    let folder = Folder::new("input-output");
    for words in [&["plain", "-"][..], &["rewrite", "-"], &["mend", "-", "0", "--text", "x"]] {
        let printed = folder.vtt_given(words, FILE).printed();
        assert_eq!(folder.vtt_given([words, &["-o", "out.vtt"]].concat(), FILE).text(), "");
        assert!(folder.read("out.vtt") == printed, "{words:?}");
    }
    assert_eq!(folder.names(), ["out.vtt"], "no file is made that is called -");
}

/// The file from a name and its new text from standard input, and the other way round.
#[test]
fn a_text_or_a_file() {
    let folder = Folder::new("input-text");
    folder.write("a.vtt", FILE);
    folder.write("text.txt", "Two.\n");
    let expected = folder.vtt(["mend", "a.vtt", "0", "--text", "Two."]).printed();
    assert!(folder.vtt_given(["mend", "a.vtt", "0", "--text-file", "-"], b"Two.\r\n").printed() == expected);
    assert!(folder.vtt_given(["mend", "-", "0", "--text-file", "text.txt"], FILE).printed() == expected);
    assert_eq!(folder.vtt_given(["mend", "a.vtt", "0", "--text-file=-", "--in-place", "-q"], b"Two.").text(), "");
    assert!(folder.read("a.vtt") == expected);
}

/// It can be read once only, and not be changed in place.
#[test]
fn what_cannot_be() {
    let folder = Folder::new("input-twice");
    folder.write("a.vtt", FILE);
    for (words, expected) in [
        (&["check", "-", "a.vtt", "-"][..], "standard input can be read once only"),
        (&["list", "-", "-"], "standard input can be read once only"),
        (&["mend", "-", "0", "--text-file", "-"], "cannot both come from standard input"),
        (&["mend", "-", "0", "--text", "x", "--in-place"], "--in-place needs a named file, not standard input"),
        (&["mend", "-", "0", "--text", "x", "--in-place", "--backup"], "--in-place needs a named file, not standard input"),
        (&["rewrite", "--in-place", "-"], "--in-place needs a named file, not standard input"),
        (&["rewrite", "--in-place", "a.vtt", "-"], "--in-place needs a named file, not standard input"),
    ] {
        let sentence = folder.vtt_given(words, FILE).failed(2);
        assert!(sentence.contains(expected), "{words:?}: {sentence}");
    }
    assert!(folder.read("a.vtt") == FILE);
    assert_eq!(folder.names(), ["a.vtt"]);
}

/// Standard input among named files.
#[test]
fn among_named_files() {
    let folder = Folder::new("input-among");
    folder.write("a.vtt", "WEBVTT\n");
    let lines = folder.vtt_given(["check", "a.vtt", "-"], FILE).text();
    let starts: Vec<&str> = lines.lines().map(|line| line.split(':').next().expect("a name")).collect();
    assert_eq!(starts, ["a.vtt", "standard input", "standard input", "2 files"]);
}
