//! What goes wrong outside WebVTT: command lines that are not understood (exit status 2), files that cannot be read or written (3).
use crate::tools::{finished, Folder, VTT};
use std::os::unix::ffi::OsStringExt;
use std::process::Stdio;

const FILE: &[u8] = b"WEBVTT\n\na\n00:01.000 --> 00:02.000\nOne.\n";

fn folder(name: &str) -> Folder {
    let folder = Folder::new(name);
    folder.write("a.vtt", FILE);
    folder
}

/// Each way to read a file, with what else it needs.
const READING: [&[&str]; 8] = [
    &["list", "FILE"],
    &["list", "--json", "FILE"],
    &["tree", "FILE", "0"],
    &["mend", "FILE", "0", "--text", "x"],
    &["mend", "FILE", "0", "--text", "x", "--in-place"],
    &["mend", "FILE", "0", "--text", "x", "--diff"],
    &["rewrite", "FILE"],
    &["plain", "FILE"],
];

fn reading<'a>(words: &[&'a str], file: &'a str) -> Vec<&'a str> {
    words.iter().map(|word| if *word == "FILE" { file } else { word }).collect()
}

/// Command lines that are not understood: a sentence that names the command and its help, and nothing is done.
#[test]
fn command_lines_that_are_not_understood() {
    let folder = folder("misused");
    let lines: &[(&[&str], &str)] = &[
        (&[], "vtt: a command is missing; vtt --help says how it is used"),
        (&["ls", "a.vtt"], "vtt: there is no command \"ls\""),
        (&["", "a.vtt"], "vtt: there is no command \"\""),
        (&["--json", "a.vtt"], "vtt: there is no command \"--json\""),
        (&["a.vtt"], "vtt: there is no command \"a.vtt\""),
        (&["help", "ls"], "vtt: there is no command \"ls\""),
        (&["list"], "vtt list: a file is missing"),
        (&["list", "a.vtt", "b.vtt"], "\"b.vtt\" is one word too many"),
        (&["list", "--jsno", "a.vtt"], "vtt list: there is no option \"--jsno\" here"),
        (&["list", "--json=1", "a.vtt"], "--json takes no value"),
        (&["list", "-x", "a.vtt"], "there is no option \"-x\" here"),
        (&["list", "a.vtt", "-o", "b"], "there is no option \"-o\" here"),
        (&["list", "a.vtt", "--in-place"], "there is no option \"--in-place\" here"),
        (&["tree", "a.vtt"], "vtt tree: the cue is missing"),
        (&["tree", "a.vtt", "x"], "\"x\" is not a cue's number"),
        (&["tree", "a.vtt", "0", "--line", "3"], "the cue is named twice"),
        (&["tree", "a.vtt", "0", "1"], "one word too many"),
        (&["tree", "a.vtt", "-1"], "there is no option \"-1\" here"),
        (&["mend"], "vtt mend: a file and a cue are missing"),
        (&["mend", "a.vtt", "0"], "nothing is to change"),
        (&["mend", "a.vtt", "--text", "x"], "the cue is missing"),
        (&["mend", "a.vtt", "0", "--text"], "--text needs a value after it"),
        (&["mend", "a.vtt", "0", "--text", "x", "--text", "y"], "--text is given twice"),
        (&["mend", "a.vtt", "0", "--text", "x", "--text-file", "b"], "--text and --text-file cannot both be given"),
        (&["mend", "a.vtt", "--line", "three", "--text", "x"], "--line needs a number, not \"three\""),
        (&["mend", "a.vtt", "--line", "-3", "--text", "x"], "--line needs a number, not \"-3\""),
        (&["mend", "a.vtt", "--line", "3", "--identifier", "a", "--text", "x"], "--line and --identifier cannot both be given"),
        (&["mend", "a.vtt", "0", "--text", "x", "--in-place", "-o", "b"], "exclude one another"),
        (&["mend", "a.vtt", "0", "--text", "x", "--in-place", "--diff"], "exclude one another"),
        (&["mend", "a.vtt", "0", "--text", "x", "--diff", "-o", "b"], "exclude one another"),
        (&["mend", "a.vtt", "0", "--text", "x", "--backup"], "--backup goes with --in-place"),
        (&["mend", "a.vtt", "0", "--text", "x", "--force"], "there is no option \"--force\" here"),
        (&["rewrite"], "vtt rewrite: a file is missing"),
        (&["rewrite", "a.vtt", "b.vtt"], "one word too many"),
        (&["rewrite", "a.vtt", "--diff"], "there is no option \"--diff\" here"),
        (&["rewrite", "a.vtt", "--backup"], "--backup goes with --in-place"),
        (&["check"], "vtt check: a file is missing"),
        (&["check", "--strict"], "vtt check: a file is missing"),
        (&["plain"], "vtt plain: a file is missing"),
        (&["plain", "a.vtt", "--json"], "there is no option \"--json\" here"),
    ];
    for (words, expected) in lines {
        let sentence = folder.vtt(*words).failed(2);
        assert!(sentence.contains(expected) && sentence.ends_with(" --help says how it is used"), "{words:?}: {sentence}");
    }
    assert!(folder.read("a.vtt") == FILE);
    assert_eq!(folder.names(), ["a.vtt"]);
}

/// Values that are not UTF-8 are told by their option.
#[test]
fn values_that_are_not_utf_8() {
    let folder = folder("misused-bytes");
    for option in ["--text", "--id", "--settings", "--start", "--end", "--identifier"] {
        let mut command = folder.program(VTT, ["mend", "a.vtt", "0", option]);
        command.arg(std::ffi::OsString::from_vec(b"\xFF".to_vec()));
        let sentence = finished(command, b"").failed(2);
        assert!(sentence.contains(&format!("the value of {option} is not UTF-8")), "{sentence}");
    }
    for word in [&b"--\xFF"[..], b"\xFF"] {
        let mut command = folder.program(VTT, ["tree", "a.vtt"]);
        command.arg(std::ffi::OsString::from_vec(word.to_vec()));
        finished(command, b"").failed(2);
    }
}

/// A file that is not there, for every command.
#[test]
fn a_missing_file() {
    let folder = folder("missing");
    for words in READING.into_iter().chain([&["check", "FILE"][..]]) {
        assert_eq!(folder.vtt(reading(words, "b.vtt")).failed(3), "b.vtt: cannot be read: there is no such file", "{words:?}");
        folder.vtt(reading(words, "no/b.vtt")).failed(3);
        folder.vtt(reading(words, "a.vtt/b.vtt")).failed(3);
    }
    assert_eq!(folder.names(), ["a.vtt"]);
}

/// Links that lead in a circle, a name that no file can have, and a folder as standard input.
#[test]
fn other_files_that_cannot_be_read() {
    let folder = folder("unreachable");
    std::os::unix::fs::symlink("b.vtt", folder.path("c.vtt")).expect("a link");
    std::os::unix::fs::symlink("c.vtt", folder.path("b.vtt")).expect("a link");
    assert!(folder.vtt(["list", "b.vtt"]).failed(3).starts_with("b.vtt: cannot be read: "));
    assert!(folder.vtt(["plain", "a.vtt", "-o", "b.vtt"]).failed(3).starts_with("b.vtt: cannot be written: "));
    assert!(folder.vtt(["list", &"n".repeat(300)]).failed(3).ends_with("cannot be read: file name too long"));
    let done = finished(folder.program("sh", ["-c", "exec \"$0\" list - <.", VTT]), b"");
    assert_eq!(done.failed(3), "standard input: cannot be read: it is a folder");
}

/// A name that is empty, as an empty variable of a shell gives it: the sentence says so, and does not begin with a colon.
#[test]
fn an_empty_name() {
    let folder = folder("empty-name");
    for words in [&["list", ""][..], &["check", ""], &["plain", "a.vtt", "-o", ""], &["mend", "a.vtt", "0", "--text-file", ""]] {
        let done = folder.vtt(words);
        assert!(done.status >= 2 && !done.err.starts_with(':'), "{words:?}: {}", done.err);
    }
    assert_eq!(folder.names(), ["a.vtt"]);
}

/// A folder where a file is wanted.
#[test]
fn a_folder_where_a_file_is_wanted() {
    let folder = folder("folder");
    for words in READING.into_iter().chain([&["check", "FILE"][..]]) {
        assert_eq!(folder.vtt(reading(words, ".")).failed(3), ".: cannot be read: it is a folder", "{words:?}");
    }
    for words in [&["plain", "a.vtt"][..], &["rewrite", "a.vtt"], &["mend", "a.vtt", "0", "--text", "x"]] {
        assert_eq!(folder.vtt([words, &["-o", "."]].concat()).failed(3), ".: cannot be written: it is a folder", "{words:?}");
    }
}

/// An output in a folder that is not there: nothing is made, and the output is named.
#[test]
fn an_output_folder_that_is_missing() {
    let folder = folder("output-missing");
    for words in [&["plain", "a.vtt"][..], &["rewrite", "a.vtt"], &["mend", "a.vtt", "0", "--text", "x"]] {
        let sentence = folder.vtt([words, &["-o", "season/b.vtt"]].concat()).failed(3);
        assert!(sentence.starts_with("season/b.vtt: cannot be written: "), "{sentence}");
    }
    assert_eq!(folder.names(), ["a.vtt"]);
}

/// It is the folder that is missing, and the sentence says so: a file that is yet to be made is never there.
#[test]
fn a_missing_output_folder_is_told_as_one() {
    let sentence = folder("output-folder").vtt(["plain", "a.vtt", "-o", "season/b.vtt"]).failed(3);
    assert!(sentence.contains("folder"), "{sentence}");
}

/// Nothing is written where the file is refused.
#[test]
fn a_refused_file_makes_no_output() {
    let folder = Folder::new("refused-output");
    folder.write("a.vtt", "no captions");
    for words in [&["rewrite", "a.vtt", "-o", "b.vtt"][..], &["mend", "a.vtt", "0", "--text", "x", "-o", "b.vtt"]] {
        folder.vtt(words).refused(4);
    }
    assert_eq!(folder.names(), ["a.vtt"]);
}

/// A full disk: standard output and a named output.
#[test]
fn a_full_disk() {
    let folder = folder("full");
    if !std::path::Path::new("/dev/full").exists() {
        println!("/dev/full is not on this machine: a full disk was not tried");
        return;
    }
    for words in READING.into_iter().chain([&["check", "FILE"][..], &["--help"], &["--version"]]) {
        if words.contains(&"--in-place") {
            continue;
        }
        let full = std::fs::OpenOptions::new().write(true).open("/dev/full").expect("/dev/full");
        let output = folder.program(VTT, reading(words, "a.vtt")).stdin(Stdio::null()).stdout(full).output().expect("it runs");
        let sentence = String::from_utf8_lossy(&output.stderr);
        assert_eq!(
            (output.status.code(), sentence.as_ref()),
            (Some(3), "standard output: cannot be written: no space left on device\n"),
            "{words:?}"
        );
    }
    let sentence = folder.vtt(["plain", "a.vtt", "-o", "/dev/full"]).failed(3);
    assert_eq!(sentence, "/dev/full: cannot be written: no space left on device");
}

/// A reader that goes away: nobody is left to tell, so nothing is said, and the exit status shows it.
#[test]
fn a_reader_that_goes_away() {
    let folder = Folder::new("reader-gone");
    let cues: String = (0..20_000).map(|_| "00:01.000 --> 00:02.000\nx\n\n").collect();
    folder.write("a.vtt", format!("WEBVTT\n\n{cues}"));
    for words in READING.into_iter().chain([&["check", "--all", "FILE"][..]]).filter(|words| words[0] != "tree") {
        if words.contains(&"--in-place") || words.contains(&"--diff") || words.contains(&"check") {
            continue;
        }
        let mut command = folder.program(VTT, reading(words, "a.vtt"));
        let mut child = command.stdin(Stdio::null()).stdout(Stdio::piped()).stderr(Stdio::piped()).spawn().expect("it starts");
        drop(child.stdout.take());
        let output = child.wait_with_output().expect("it ends");
        assert_eq!((output.status.code(), String::from_utf8_lossy(&output.stderr).as_ref()), (Some(3), ""), "{words:?}");
    }
}

/// Standard input, output and error closed altogether, each and all: an exit status, and no crash.
#[test]
fn closed_standard_files() {
    let folder = folder("closed");
    for closed in ["<&-", ">&-", "2>&-", "<&- >&- 2>&-"] {
        for words in READING.into_iter().chain([&["check", "FILE"][..], &["list", "-"], &["list", "b.vtt"], &["ls"], &["--help"]]) {
            let line = format!("exec \"$0\" \"$@\" {closed}");
            let command = folder.program("sh", [&["-c", &line, VTT], &reading(words, "a.vtt")[..]].concat());
            finished(command, b"");
        }
    }
    assert_eq!(folder.names(), ["a.vtt"]);
}
