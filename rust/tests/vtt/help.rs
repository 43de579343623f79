//! `--help` and `--version`: every command has an example, and every example works.
use crate::tools::{finished, Folder, VTT};

const COMMANDS: [&str; 6] = ["list", "tree", "mend", "rewrite", "check", "plain"];

/// A folder with the files that the examples name: an episode whose line 210 is a cue's, and a season.
fn folder(name: &str) -> Folder {
    let folder = Folder::new(name);
    let cues: String =
        (0..100).map(|cue| format!("00:14:{:02}.000 --> 00:14:{:02}.900\nOne.\nTwo.\nThree.\n\n", cue % 3, cue % 3)).collect();
    let episode = format!("WEBVTT\n\n{cues}");
    assert!(episode.lines().nth(209).is_some_and(|line| !line.is_empty()));
    folder.write("episode-12.vtt", &episode);
    std::fs::create_dir(folder.path("season-2")).expect("a folder");
    folder.write("season-2/a.vtt", &episode);
    folder.write("season-2/b.vtt", "WEBVTT\n");
    folder
}

/// Help for all: every command, and the four exit statuses.
#[test]
fn help_for_all() {
    let folder = Folder::new("help");
    let help = folder.vtt(["--help"]).text();
    for command in COMMANDS {
        assert!(help.contains(&format!("vtt {command} ")), "{command}");
    }
    assert!(help.contains("Exit status: 0 ") && help.contains("-q, --quiet"), "{help}");
    for words in [&["-h"][..], &["help"], &["help", "help"]] {
        assert_eq!(folder.vtt(words).text(), help);
    }
}

/// Help for each command, which every form of asking prints, and which fits a terminal.
#[test]
fn help_for_each_command() {
    let folder = Folder::new("help-each");
    for command in COMMANDS {
        let help = folder.vtt([command, "--help"]).text();
        assert!(help.starts_with(&format!("usage: vtt {command} ")), "{help}");
        assert!(help.lines().all(|line| line.chars().count() <= 80), "{help}");
        for words in [&["help", command][..], &[command, "-h"], &[command, "a.vtt", "--help"], &[command, "--help", "-q"]] {
            assert_eq!(folder.vtt(words).text(), help, "{words:?}");
        }
        assert!(help.lines().any(|line| line.starts_with(&format!("example: vtt {command} "))), "{help}");
    }
}

/// Each example runs, on files as it names them.
#[test]
fn each_example_runs() {
    for command in COMMANDS {
        let folder = folder(&format!("help-example-{command}"));
        let help = folder.vtt([command, "--help"]).text();
        let examples: Vec<&str> = help.lines().filter_map(|line| line.strip_prefix("example: vtt ")).collect();
        assert!(!examples.is_empty(), "{command}");
        for example in examples {
            let words = example.split(" | ").next().expect("a command");
            let done = finished(folder.program("sh", ["-c", &format!("\"$0\" {words}"), VTT]), b"");
            assert_eq!(done.status, 0, "{example}: {}", done.err);
        }
    }
}

/// Every option that a help names is taken: with a value where it names one.
#[test]
fn each_option_in_a_help_is_taken() {
    let folder = folder("help-options");
    for command in COMMANDS {
        let help = folder.vtt([command, "--help"]).text();
        let options = help.split(|c: char| !c.is_ascii_lowercase() && c != '-').filter(|word| word.starts_with("--") && word.len() > 2);
        for option in options {
            let done = folder.vtt([command, option]);
            assert_eq!(done.status, 2, "{command} {option}");
            assert!(!done.err.contains("there is no option"), "{command} {option}: {}", done.err);
        }
    }
}

/// The version is the package's, and the kit's that proved the library.
#[test]
fn the_version() {
    let folder = Folder::new("version");
    let version = folder.vtt(["--version"]).text();
    assert!(version.starts_with(&format!("vtt {}", env!("CARGO_PKG_VERSION"))) && version.lines().count() == 1, "{version}");
    assert_eq!(folder.vtt(["-V"]).text(), version);
}
