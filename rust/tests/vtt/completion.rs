//! The completion for bash and the manual page: what they offer and name is what the command takes.
use std::collections::BTreeSet;
use std::fs;
use std::io::ErrorKind;
use std::path::{Path, PathBuf};
use std::process::{Command, Output};

const COMMANDS: [&str; 6] = ["list", "tree", "mend", "rewrite", "check", "plain"];

fn root() -> PathBuf {
    Path::new(env!("CARGO_MANIFEST_DIR")).join("..")
}

fn vtt(words: &[&str]) -> Output {
    Command::new(env!("CARGO_BIN_EXE_vtt")).args(words).output().expect("vtt runs")
}

/// A folder with some files in it, removed in the end.
struct Folder(PathBuf);

impl Folder {
    fn new(name: &str, files: &[&str]) -> Folder {
        let folder = Folder(Path::new(env!("CARGO_TARGET_TMPDIR")).join(format!("completion-{name}")));
        let _ = fs::remove_dir_all(&folder.0);
        fs::create_dir_all(folder.0.join("season")).expect("a folder is made");
        for file in files {
            fs::write(folder.0.join(file), "WEBVTT\n").expect("a file is written");
        }
        folder
    }
}

impl Drop for Folder {
    fn drop(&mut self) {
        let _ = fs::remove_dir_all(&self.0);
    }
}

const SCRIPT: &str = r#"
source "$1" || exit
shift
COMP_WORDS=("$@")
COMP_CWORD=$(($# - 1))
_vtt
((${#COMPREPLY[@]} == 0)) || printf '%s\n' "${COMPREPLY[@]}"
"#;

/// What is offered for the last of these words, as bash parts them, in a folder.
fn offered(folder: &Folder, words: &[&str]) -> BTreeSet<String> {
    let mut bash = Command::new("bash");
    bash.args(["--norc", "-c", SCRIPT, "bash"]).arg(root().join("scripts/vtt-completion.bash"));
    let got = bash.args(words).current_dir(&folder.0).env_remove("BASH_ENV").output().expect("bash runs");
    let (out, told) = (String::from_utf8_lossy(&got.stdout), String::from_utf8_lossy(&got.stderr));
    assert!(got.status.success() && told.is_empty(), "{words:?}: {} {told}", got.status);
    let offers: Vec<&str> = out.lines().collect();
    let once: BTreeSet<String> = offers.iter().map(|offer| offer.to_string()).collect();
    assert_eq!(once.len(), offers.len(), "{words:?}: an offer is made twice: {offers:?}");
    once
}

#[test]
fn what_fits_is_offered() {
    let folder = Folder::new("cases", &["a.vtt", "my episode.vtt", "my notes.txt", "new text.txt", "-dash.vtt", "c:d.vtt"]);
    let vtt_files = "-dash.vtt|a.vtt|c:d.vtt|my episode.vtt|season";
    let all_files = "-dash.vtt|a.vtt|c:d.vtt|my episode.vtt|my notes.txt|new text.txt|season";
    let cases: &[(&[&str], &str)] = &[
        (&["vtt", ""], "list|tree|mend|rewrite|check|plain|help"),
        (&["./vtt", "m"], "mend"),
        (&["vtt", "-"], "-h|--help|-V|--version"),
        (&["vtt", "help", ""], "list|tree|mend|rewrite|check|plain"),
        (&["vtt", "help", "list", ""], ""),
        (&["vtt", "nothing", ""], ""),
        // Files: those of captions first, with spaces in their names, and all where none fits or where any will do.
        (&["vtt", "list", ""], vtt_files),
        (&["vtt", "list", "--json", "my"], "my episode.vtt"),
        (&["vtt", "list", "\"my e"], "my episode.vtt"),
        (&["vtt", "list", "n"], "new text.txt"),
        (&["vtt", "list", "c", ":"], "d.vtt"),
        (&["vtt", "list", "--", "-"], "-dash.vtt"),
        (&["vtt", "check", "a.vtt", ""], vtt_files),
        (&["vtt", "rewrite", "--in-place", "a.vtt", ""], vtt_files),
        (&["vtt", "mend", "a.vtt", "0", "--text-file", ""], all_files),
        (&["vtt", "mend", "a.vtt", "0", "--text-file", "=", "n"], "new text.txt"),
        (&["vtt", "plain", "a.vtt", "-o", ""], all_files),
        (&["vtt", "list", "a.vtt", ">", "n"], "new text.txt"),
        // Options: none that is given, nor what it rules out.
        (&["vtt", "list", "a.vtt", ""], "--json|-q|--quiet|-h|--help"),
        (&["vtt", "list", "--json", "--"], "--quiet|--help"),
        (&["vtt", "list", "--", "a.vtt", "-"], ""),
        (&["vtt", "rewrite", "a.vtt", "-o", "b.vtt", ""], "-q|--quiet|-h|--help"),
        (&["vtt", "check", "-q", "--strict", "-"], "--all|-h|--help"),
        (&["vtt", "tree", "a.vtt", "0", "--"], "--quiet|--help"),
        (
            &["vtt", "mend", "a.vtt", "--line", "7", "--start", "00", ":", "01.000", "--text", "=", "--diff", "--in-place", "--"],
            "--end|--id|--settings|--backup|--quiet|--help",
        ),
        // Values.
        (&["vtt", "mend", "a.vtt", "0", "--settings", ""], "vertical:|line:|position:|size:|align:|region:"),
        (&["vtt", "mend", "a.vtt", "0", "--settings", "'line:5 re"], "line:5 region:"),
        (&["vtt", "mend", "a.vtt", "0", "--settings", "line", ":"], ""),
        (&["vtt", "mend", "a.vtt", "--line", ""], ""),
        (&["vtt", "mend", "a.vtt", "--identifier", ""], ""),
        (&["vtt", "mend", "a.vtt", "0", "--start", ""], ""),
        (&["vtt", "mend", "a.vtt", "0", "--end", "="], ""),
        (&["vtt", "mend", "a.vtt", "0", "--id", ""], ""),
        (&["vtt", "mend", "a.vtt", "0", "--text", "a"], ""),
    ];
    for (words, expected) in cases {
        let expected: BTreeSet<String> = expected.split('|').filter(|offer| !offer.is_empty()).map(String::from).collect();
        assert_eq!(offered(&folder, words), expected, "{words:?}");
    }
}

/// The words of a text that begin with two dashes, each up to what is no letter and no dash.
fn options(text: &str) -> BTreeSet<&str> {
    let starts = text.match_indices("--").map(|(at, _)| at).filter(|at| !text[..*at].ends_with(|c: char| c == '-' || c.is_alphanumeric()));
    let words = starts.map(|at| {
        let rest = &text[at..];
        &rest[..rest.find(|c: char| c != '-' && !c.is_ascii_lowercase()).unwrap_or(rest.len())]
    });
    words.filter(|word| word.len() > 2).collect()
}

#[test]
fn every_option_is_offered_and_in_the_manual_page() {
    let folder = Folder::new("options", &[]);
    let page = fs::read_to_string(root().join("docs/vtt.1")).expect("the manual page is there").replace("\\-", "-");
    let named = options(&page);
    let mut anywhere = offered(&folder, &["vtt", "--"]);
    for command in COMMANDS {
        let offers = offered(&folder, &["vtt", command, "-"]);
        let help = vtt(&[command, "--help"]);
        let help = String::from_utf8(help.stdout).expect("help is text");
        for option in options(&help).into_iter().chain(["--help", "--quiet"]) {
            assert!(offers.contains(option), "vtt {command}: {option} is not offered");
            assert!(named.contains(option), "vtt {command}: {option} is not in docs/vtt.1");
        }
        for offer in &offers {
            let told = vtt(&[command, offer]);
            let told = String::from_utf8_lossy(&told.stderr);
            assert!(!told.contains("there is no option"), "vtt {command}: {offer} is offered, but {told}");
        }
        anywhere.extend(offers);
    }
    let help = vtt(&["--help"]);
    for option in options(&String::from_utf8_lossy(&help.stdout)) {
        assert!(anywhere.contains(option) && named.contains(option), "{option}");
    }
    for option in named {
        assert!(anywhere.contains(option), "docs/vtt.1 names {option}, which nothing offers");
    }
}

#[test]
fn the_manual_page_is_set_without_a_warning() {
    let set = Command::new("groff").args(["-man", "-ww", "-Tutf8"]).arg(root().join("docs/vtt.1")).output();
    let set = match set {
        Err(error) if error.kind() == ErrorKind::NotFound => return eprintln!("skipped: groff is not installed"),
        set => set.expect("groff runs"),
    };
    let told = String::from_utf8_lossy(&set.stderr);
    assert!(set.status.success() && told.is_empty(), "{} {told}", set.status);
    assert!(set.stdout.len() > 10_000, "the page is short: {} bytes", set.stdout.len());
}
