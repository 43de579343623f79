//! On a terminal: tables, indents and colours, and nothing of a file that would speak to the terminal. Python's `pty` plays the terminal.
use crate::tools::{found, output_of, Folder, VTT};

/// Runs a program several times, its words parted by `::`, each time with a terminal as its standard input, output and error. The first word is
/// what is added to the environment. Prints for each its exit status, how many bytes the terminal got, and those bytes.
const IN_A_TERMINAL: &str = r#"
import os, pty, sys

def run(program, added, words):
    child, terminal = pty.fork()
    if child == 0:
        environment = dict(os.environ, TERM="xterm-256color")
        environment.pop("NO_COLOR", None)
        if added:
            name, value = added.split("=")
            environment[name] = value
        os.execve(program, [program, *words], environment)
    got = b""
    while True:
        try:
            piece = os.read(terminal, 65536)
        except OSError:
            break
        if not piece:
            break
        got += piece
    os.close(terminal)
    status = os.waitstatus_to_exitcode(os.waitpid(child, 0)[1])
    sys.stdout.buffer.write(b"%d %d\n%s" % (status, len(got), got))

program, words = sys.argv[1], []
for word in sys.argv[2:] + ["::"]:
    if word == "::":
        run(program, words[0], words[1:])
        words = []
    else:
        words.append(word)
"#;

const FILE: &str = "WEBVTT

STYLE
::cue { color: yellow }

REGION
id:low

intro
00:01.000 --> 00:02.500 region:low align:left
<v.loud Anna>The <i>last</i> tram
<00:00:02.000>&amp; no other.</v>

00:00:03.000 --> 99:00:04.000 line:5,end
It does not wait.
";

/// What the command prints on a terminal with each of these words, and its exit status; something may be added to the environment.
fn on_terminal(folder: &Folder, added: &str, runs: &[&[&str]]) -> Vec<(i32, String)> {
    let runs: Vec<Vec<&str>> = runs.iter().map(|words| [&[added], *words].concat()).collect();
    let output = output_of(folder.program("python3", [&["-c", IN_A_TERMINAL, VTT], &runs.join(&"::")[..]].concat()), b"");
    assert!(output.status.success(), "{}", String::from_utf8_lossy(&output.stderr));
    let mut rest = &output.stdout[..];
    let mut answers = vec![];
    while let Some(end) = rest.iter().position(|byte| *byte == b'\n') {
        let numbers: Vec<i32> = String::from_utf8_lossy(&rest[..end]).split(' ').map(|word| word.parse().expect("a number")).collect();
        let (got, others) = rest[end + 1..].split_at(numbers[1] as usize);
        assert!((0..=3).contains(&numbers[0]), "exit status {}: {}", numbers[0], String::from_utf8_lossy(got));
        answers.push((numbers[0], String::from_utf8_lossy(got).replace("\r\n", "\n")));
        rest = others;
    }
    assert_eq!(answers.len(), runs.len());
    answers
}

/// What one run prints, where all goes well.
fn shown(folder: &Folder, words: &[&str]) -> String {
    let (status, shown) = on_terminal(folder, "", &[words]).swap_remove(0);
    assert_eq!(status, 0, "{shown}");
    shown
}

/// A text without its colours.
fn uncoloured(text: &str) -> String {
    let mut parts = text.split("\x1b[");
    let first = parts.next().unwrap_or_default().to_string();
    parts.fold(first, |text, part| text + part.split_once('m').map_or(part, |(_, rest)| rest))
}

fn folder(name: &str) -> Option<Folder> {
    let folder = Folder::new(name);
    folder.write("a.vtt", FILE);
    found("python3").then_some(folder)
}

/// A list is a table: every entry of a column stands below its head, and a text's second line below its first.
#[test]
fn a_list_is_a_table() {
    let Some(folder) = folder("terminal-list") else { return };
    let coloured = shown(&folder, &["list", "a.vtt"]);
    assert!(coloured.contains("\x1b["), "no colours: {coloured}");
    let table = uncoloured(&coloured);
    assert!(!table.contains(['\t', '\x1b']), "{table}");
    let lines: Vec<&str> = table.lines().collect();
    let head = lines.iter().position(|line| line.trim_start().starts_with("cue ")).expect("the head of the cues");
    assert_eq!(lines.len(), head + 4, "{table}");
    let starts = |line: usize, word: &str| lines[line].find(word).unwrap_or_else(|| panic!("no {word} in {:?}", lines[line]));
    let ends = |line: usize, word: &str| starts(line, word) + word.len();
    assert_eq!(ends(head, "start"), ends(head + 1, "00:00:01.000"));
    assert_eq!(ends(head, "start"), ends(head + 3, "00:00:03.000"));
    assert_eq!(ends(head, " end"), ends(head + 1, "00:00:02.500"));
    assert_eq!(ends(head, " end"), ends(head + 3, "99:00:04.000"));
    assert_eq!(starts(head, "id"), starts(head + 1, "intro"));
    assert_eq!(starts(head, "settings"), starts(head + 1, "align:left region:low"));
    assert_eq!(starts(head, "settings"), starts(head + 3, "line:5,end"));
    assert_eq!(starts(head, "text"), starts(head + 1, "<v.loud"));
    assert_eq!(starts(head, "text"), starts(head + 2, "<00:00:02.000>"));
    assert_eq!(starts(head, "text"), starts(head + 3, "It does"));
    let above = lines[..head].join("\n");
    assert!(above.contains("::cue { color: yellow }") && above.contains("  low"), "{table}");
}

/// A tree is set in by its depth.
#[test]
fn a_tree_is_indented() {
    let Some(folder) = folder("terminal-tree") else { return };
    let coloured = shown(&folder, &["tree", "a.vtt", "0"]);
    assert!(coloured.contains("\x1b["), "no colours: {coloured}");
    let expected = [
        "voice .loud Anna",
        "  string \"The \"",
        "  italic",
        "    string \"last\"",
        "  string \" tram\\n\"",
        "  timestamp 00:00:02.000",
        "  string \"& no other.\"",
    ];
    assert_eq!(uncoloured(&coloured).lines().collect::<Vec<_>>(), expected);
}

/// A very deep tree is printed too, and in time by its length.
#[test]
fn a_deep_tree_is_printed() {
    let Some(folder) = folder("terminal-deep") else { return };
    folder.write("deep.vtt", format!("WEBVTT\n\n00:01.000 --> 00:02.000\n{}x", "<b>".repeat(20_000)));
    let shown = shown(&folder, &["tree", "deep.vtt", "0"]);
    assert_eq!(shown.lines().count(), 20_001);
    assert!(shown.len() < 4_000_000, "{} bytes", shown.len());
}

/// `NO_COLOR` with any value and a dumb terminal have no colours; an empty `NO_COLOR` counts as none. The rest stays as it is.
#[test]
fn colours_can_be_switched_off() {
    let Some(folder) = folder("terminal-colours") else { return };
    folder.write("warned.vtt", "WEBVTT\n\n00:01.000 --> 00:02.000\n<foo>\n");
    let runs: [&[&str]; 4] =
        [&["list", "a.vtt"], &["tree", "a.vtt", "0"], &["check", "warned.vtt"], &["mend", "a.vtt", "1", "--text", "x", "--diff"]];
    let coloured = on_terminal(&folder, "", &runs);
    let plain: Vec<(i32, String)> = coloured.iter().map(|(status, shown)| (*status, uncoloured(shown))).collect();
    for ((_, shown), words) in coloured.iter().zip(runs) {
        assert!(shown.contains("\x1b[3") && shown.contains("\x1b[0m"), "{words:?}: {shown}");
    }
    for added in ["NO_COLOR=1", "NO_COLOR=0", "TERM=dumb"] {
        assert_eq!(on_terminal(&folder, added, &runs), plain, "{added}");
    }
    assert_eq!(on_terminal(&folder, "NO_COLOR=", &runs), coloured);
}

/// The tab that ends a name with a space in a diff is for `patch`, and not to be seen.
#[test]
fn a_diff_of_a_name_with_a_space() {
    let Some(folder) = folder("terminal-name") else { return };
    folder.write("episode 12.vtt", FILE);
    let diff = shown(&folder, &["mend", "episode 12.vtt", "1", "--text", "x", "--diff"]);
    assert!(diff.starts_with("--- episode 12.vtt") && !diff.contains("^I"), "{diff}");
}

/// A file whose every part speaks to the terminal: escape sequences, a bell, a backspace, the one-byte forms of C1.
fn speaking() -> String {
    let speech = "\x1b[31m\x1b]0;title\x07\x08\u{9b}2J\u{85}\x7f\x0e";
    format!(
        "WEBVTT\n\nSTYLE\n{speech}\n\nREGION\nid:r{speech}\n\na{speech}\n00:01.000 --> 00:02.000 region:r{speech} x{speech}\n\
         <v.c{speech} n{speech}>t{speech}<{speech}>&x{speech};\n\nb{speech} --> c\n"
    )
}

/// Does a text hold anything that a terminal would obey.
fn speaks(text: &str) -> bool {
    text.chars().any(|c| c.is_control() && c != '\n')
}

/// What a file holds, and what stands in a command line, does not reach the terminal as it is.
#[test]
fn a_file_cannot_speak_to_the_terminal() {
    let Some(folder) = folder("terminal-speech") else { return };
    folder.write("b.vtt", speaking());
    let runs: [&[&str]; 9] = [
        &["list", "b.vtt"],
        &["tree", "b.vtt", "0"],
        &["check", "b.vtt"],
        &["mend", "b.vtt", "0", "--text", "x", "--diff"],
        &["mend", "b.vtt", "0", "--settings", "region:\x1b[31m"],
        &["mend", "b.vtt", "--identifier", "\u{9b}31m", "--text", "x"],
        &["mend", "b.vtt", "0", "--start", "\x1b[31m"],
        &["list", "\x1b[31m.vtt"],
        &["\x1b[31m"],
    ];
    let plain = on_terminal(&folder, "NO_COLOR=1", &runs);
    for ((_, shown), words) in plain.iter().zip(runs) {
        assert!(!shown.is_empty() && !speaks(shown), "{words:?}: {shown:?}");
    }
    let coloured = on_terminal(&folder, "", &runs);
    assert_eq!(coloured.into_iter().map(|(status, shown)| (status, uncoloured(&shown))).collect::<Vec<_>>(), plain);
}

/// A document does not speak to the terminal either: what JSON allows as it is, a terminal may obey.
#[test]
fn a_document_cannot_speak_to_the_terminal() {
    let Some(folder) = folder("terminal-document") else { return };
    folder.write("b.vtt", speaking());
    let shown = shown(&folder, &["list", "--json", "b.vtt"]);
    assert!(!speaks(&shown), "{shown:?}");
}

/// A document, a rewritten file and a mended one are on a terminal what they are in a pipe.
#[test]
fn results_are_the_same_on_a_terminal() {
    let Some(folder) = folder("terminal-same") else { return };
    let runs: [&[&str]; 4] =
        [&["list", "--json", "a.vtt"], &["rewrite", "a.vtt"], &["plain", "a.vtt"], &["mend", "a.vtt", "0", "--text", "x"]];
    for (answer, words) in on_terminal(&folder, "", &runs).into_iter().zip(runs) {
        assert_eq!(answer, (0, folder.vtt(words).text()), "{words:?}");
    }
}
