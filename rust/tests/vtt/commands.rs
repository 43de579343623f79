//! Each command in its plain use: what goes to a pipe, and where the result goes.
use crate::tools::Folder;

const FILE: &str = "WEBVTT

STYLE
::cue { color: yellow }

REGION
id:low
lines:2

intro
00:01.000 --> 00:02.500 region:low align:left
<v.loud Anna>The <i>last</i> tram
<00:00:02.000>&amp; no other.</v>

00:03.000 --> 00:04.000
It does not wait.
";

const LISTED: &str = "style\t0\t::cue { color: yellow }
region\t0\tlow\t100%\t2\t0%\t100%\t0%\t100%\tnone
cue\t0\t1000\t2500\tintro\t<v.loud Anna>The <i>last</i> tram\\n<00:00:02.000>&amp; no other.</v>\thorizontal\tauto\tstart\tauto\tauto\t100%\tleft\t0\t10\t4
cue\t1\t3000\t4000\t\tIt does not wait.\thorizontal\tauto\tstart\tauto\tauto\t100%\tcenter\tnone\t15\t2
";

const TREE: &str = "0\tvoice\t-\tloud\tAnna
1\tstring\t0\t\tThe 
2\titalic\t0\t\t
3\tstring\t2\t\tlast
4\tstring\t0\t\t tram\\n
5\ttimestamp\t0\t\t2000
6\tstring\t0\t\t& no other.
";

const REWRITTEN: &str = "WEBVTT

STYLE
::cue { color: yellow }

REGION
id:low
width:100%
lines:2
regionanchor:0%,100%
viewportanchor:0%,100%

intro
00:00:01.000 --> 00:00:02.500 align:left region:low
<v.loud Anna>The <i>last</i> tram
<00:00:02.000>&amp; no other.</v>

00:00:03.000 --> 00:00:04.000
It does not wait.
";

fn folder(name: &str) -> Folder {
    let folder = Folder::new(name);
    folder.write("a.vtt", FILE);
    folder
}

/// One line for each style, region and cue.
#[test]
fn list_to_a_pipe() {
    assert_eq!(folder("list").vtt(["list", "a.vtt"]).text(), LISTED);
}

/// The nodes of a cue, which is named by number, by line or by identifier.
#[test]
fn tree_to_a_pipe() {
    let folder = folder("tree");
    for words in [&["0"][..], &["--line", "10"], &["--line=13"], &["--identifier", "intro"]] {
        assert_eq!(folder.vtt([&["tree", "a.vtt"], words].concat()).text(), TREE, "{words:?}");
    }
    assert_eq!(folder.vtt(["tree", "a.vtt", "1"]).text(), "0\tstring\t-\t\tIt does not wait.\n");
}

/// The one written form, to standard output and to a file.
#[test]
fn rewrite_to_a_pipe_and_to_a_file() {
    let folder = folder("rewrite");
    assert_eq!(folder.vtt(["rewrite", "a.vtt"]).text(), REWRITTEN);
    assert_eq!(folder.vtt(["rewrite", "a.vtt", "-o", "b.vtt"]).text(), "");
    assert_eq!(folder.vtt(["rewrite", "--output=c.vtt", "a.vtt"]).text(), "");
    assert_eq!(folder.vtt(["rewrite", "a.vtt", "-o", "-"]).text(), REWRITTEN, "- is standard output");
    assert!(folder.read("b.vtt") == REWRITTEN.as_bytes() && folder.read("c.vtt") == REWRITTEN.as_bytes());
    assert!(folder.read("a.vtt") == FILE.as_bytes());
    assert_eq!(folder.names(), ["a.vtt", "b.vtt", "c.vtt"]);
}

/// Several files in place: each is told, and a last line sums up.
#[test]
fn rewrite_several_files_in_place() {
    let folder = folder("rewrite-several");
    folder.write("b.vtt", FILE);
    folder.write("bad.vtt", "no captions");
    let done = folder.vtt(["rewrite", "--in-place", "a.vtt", "bad.vtt", "b.vtt"]);
    let lines: Vec<&str> = done.err.lines().collect();
    assert_eq!((done.status, done.out.len(), lines.len()), (1, 0, 4), "{}", done.err);
    assert!(lines[0].starts_with("a.vtt: rewritten") && lines[2].starts_with("b.vtt: rewritten"), "{}", done.err);
    assert!(lines[1].starts_with("bad.vtt:1: refused 4: "), "{}", done.err);
    assert_eq!(lines[3], "3 files: 2 rewritten, 1 not");
    assert!(folder.read("a.vtt") == REWRITTEN.as_bytes() && folder.read("b.vtt") == REWRITTEN.as_bytes());
    assert!(folder.read("bad.vtt") == b"no captions");
    let done = folder.vtt(["rewrite", "--in-place", "--quiet", "a.vtt", "missing.vtt", "bad.vtt"]);
    assert_eq!((done.status, done.err.lines().count()), (3, 2), "the graver status, and no word of what went well: {}", done.err);
}

/// A file that is to be written over is: with its new bytes, its old permissions, and where it was a link, still a link.
#[test]
fn an_output_file_may_be_there_already() {
    use std::os::unix::fs::{symlink, PermissionsExt};
    let folder = folder("output-there");
    folder.write("out.vtt", "something else");
    std::fs::set_permissions(folder.path("out.vtt"), std::fs::Permissions::from_mode(0o640)).expect("permissions");
    symlink("out.vtt", folder.path("link.vtt")).expect("a link");
    assert_eq!(folder.vtt(["plain", "a.vtt", "-o", "link.vtt"]).text(), "");
    assert!(folder.read("out.vtt") == FILE.as_bytes());
    assert!(folder.path("link.vtt").is_symlink());
    assert_eq!(std::fs::metadata(folder.path("out.vtt")).expect("it is there").permissions().mode() & 0o7777, 0o640);
    assert_eq!(folder.vtt(["mend", "a.vtt", "1", "--text", "Mended.", "-o", "a.vtt"]).text(), "", "the file itself may be named");
    assert!(folder.read("a.vtt").ends_with(b"00:00:03.000 --> 00:00:04.000\nMended.\n"));
    assert_eq!(folder.names(), ["a.vtt", "link.vtt", "out.vtt"]);
}

/// A link that leads nowhere yet is followed, as a shell's `>` does: the file that it names is made.
#[test]
fn an_output_link_that_leads_nowhere_is_followed() {
    let folder = folder("output-link");
    std::os::unix::fs::symlink("new.vtt", folder.path("link.vtt")).expect("a link");
    assert_eq!(folder.vtt(["plain", "a.vtt", "-o", "link.vtt"]).text(), "");
    assert!(folder.path("link.vtt").is_symlink(), "the link is gone");
    assert!(folder.read("new.vtt") == FILE.as_bytes());
}

/// The text as it is read. What is printed is text, not a listing: a file need not be WebVTT for it.
#[test]
fn plain_to_a_pipe_and_to_a_file() {
    let folder = folder("plain");
    folder.write("b.txt", b"\xEF\xBB\xBFa\r\nb\rc\0\xFF\xE2\x82\n\n");
    let text = "a\nb\nc\u{FFFD}\u{FFFD}\u{FFFD}\n\n";
    assert_eq!(folder.vtt(["plain", "b.txt"]).text(), text);
    assert_eq!(folder.vtt(["plain", "b.txt", "-o", "c.txt"]).text(), "");
    assert!(folder.read("c.txt") == text.as_bytes());
    assert_eq!(folder.vtt(["plain", "a.vtt"]).text(), FILE);
}

/// A file whose name begins with a dash, and one whose name is not UTF-8.
#[test]
fn odd_names_of_files() {
    use std::os::unix::ffi::OsStringExt;
    let folder = folder("odd-names");
    folder.write("-a.vtt", FILE);
    assert_eq!(folder.vtt(["list", "--", "-a.vtt"]).text(), LISTED);
    assert_eq!(folder.vtt(["list", "./-a.vtt"]).text(), LISTED);
    let name = std::ffi::OsString::from_vec(b"\xFF \n.vtt".to_vec());
    std::fs::write(folder.path("").join(&name), FILE).expect("the file is written");
    assert_eq!(folder.vtt([std::ffi::OsStr::new("list"), &name]).text(), LISTED);
    let done = folder.vtt([std::ffi::OsStr::new("mend"), &name, "1".as_ref(), "--text=x".as_ref(), "--in-place".as_ref()]);
    assert_eq!(done.status, 0, "{}", done.err);
    assert!(std::fs::read(folder.path("").join(&name)).expect("it is read").ends_with(b"00:00:03.000 --> 00:00:04.000\nx\n"));
}

/// A list to a pipe does not depend on what the environment says of the terminal.
#[test]
fn a_pipe_gets_no_colours() {
    let folder = folder("no-colours");
    for (name, value) in [("TERM", "xterm-256color"), ("CLICOLOR_FORCE", "1"), ("NO_COLOR", "1"), ("COLUMNS", "20")] {
        let mut command = folder.program(crate::tools::VTT, ["list", "a.vtt"]);
        command.env(name, value);
        assert_eq!(crate::tools::finished(command, b"").text(), LISTED, "{name}");
    }
}

/// A block whose timing line is not read is no cue, and is not in a rewritten file: that is told.
#[test]
fn what_a_rewritten_file_lacks_is_told() {
    let folder = Folder::new("rewritten-lacks");
    let old = "WEBVTT\n\n00:01,000 --> 00:02.000\nlost\n\n00:00:03.000 --> 00:00:04.000\nkept\n";
    folder.write("a.vtt", old);
    let done = folder.vtt(["rewrite", "a.vtt"]);
    assert_eq!((done.status, done.out.as_slice()), (0, &b"WEBVTT\n\n00:00:03.000 --> 00:00:04.000\nkept\n"[..]));
    assert_eq!(done.err, "a.vtt: note: blocks whose timing line is not read are left out: 1; vtt check says where\n");
    assert_eq!(folder.vtt(["rewrite", "a.vtt", "--quiet"]).err, "");
}
