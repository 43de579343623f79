//! `--in-place`: the new file takes the old one's place whole, with its permissions, and nothing else is left behind; a refusal leaves all as it was.
use crate::tools::{finished, found, Folder, VTT};
use std::os::unix::fs::{chown, symlink, MetadataExt, PermissionsExt};
use std::os::unix::process::CommandExt;

const OLD: &[u8] = b"WEBVTT\r\n\r\nNOTE \xFF\r\n\r\n00:00:01.000 --> 00:00:02.000\r\nOne.\r\n";
const NEW: &[u8] = b"WEBVTT\r\n\r\nNOTE \xFF\r\n\r\n00:00:01.000 --> 00:00:02.000\nTwo.\r\n";
const WORDS: [&str; 6] = ["mend", "a.vtt", "0", "--text", "Two.", "--in-place"];

fn folder(name: &str) -> Folder {
    let folder = Folder::new(name);
    folder.write("a.vtt", OLD);
    folder
}

fn mode(folder: &Folder, name: &str) -> u32 {
    std::fs::metadata(folder.path(name)).expect("it is there").permissions().mode() & 0o7777
}

fn set_mode(folder: &Folder, name: &str, mode: u32) {
    std::fs::set_permissions(folder.path(name), std::fs::Permissions::from_mode(mode)).expect("permissions are set");
}

/// The file is mended, one sentence says so, and nothing is left beside; `--quiet` says nothing.
#[test]
fn a_file_is_mended_in_its_place() {
    let folder = folder("in-place");
    let done = folder.vtt(WORDS);
    assert_eq!((done.status, done.out.len(), done.err.as_str()), (0, 0, "a.vtt: cue 0 is replaced, now lines 5 to 6\n"));
    assert!(folder.read("a.vtt") == NEW);
    assert_eq!(folder.names(), ["a.vtt"]);
    folder.write("a.vtt", OLD);
    assert_eq!(folder.vtt([&WORDS[..], &["-q"]].concat()).text(), "");
    assert!(folder.read("a.vtt") == NEW);
    assert_eq!(folder.vtt(["mend", "a.vtt", "0", "--text=", "--in-place"]).err, "a.vtt: cue 0 is replaced, now line 5\n");
}

/// A file is found through another folder and through none, and the new one stands beside the old.
#[test]
fn a_file_in_another_folder() {
    let folder = folder("in-place-folder");
    std::fs::create_dir(folder.path("season")).expect("a folder");
    folder.write("season/b.vtt", OLD);
    for name in ["season/b.vtt", "./season/../season/b.vtt"] {
        folder.write("season/b.vtt", OLD);
        let done = folder.vtt(["mend", name, "0", "--text", "Two.", "--in-place", "-q"]);
        assert_eq!((done.status, done.err.as_str()), (0, ""), "{name}");
        assert!(folder.read("season/b.vtt") == NEW);
    }
    assert_eq!(folder.names(), ["a.vtt", "season"]);
    assert_eq!(std::fs::read_dir(folder.path("season")).expect("it is read").count(), 1);
}

/// The permissions stay, whatever the mask for new files is.
#[test]
fn permissions_are_kept() {
    let folder = folder("permissions");
    let read_only: &[u32] = if is_root() { &[0o444, 0o400] } else { &[] };
    for kept in [0o640, 0o600, 0o664, 0o777, 0o646].into_iter().chain(read_only.iter().copied()) {
        for mask in ["000", "022", "077"] {
            folder.write("a.vtt", OLD);
            set_mode(&folder, "a.vtt", kept);
            let command = folder.program("sh", [&["-c", "umask $0; exec \"$@\"", mask, VTT][..], &WORDS, &["-q"]].concat());
            finished(command, b"").printed();
            assert_eq!((folder.read("a.vtt") == NEW, mode(&folder, "a.vtt")), (true, kept), "{kept:o} {mask}");
        }
    }
}

fn owner(folder: &Folder, name: &str) -> (u32, u32) {
    std::fs::metadata(folder.path(name)).map(|about| (about.uid(), about.gid())).expect("it is there")
}

fn is_root() -> bool {
    std::fs::metadata("/proc/self").is_ok_and(|about| about.uid() == 0)
}

/// The owner and the group stay where the system lets us: whoever may do everything keeps both.
#[test]
fn the_owner_is_kept() {
    let folder = folder("owner");
    if is_root() {
        chown(folder.path("a.vtt"), Some(65533), Some(65532)).expect("another owner");
    }
    let before = owner(&folder, "a.vtt");
    folder.vtt([&WORDS[..], &["-q", "--backup"]].concat()).printed();
    assert!(folder.read("a.vtt") == NEW);
    assert_eq!((owner(&folder, "a.vtt"), owner(&folder, "a.vtt.bak")), (before, before));
}

/// Where the owner cannot be kept, that is told; the permissions stay.
#[test]
fn an_owner_that_cannot_be_kept_is_told() {
    let folder = folder("owner-lost");
    set_mode(&folder, "a.vtt", 0o666);
    set_mode(&folder, "", 0o777);
    let Some(command) = as_another_user(&folder, &WORDS) else { return };
    if !is_root() {
        return;
    }
    let done = finished(command, b"");
    assert_eq!((done.status, folder.read("a.vtt") == NEW, mode(&folder, "a.vtt")), (0, true, 0o666), "{}", done.err);
    assert!(done.err.contains("a.vtt: note: its owner could not be kept\n"), "{}", done.err);
}

/// In a folder that editors share by their group, the file stays the group's: else the next editor could not write it.
#[test]
fn the_group_is_kept_by_its_members() {
    const AS_A_MEMBER: &str =
        "import os, sys; os.setgroups([65533]); os.setgid(65534); os.setuid(65534); os.execv(sys.argv[1], sys.argv[1:])";
    let folder = folder("group");
    set_mode(&folder, "a.vtt", 0o664);
    set_mode(&folder, "", 0o777);
    if !is_root() || !found("python3") || as_another_user(&folder, &WORDS).is_none() {
        return;
    }
    chown(folder.path("a.vtt"), Some(65532), Some(65533)).expect("another owner");
    let done = finished(folder.program("python3", [&["-c", AS_A_MEMBER, VTT], &WORDS[..]].concat()), b"");
    assert_eq!((done.status, folder.read("a.vtt") == NEW, mode(&folder, "a.vtt")), (0, true, 0o664), "{}", done.err);
    assert_eq!(owner(&folder, "a.vtt"), (65534, 65533), "the group is lost: {}", done.err);
    assert!(!done.err.contains("its group could not"), "{}", done.err);
}

/// Another user, where this one may do everything: 65534, who owns nothing. `None` where the folder cannot be reached by it.
fn as_another_user(folder: &Folder, words: &[&str]) -> Option<std::process::Command> {
    let program = |words: &[&str]| {
        let mut command = folder.program(VTT, words);
        if is_root() {
            command.uid(65534).gid(65534);
        }
        command
    };
    if program(&["--version"]).output().is_ok_and(|output| output.status.success()) {
        return Some(program(words));
    }
    println!("the folder cannot be reached by another user: what needs one was not tried");
    None
}

/// A file that may not be written is not replaced either, though its folder would allow it.
#[test]
fn a_file_that_may_not_be_written() {
    let folder = folder("read-only");
    set_mode(&folder, "a.vtt", 0o444);
    set_mode(&folder, "", 0o777);
    let Some(command) = as_another_user(&folder, &WORDS) else { return };
    assert_eq!(finished(command, b"").failed(3), "a.vtt: cannot be written: permission is denied");
    assert!(folder.read("a.vtt") == OLD);
    assert_eq!((folder.names(), mode(&folder, "a.vtt")), (vec!["a.vtt".to_string()], 0o444));
}

/// A folder that may not be written to: the old file stays.
#[test]
fn a_folder_that_may_not_be_written_to() {
    let folder = folder("read-only-folder");
    set_mode(&folder, "a.vtt", 0o666);
    set_mode(&folder, "", 0o555);
    let command = as_another_user(&folder, &WORDS);
    let sentence = command.map(|command| finished(command, b"").failed(3));
    set_mode(&folder, "", 0o755);
    let Some(sentence) = sentence else { return };
    assert!(sentence.ends_with("a.vtt: cannot be written: permission is denied"), "{sentence}");
    assert!(folder.read("a.vtt") == OLD);
    assert_eq!(folder.names(), ["a.vtt"]);
}

/// An output that may not be written is not replaced.
#[test]
fn an_output_that_may_not_be_written() {
    let folder = folder("read-only-output");
    folder.write("out.vtt", "what was there");
    set_mode(&folder, "out.vtt", 0o444);
    set_mode(&folder, "", 0o777);
    let Some(command) = as_another_user(&folder, &["plain", "a.vtt", "-o", "out.vtt"]) else { return };
    assert_eq!(finished(command, b"").failed(3), "out.vtt: cannot be written: permission is denied");
    assert!(folder.read("out.vtt") == b"what was there");
    assert_eq!(folder.names(), ["a.vtt", "out.vtt"]);
}

/// A file that may not be read: it is told, and stays.
#[test]
fn a_file_that_may_not_be_read() {
    let folder = folder("unreadable");
    set_mode(&folder, "a.vtt", 0o000);
    for words in [&["list", "a.vtt"][..], &["check", "a.vtt"], &["plain", "a.vtt"], &WORDS] {
        let Some(command) = as_another_user(&folder, words) else { return };
        assert_eq!(finished(command, b"").failed(3), "a.vtt: cannot be read: permission is denied", "{words:?}");
    }
    set_mode(&folder, "a.vtt", 0o644);
    assert!(folder.read("a.vtt") == OLD);
}

/// A link stays a link, and the file that it leads to is mended where it stands.
#[test]
fn a_link_stays_a_link() {
    let folder = Folder::new("link");
    std::fs::create_dir(folder.path("real")).expect("a folder");
    folder.write("real/b.vtt", OLD);
    set_mode(&folder, "real/b.vtt", 0o640);
    symlink("real/b.vtt", folder.path("to-b.vtt")).expect("a link");
    symlink("to-b.vtt", folder.path("a.vtt")).expect("a link to a link");
    let done = folder.vtt([&WORDS[..], &["--backup"]].concat());
    assert_eq!(done.status, 0, "{}", done.err);
    assert!(folder.path("a.vtt").is_symlink() && folder.path("to-b.vtt").is_symlink());
    assert!(folder.read("real/b.vtt") == NEW && folder.read("real/b.vtt.bak") == OLD);
    assert_eq!((folder.names(), mode(&folder, "real/b.vtt")), (["a.vtt", "real", "to-b.vtt"].map(String::from).to_vec(), 0o640));
    assert!(done.err.trim_end().ends_with("real/b.vtt.bak"), "where the old file is kept: {}", done.err);
}

/// `--backup` keeps the old bytes under a name that was not taken: no earlier backup is lost.
#[test]
fn backups_are_kept() {
    let folder = folder("backup");
    set_mode(&folder, "a.vtt", 0o640);
    folder.write("a.vtt.bak", "someone's own");
    for (number, text) in [(1, "Two."), (2, "Three."), (3, "Four.")] {
        let before = folder.read("a.vtt");
        let done = folder.vtt(["mend", "a.vtt", "0", "--text", text, "--in-place", "--backup"]);
        assert_eq!(done.status, 0);
        assert!(done.err.trim_end().ends_with(&format!("a.vtt.bak.{number}")), "where the old file is kept: {}", done.err);
        assert!(folder.read(&format!("a.vtt.bak.{number}")) == before);
        assert_eq!(mode(&folder, &format!("a.vtt.bak.{number}")), 0o640);
    }
    assert!(folder.read("a.vtt.bak") == b"someone's own" && folder.read("a.vtt.bak.1") == OLD && folder.read("a.vtt.bak.2") == NEW);
    assert_eq!(folder.names(), ["a.vtt", "a.vtt.bak", "a.vtt.bak.1", "a.vtt.bak.2", "a.vtt.bak.3"]);
    folder.write("b.vtt", "WEBVTT\nheader\n\nNOTE x\n\n00:01.000 --> 00:02.000\n");
    let done = folder.vtt(["rewrite", "--in-place", "--backup", "b.vtt"]);
    assert_eq!(done.status, 0, "{}", done.err);
    assert!(
        folder.read("b.vtt.bak").starts_with(b"WEBVTT\nheader\n") && folder.read("b.vtt") == b"WEBVTT\n\n00:00:01.000 --> 00:00:02.000\n"
    );
}

/// A name so long that its backup can have none: it is told, the file stays, and nothing is left beside.
#[test]
fn a_backup_that_cannot_be_made() {
    let folder = Folder::new("backup-name");
    let name = "n".repeat(253);
    folder.write(&name, OLD);
    let sentence = folder.vtt(["mend", &name, "0", "--text", "Two.", "--in-place", "--backup"]).failed(3);
    assert!(sentence.ends_with(".bak: cannot be written: file name too long"), "{sentence}");
    assert!(folder.read(&name) == OLD);
    assert_eq!(folder.names(), [name.as_str()]);
    assert_eq!(folder.vtt(["mend", &name, "0", "--text", "Two.", "--in-place", "-q"]).text(), "");
    assert!(folder.read(&name) == NEW);
}

/// Two changes at once: each is done, or is told that it is not; the file is always a whole one.
#[test]
fn two_changes_at_once() {
    let folder = Folder::new("at-once");
    let file = |first: &str, second: &str| {
        format!("WEBVTT\n\n00:00:01.000 --> 00:00:02.000\n{first}\n\n00:00:03.000 --> 00:00:04.000\n{second}\n").into_bytes()
    };
    for _ in 0..20 {
        folder.write("a.vtt", file("1", "2"));
        let change = |cue: &str, text: &str| folder.vtt(["mend", "a.vtt", cue, "--text", text, "--in-place", "-q"]);
        let answers = std::thread::scope(|scope| {
            [scope.spawn(|| change("0", "one")), scope.spawn(|| change("1", "two"))].map(|thread| thread.join())
        });
        for done in answers.map(|answer| answer.expect("it ends")) {
            let told = done.status == 3 && done.err == "a.vtt: was changed by someone else meanwhile; it is left as it is\n";
            assert!(done.status == 0 || told, "{}", done.err);
        }
        let found = folder.read("a.vtt");
        assert!([file("one", "2"), file("1", "two"), file("one", "two")].contains(&found), "{}", String::from_utf8_lossy(&found));
        assert_eq!(folder.names(), ["a.vtt"]);
    }
}

/// Every refusal leaves the file as it was, with no backup and nothing else beside it.
#[test]
fn a_refusal_leaves_all_as_it_was() {
    let folder = Folder::new("untouched");
    let files: [(&[u8], &[&str], i32); 12] = [
        (OLD, &["1", "--text", "x"], 1),
        (OLD, &["--line", "1", "--text", "x"], 1),
        (OLD, &["--identifier", "x", "--text", "x"], 1),
        (OLD, &["0", "--text", "a\n\nb"], 1),
        (OLD, &["0", "--id", "a\nb"], 1),
        (OLD, &["0", "--end", "0"], 1),
        (OLD, &["0", "--settings", "region:x"], 1),
        (b"WEBVTT\n00:01.000 --> 00:02.000\n", &["0", "--id", "x"], 1),
        (b"no captions", &["0", "--text", "x"], 1),
        (b"WEBVTT\n\n00:01.000 --> 00:02.000 line:1000000\n", &["0", "--text", "x"], 1),
        (OLD, &["0", "--start", "x"], 2),
        (OLD, &["0", "--text-file", "missing.txt"], 3),
    ];
    for (file, words, status) in files {
        folder.write("a.vtt", file);
        let before = std::fs::metadata(folder.path("a.vtt")).expect("it is there");
        folder.vtt([&["mend", "a.vtt", "--in-place", "--backup"], words].concat()).failed(status);
        let after = std::fs::metadata(folder.path("a.vtt")).expect("it is there");
        assert!(folder.read("a.vtt") == file, "{words:?}");
        assert_eq!(
            (before.ino(), before.mtime_nsec(), folder.names()),
            (after.ino(), after.mtime_nsec(), vec!["a.vtt".into()]),
            "{words:?}"
        );
    }
    folder.write("a.vtt", "WEBVTT\n\n00:02.000 --> 00:01.000\n");
    folder.vtt(["rewrite", "--in-place", "--backup", "a.vtt"]).refused(8);
    assert_eq!(folder.names(), ["a.vtt"]);
}

/// What is no regular file is not changed in place.
#[test]
fn only_a_regular_file_is_changed_in_place() {
    let folder = Folder::new("irregular");
    symlink("/dev/stdin", folder.path("a.vtt")).expect("a link");
    let sentence = folder.vtt_given(WORDS, OLD).failed(3);
    assert!(sentence.starts_with("a.vtt: cannot be "), "{sentence}");
    assert!(folder.path("a.vtt").is_symlink());
}

/// Files that another run with the same number has left beside are in nobody's way, and stay.
#[test]
fn leftovers_are_in_nobodys_way() {
    let folder = folder("leftovers");
    let line = "for number in 0 1 2; do echo left >.vtt-$$-$number.tmp; done; exec \"$0\" \"$@\"";
    finished(folder.program("sh", [&["-c", line, VTT][..], &WORDS, &["-q"]].concat()), b"").printed();
    assert!(folder.read("a.vtt") == NEW);
    assert_eq!(folder.names().len(), 4);
}
