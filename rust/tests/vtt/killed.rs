//! In-place edits that are cut off: whatever stops one, the file is the old one or the new one, byte for byte.
use crate::tools::{finished, output_of, Folder, VTT};
use std::os::unix::process::ExitStatusExt;
use std::process::{Command, Stdio};
use std::time::Instant;

const WORDS: [&str; 7] = ["mend", "a.vtt", "0", "--text", "Mended.", "--in-place", "--quiet"];

/// A file of 3 MB, and the same with its first cue mended.
fn old_and_new(folder: &Folder) -> (Vec<u8>, Vec<u8>) {
    let mut old = b"WEBVTT\r\n\r\nNOTE \xFF\0\r\n\r\n".to_vec();
    while old.len() < 3_000_000 {
        old.extend_from_slice(b"00:00:01.000 --> 00:00:02.000 align:left\r\nA caption that is as long as the others are.\r\n\r\n");
    }
    folder.write("a.vtt", &old);
    let new = folder.vtt(&WORDS[..5]).printed();
    assert!(new != old && new.len() > 2_900_000);
    (old, new)
}

/// The files beside that a stopped run has left.
fn leftovers(folder: &Folder) -> Vec<String> {
    folder.names().into_iter().filter(|name| name != "a.vtt").collect()
}

/// The command where no file may grow beyond some 1 or 2 MB, by the shell's measure.
fn with_short_files(folder: &Folder, before: &str) -> Command {
    let line = format!("{before}ulimit -f 2000; exec \"$0\" \"$@\"");
    folder.program("sh", [&["-c", &line, VTT], &WORDS[..]].concat())
}

/// The system ends the run in the middle of its writing.
#[test]
fn stopped_by_a_limit_for_files() {
    let folder = Folder::new("killed-limit");
    let (old, new) = old_and_new(&folder);
    let output = output_of(with_short_files(&folder, ""), b"");
    assert!(output.status.signal().is_some(), "it is not stopped: {:?} {}", output.status, String::from_utf8_lossy(&output.stderr));
    assert!(folder.read("a.vtt") == old);
    let left = leftovers(&folder);
    assert!(left.len() == 1 && left[0].starts_with('.') && folder.read(&left[0]).len() < old.len(), "half a file stands beside: {left:?}");
    folder.vtt(WORDS).printed();
    assert!(folder.read("a.vtt") == new, "what was left over is in the way");
}

/// The system refuses to write on: that is told, and nothing is left beside.
#[test]
fn a_write_that_fails_half_way() {
    let folder = Folder::new("killed-refused");
    let (old, _) = old_and_new(&folder);
    let sentence = finished(with_short_files(&folder, "trap '' XFSZ; "), b"").failed(3);
    assert!(sentence.contains("a.vtt: cannot be written: "), "{sentence}");
    assert!(folder.read("a.vtt") == old);
    assert_eq!(leftovers(&folder), Vec::<String>::new());
}

/// To another file the same: the old output stays, and nothing is left beside.
#[test]
fn an_output_file_that_fails_half_way() {
    let folder = Folder::new("killed-output");
    let (old, _) = old_and_new(&folder);
    folder.write("out.vtt", "what was there");
    let line = "trap '' XFSZ; ulimit -f 2000; exec \"$0\" plain a.vtt -o out.vtt";
    let sentence = finished(folder.program("sh", ["-c", line, VTT]), b"").failed(3);
    assert!(sentence.contains("out.vtt: cannot be written: "), "{sentence}");
    assert!(folder.read("a.vtt") == old && folder.read("out.vtt") == b"what was there");
    assert_eq!(folder.names(), ["a.vtt", "out.vtt"]);
}

/// Stopped at many different moments, some by the clock and some as soon as the new file stands beside: never a half.
#[test]
fn killed_at_any_moment() {
    const BY_THE_CLOCK: u32 = 20;
    const ONCE_BESIDE: u32 = 20;
    let folder = Folder::new("killed");
    let (old, new) = old_and_new(&folder);
    let start = Instant::now();
    folder.vtt(WORDS).printed();
    let whole = start.elapsed();
    let (mut olds, mut news, mut halves) = (0, 0, 0);
    for run in 0..BY_THE_CLOCK + ONCE_BESIDE {
        folder.write("a.vtt", &old);
        let mut child = folder.program(VTT, WORDS).stdin(Stdio::null()).stdout(Stdio::null()).spawn().expect("it starts");
        if run < BY_THE_CLOCK {
            std::thread::sleep(whole * run * 5 / 4 / BY_THE_CLOCK);
        } else {
            while leftovers(&folder).is_empty() && child.try_wait().expect("it is waited for").is_none() {
                std::hint::spin_loop();
            }
            std::thread::sleep(whole * (run - BY_THE_CLOCK) / ONCE_BESIDE);
        }
        child.kill().expect("it is stopped");
        child.wait().expect("it ends");
        let found = folder.read("a.vtt");
        assert!(found == old || found == new, "run {run}: neither the old file nor the new one: {} bytes", found.len());
        if found == old {
            olds += 1;
        } else {
            news += 1;
        }
        for name in leftovers(&folder) {
            halves += 1;
            std::fs::remove_file(folder.path(&name)).expect("it is removed");
        }
    }
    println!("{olds} old files, {news} new ones, {halves} left beside; a whole run takes {whole:?}");
    assert!(olds > 0 && halves > 0, "no run was stopped in the middle: {olds} {news} {halves}");
}
