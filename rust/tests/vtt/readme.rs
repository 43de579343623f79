//! The examples of README.md: each command there, run on a terminal in a copy of `examples/`, prints what the page shows.
use std::path::{Path, PathBuf};
use std::process::Command;

fn root() -> PathBuf {
    Path::new(env!("CARGO_MANIFEST_DIR")).join("..")
}

/// The commands of a page, each after `$ ` in an indented block, with the lines that the page shows after it.
fn examples(page: &str) -> Vec<(&str, Vec<&str>)> {
    let mut examples: Vec<(&str, Vec<&str>)> = vec![];
    let mut inside = false;
    for line in page.lines() {
        match (line.strip_prefix("    "), line.strip_prefix("    $ ")) {
            (_, Some(command)) => {
                examples.push((command, vec![]));
                inside = true;
            }
            (Some(shown), None) if inside => examples.last_mut().expect("a command").1.push(shown),
            (None, None) if inside && line.is_empty() => examples.last_mut().expect("a command").1.push(""),
            _ => inside = false,
        }
    }
    for (_, shown) in &mut examples {
        while shown.last() == Some(&"") {
            shown.pop();
        }
    }
    examples
}

const ON_A_TERMINAL: &str = "
import os, pty, sys
pid, fd = pty.fork()
if pid == 0:
    os.execvp('sh', ['sh', '-c', sys.argv[1]])
out = b''
while True:
    try:
        got = os.read(fd, 65536)
    except OSError:
        break
    if not got:
        break
    out += got
os.waitpid(pid, 0)
sys.stdout.buffer.write(out.replace(b'\\r\\n', b'\\n'))
";

#[test]
fn the_page_shows_what_is_printed() {
    let folder = Path::new(env!("CARGO_TARGET_TMPDIR")).join("readme");
    let _ = std::fs::remove_dir_all(&folder);
    std::fs::create_dir_all(folder.join("examples")).expect("a folder");
    for file in std::fs::read_dir(root().join("examples")).expect("the folder of the examples") {
        let file = file.expect("an example").path();
        std::fs::copy(&file, folder.join("examples").join(file.file_name().expect("its name"))).expect("a copy");
    }
    std::os::unix::fs::symlink(env!("CARGO_BIN_EXE_vtt"), folder.join("vtt")).expect("a link");
    let page = std::fs::read_to_string(root().join("README.md")).expect("the page");
    let examples = examples(&page);
    assert!(examples.len() >= 7, "{} commands", examples.len());
    for (command, shown) in examples {
        let output = Command::new("python3")
            .args(["-c", ON_A_TERMINAL, command])
            .current_dir(&folder)
            .env("NO_COLOR", "1")
            .env("TERM", "xterm")
            .output()
            .expect("python3 is missing");
        let printed = String::from_utf8(output.stdout).expect("UTF-8");
        let printed: Vec<&str> = printed.lines().map(str::trim_end).collect();
        assert_eq!(printed, shown, "{command}");
    }
}
