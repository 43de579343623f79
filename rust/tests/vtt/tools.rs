//! What the tests share: a folder for each, and the command run in it.
use std::ffi::OsStr;
use std::io::Write;
use std::path::{Path, PathBuf};
use std::process::{Command, Output, Stdio};
use std::time::{Duration, Instant};

/// The built program.
pub const VTT: &str = env!("CARGO_BIN_EXE_vtt");

/// A folder that is one test's own. It is removed in the end, unless the test has failed.
pub struct Folder(PathBuf);

/// How a run ended, and what it printed.
#[derive(Debug)]
pub struct Done {
    pub status: i32,
    pub out: Vec<u8>,
    pub err: String,
}

impl Folder {
    pub fn new(name: &str) -> Folder {
        let folder = Path::new(env!("CARGO_TARGET_TMPDIR")).join("vtt").join(name);
        if folder.exists() {
            std::fs::remove_dir_all(&folder).expect("the old folder is removed");
        }
        std::fs::create_dir_all(&folder).expect("a folder");
        Folder(folder)
    }

    pub fn path(&self, name: &str) -> PathBuf {
        self.0.join(name)
    }

    pub fn write(&self, name: &str, bytes: impl AsRef<[u8]>) {
        std::fs::write(self.path(name), bytes).expect("the file is written");
    }

    pub fn read(&self, name: &str) -> Vec<u8> {
        std::fs::read(self.path(name)).expect("the file is read")
    }

    /// What stands in the folder, by name.
    pub fn names(&self) -> Vec<String> {
        let entries = std::fs::read_dir(&self.0).expect("the folder is read");
        let mut names: Vec<String> = entries.map(|entry| entry.expect("an entry").file_name().to_string_lossy().into_owned()).collect();
        names.sort();
        names
    }

    /// A program that is to run in this folder.
    pub fn program<W: AsRef<OsStr>>(&self, program: &str, words: impl IntoIterator<Item = W>) -> Command {
        let mut command = Command::new(program);
        command.args(words).current_dir(&self.0);
        command
    }

    /// Runs the command with nothing on its standard input.
    pub fn vtt<W: AsRef<OsStr>>(&self, words: impl IntoIterator<Item = W>) -> Done {
        self.vtt_given(words, b"")
    }

    /// Runs the command with these bytes on its standard input.
    pub fn vtt_given<W: AsRef<OsStr>>(&self, words: impl IntoIterator<Item = W>, input: &[u8]) -> Done {
        finished(self.program(VTT, words), input)
    }
}

impl Drop for Folder {
    fn drop(&mut self) {
        if !std::thread::panicking() {
            let _ = std::fs::remove_dir_all(&self.0);
        }
    }
}

/// Runs a program to its end. It never panics, and its exit status is one of those that its help names.
pub fn finished(command: Command, input: &[u8]) -> Done {
    let told = format!("{command:?}");
    let output = output_of(command, input);
    let err = String::from_utf8_lossy(&output.stderr).into_owned();
    assert!(!err.contains("panicked"), "{told}: {err}");
    let status = output.status.code().unwrap_or_else(|| panic!("{told}: ended by a signal: {:?}", output.status));
    assert!((0..=3).contains(&status), "{told}: exit status {status}: {err}");
    Done { status, out: output.stdout, err }
}

/// Runs any program to its end, whatever that is.
pub fn output_of(mut command: Command, input: &[u8]) -> Output {
    let told = format!("{command:?}");
    let piped = command.stdin(Stdio::piped()).stdout(Stdio::piped()).stderr(Stdio::piped()).spawn();
    let mut child = piped.unwrap_or_else(|error| panic!("{told}: {error}"));
    let mut stdin = child.stdin.take().expect("its standard input");
    std::thread::scope(|scope| {
        // A program may end before it has read all.
        scope.spawn(move || stdin.write_all(input).is_ok());
        child.wait_with_output().expect("its output")
    })
}

impl Done {
    /// What was printed, where all went well and nothing is to be said.
    #[track_caller]
    pub fn printed(self) -> Vec<u8> {
        assert_eq!((self.status, self.err.as_str()), (0, ""));
        self.out
    }

    #[track_caller]
    pub fn text(self) -> String {
        String::from_utf8(self.printed()).expect("UTF-8")
    }

    /// One sentence on standard error, nothing on standard output, and this exit status.
    #[track_caller]
    pub fn failed(self, status: i32) -> String {
        assert_eq!((self.status, String::from_utf8_lossy(&self.out).as_ref()), (status, ""), "{}", self.err);
        assert!(self.err.ends_with('\n') && self.err.lines().count() == 1, "no single sentence: {:?}", self.err);
        for odd in ["os error", "Os {", "Err(", "Some(", "{:"] {
            assert!(!self.err.contains(odd), "no sentence for an editor: {}", self.err);
        }
        self.err.trim_end().to_string()
    }

    /// Refused by this number.
    #[track_caller]
    pub fn refused(self, number: u64) -> String {
        let sentence = self.failed(1);
        assert!(sentence.contains(&format!(": refused {number}: ")), "not refused by {number}: {sentence}");
        sentence
    }
}

/// Is a program there; where it is not, that is said, and what needs it is left out.
pub fn found(program: &str) -> bool {
    let there = std::env::var_os("PATH").is_some_and(|path| std::env::split_paths(&path).any(|folder| folder.join(program).is_file()));
    if !there {
        println!("{program} is not on this machine: what needs it was not tried");
    }
    there
}

/// Runs the command in a folder, and stops it where it takes longer than this.
#[track_caller]
pub fn within(limit: Duration, folder: &Folder, words: &[&str]) -> Done {
    let created = |name: &str| std::fs::File::create(folder.path(name)).expect("a file for what is printed");
    let mut command = folder.program(VTT, words);
    let mut child = command.stdin(Stdio::null()).stdout(created("printed")).stderr(created("said")).spawn().expect("it starts");
    let start = Instant::now();
    while start.elapsed() < limit {
        if let Some(status) = child.try_wait().expect("it is waited for") {
            let err = String::from_utf8_lossy(&folder.read("said")).into_owned();
            assert!(!err.contains("panicked"), "{words:?}: {err}");
            let status = status.code().unwrap_or_else(|| panic!("{words:?}: {status:?}"));
            assert!((0..=3).contains(&status), "{words:?}: exit status {status}: {err}");
            return Done { status, out: folder.read("printed"), err };
        }
        std::thread::sleep(Duration::from_millis(5));
    }
    child.kill().expect("it is stopped");
    child.wait().expect("it ends");
    panic!("{words:?}: it takes longer than {limit:?}");
}

/// A file of the repository, from its root.
pub fn of_repository(path: &str) -> PathBuf {
    Path::new(env!("CARGO_MANIFEST_DIR")).join("..").join(path)
}

/// One line of `vtt list`, as its fields.
pub fn fields(line: &str) -> Vec<String> {
    line.split('\t').map(str::to_string).collect()
}

/// What stands in which field of a cue's line.
pub const START: usize = 2;
pub const END: usize = 3;
pub const ID: usize = 4;
pub const TEXT: usize = 5;
pub const SETTINGS: std::ops::RangeInclusive<usize> = 6..=12;
pub const REGION: usize = 13;
pub const FIRST_LINE: usize = 14;
pub const LINE_COUNT: usize = 15;
