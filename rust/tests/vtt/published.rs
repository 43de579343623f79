//! The public files: what the command prints of them is what the proved programs of `crates/runs` print, but for what those cannot hold.
use crate::tools::{finished, of_repository, Done, Folder, VTT};
use std::ffi::OsString;
use std::os::unix::ffi::OsStringExt;

/// One of the public files, and what its program prints.
pub struct Run {
    pub name: String,
    pub input: Vec<u8>,
    expected: Vec<u8>,
}

/// What a program prints of a file.
enum Expected<'a> {
    Printed(&'a [u8]),
    Refused(u64),
    BadRequest,
}

/// The runs of one folder of `crates/runs/data`. What is printed stands after `file`, a tab and its name, and may end without a line end.
pub fn runs(folder: &str) -> Vec<Run> {
    let read = |path: &str| std::fs::read(of_repository("crates/runs").join(path)).unwrap_or_else(|error| panic!("{path}: {error}"));
    let (paths, printed) = (String::from_utf8(read("args")).expect("names"), read("stdout"));
    let mut starts = vec![];
    let mut from = 0;
    for path in paths.lines() {
        let name = path.split('/').next_back().expect("a name");
        let head = format!("file\t{name}\n").into_bytes();
        let at = from + printed[from..].windows(head.len()).position(|window| window == head).unwrap_or_else(|| panic!("{path}"));
        from = at + head.len();
        starts.push((path, name, at, from));
    }
    let ends: Vec<usize> = starts.iter().skip(1).map(|(_, _, at, _)| *at).chain([printed.len()]).collect();
    let all = starts.iter().zip(ends).filter(|((path, ..), _)| path.split('/').next() == Some(folder));
    let runs: Vec<Run> = all
        .map(|((path, name, _, start), end)| Run {
            name: name.to_string(),
            input: read(&format!("data/{path}")),
            expected: printed[*start..end].to_vec(),
        })
        .collect();
    assert!(runs.len() > 10, "{folder}: {} files", runs.len());
    runs
}

impl Run {
    fn expected(&self) -> Expected<'_> {
        let number = self.expected.strip_prefix(b"refused\t").and_then(|rest| String::from_utf8_lossy(rest).trim_end().parse().ok());
        match number {
            Some(number) => Expected::Refused(number),
            None if self.expected == b"bad request\n" => Expected::BadRequest,
            None => Expected::Printed(&self.expected),
        }
    }

    /// Is it refused because the program holds so little: 16,384 bytes of a file, 1,024 entries of a list, 65,536 bytes of output.
    fn too_much_for_the_program(&self) -> bool {
        matches!(self.expected(), Expected::Refused(1 | 6 | 10))
    }

    fn compare(&self, done: Done) {
        match self.expected() {
            Expected::Printed(bytes) => {
                assert_eq!((done.status, done.err.as_str()), (0, ""), "{}", self.name);
                assert!(done.out == bytes, "{}: other bytes: {}", self.name, String::from_utf8_lossy(&done.out));
            }
            Expected::Refused(number) => {
                assert!(done.err.contains(&format!(": refused {number}: ")), "{}: {}", self.name, done.err);
                done.refused(number);
            }
            Expected::BadRequest => panic!("{}: not to be compared", self.name),
        }
    }
}

/// `vtt list` prints of each public file the lines of `inspect`, or refuses it by the same number.
#[test]
fn list_prints_the_lines_of_inspect() {
    let folder = Folder::new("published-lists");
    for run in runs("lists") {
        assert!(!run.too_much_for_the_program(), "{}: a file for another test", run.name);
        run.compare(folder.vtt(["list".into(), of_repository("crates/runs/data/lists").join(&run.name)]));
    }
}

/// `vtt rewrite` prints what `rewrite` prints; what that cannot hold is rewritten too, and reads as the old file.
#[test]
fn rewrite_prints_the_written_form() {
    let folder = Folder::new("published-rewritten");
    let mut longer = 0;
    for run in runs("rewritten") {
        folder.write(&run.name, &run.input);
        let done = folder.vtt(["rewrite", &run.name]);
        if !run.too_much_for_the_program() {
            run.compare(done);
            continue;
        }
        longer += 1;
        folder.write("again.vtt", done.printed());
        let unplaced = |name: &str| folder.vtt(["list", name]).text().lines().map(without_place).collect::<Vec<String>>();
        assert_eq!(unplaced(&run.name), unplaced("again.vtt"), "{}", run.name);
        assert!(folder.vtt(["rewrite", "again.vtt"]).printed() == folder.read("again.vtt"), "{}: written once more", run.name);
    }
    assert_eq!(longer, 3);
}

/// A line of `vtt list` without the lines where its cue stands.
fn without_place(line: &str) -> String {
    match line.strip_prefix("cue\t") {
        Some(_) => line.rsplitn(3, '\t').last().unwrap_or_default().to_string(),
        None => line.to_string(),
    }
}

/// Can this be the text of a cue in a file: is it plain, and has it no empty line and no arrow.
fn is_cue_text(bytes: &[u8]) -> bool {
    let Ok(text) = std::str::from_utf8(bytes) else { return false };
    text.split('\n').all(|line| !line.is_empty()) && !text.contains(['\r', '\0']) && !text.contains("-->")
}

/// `vtt tree` prints of each public text the lines of `outline`, where the text can stand in a file.
#[test]
fn tree_prints_the_lines_of_outline() {
    let folder = Folder::new("published-outlined");
    let mut compared = 0;
    for run in runs("outlined").into_iter().filter(|run| is_cue_text(&run.input)) {
        let file = [b"WEBVTT\n\n00:01.000 --> 00:02.000\n", &run.input[..]].concat();
        let done = folder.vtt_given(["tree", "-", "0"], &file);
        if run.too_much_for_the_program() {
            let lines = done.text().lines().count();
            assert_eq!(lines, if run.name.contains("nodes-4097") { 4097 } else { 1 }, "{}", run.name);
        } else {
            run.compare(done);
        }
        compared += 1;
    }
    assert!(compared > 150, "{compared}");
}

/// The fields of a request line, with its escapes read, and the file after it.
fn request(input: &[u8]) -> Option<([Vec<u8>; 7], &[u8])> {
    let end = input.iter().position(|byte| *byte == b'\n')?;
    let fields: Vec<Vec<u8>> = input[..end].split(|byte| *byte == b'\t').map(unescaped).collect();
    Some((fields.try_into().ok()?, &input[end + 1..]))
}

fn unescaped(field: &[u8]) -> Vec<u8> {
    let mut bytes = vec![];
    let mut rest = field.iter();
    while let Some(byte) = rest.next() {
        bytes.push(match byte {
            b'\\' => match rest.next() {
                Some(b't') => b'\t',
                Some(b'n') => b'\n',
                _ => b'\\',
            },
            byte => *byte,
        });
    }
    bytes
}

/// Requests that no command line can hold (a NUL, broken bytes), and those with settings that `vtt` refuses and `mend` leaves out.
const OTHERS: [&str; 8] = [
    "refused-8-test-1-identifier-nul.txt",
    "refused-8-test-1-identifier.txt",
    "refused-8-test-1-region.txt",
    "refused-8-test-1-text-nul.txt",
    "refused-8-test-1-text.txt",
    "region-cancelled.txt",
    "settings-opening.txt",
    "settings-percentage.txt",
];

/// `vtt mend`, each field of a public request given by its option, makes the bytes that `mend` makes, or refuses by the same number.
#[test]
fn mend_makes_the_bytes_of_mend() {
    let folder = Folder::new("published-mended");
    let mut compared = 0;
    for run in runs("mended") {
        if matches!(run.expected(), Expected::BadRequest) || OTHERS.contains(&run.name.as_str()) {
            continue;
        }
        let (fields, file) = request(&run.input).expect("a request and a file");
        let [_, number, start, end, identifier, settings, text] = fields.map(|field| String::from_utf8(field).expect("UTF-8"));
        let words = ["mend", "-", &number, "--start", &start, "--end", &end, "--id", &identifier, "--settings", &settings, "--text", &text];
        let done = folder.vtt_given(words, file);
        if !run.too_much_for_the_program() {
            run.compare(done);
        } else if run.name.contains("before-4") {
            done.refused(4);
        } else {
            let new = done.printed();
            let written = format!("\n00:00:{:02}.000 --> 00:00:02.500\n{text}", start.parse::<u64>().expect("a number") / 1000);
            assert!(String::from_utf8_lossy(&new).contains(&written), "{}", run.name);
        }
        compared += 1;
    }
    assert!(compared > 60, "{compared}");
}

/// Settings that would do nothing are refused as bad usage, not left out in silence; so is a value that is not UTF-8.
#[test]
fn mend_refuses_what_mend_leaves_out() {
    let folder = Folder::new("published-others");
    for run in runs("mended").into_iter().filter(|run| OTHERS.contains(&run.name.as_str())) {
        let (fields, file) = request(&run.input).expect("a request and a file");
        if fields.iter().any(|field| field.contains(&0)) {
            continue;
        }
        let mut fields = fields.map(OsString::from_vec).into_iter().skip(1);
        let mut command = folder.program(VTT, ["mend", "-"]);
        command.arg(fields.next().expect("the cue's number"));
        for (option, field) in ["--start", "--end", "--id", "--settings", "--text"].into_iter().zip(fields) {
            command.arg(option).arg(field);
        }
        let sentence = finished(command, file).failed(2);
        let reasons = ["would have no effect", "is cancelled by a setting after it", "settings stand on one line", "is not UTF-8"];
        assert!(reasons.iter().any(|reason| sentence.contains(reason)), "{}: {sentence}", run.name);
    }
}

/// `vtt plain` prints the text of each public file as the standard library of Rust decodes it, with its line ends made LF.
#[test]
fn plain_prints_the_text() {
    let folder = Folder::new("published-plain");
    for run in runs("lists").into_iter().chain(runs("rewritten")) {
        let without_mark = run.input.strip_prefix(b"\xEF\xBB\xBF").unwrap_or(&run.input);
        let text = String::from_utf8_lossy(without_mark).replace("\r\n", "\n").replace('\r', "\n").replace('\0', "\u{FFFD}");
        assert!(folder.vtt_given(["plain", "-"], &run.input).printed() == text.as_bytes(), "{}", run.name);
    }
}
