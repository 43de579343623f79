//! Callers in other languages and on small stacks: each replaces a cue in a file of 60 KB, and gets that file with the cue's own bytes changed; and
//! what the header says beside that.
use spatzenherd::{lent, replace, NewCue, TimeFault, Tree, LONG_TEXT};
use std::path::{Path, PathBuf};
use std::process::{Command, Output};

const CUE: usize = 300;

/// A file of 60 KB in two halves around its cue 300: comments, all three line ends, odd bytes, and no LF at its end.
fn halves() -> (Vec<u8>, Vec<u8>, Vec<u8>) {
    let mut half = [b"\xEF\xBB\xBFWEBVTT and a title\r\n\r\nNOTE stays \xFF\0\r\n\r\n".to_vec(), b"\r\n\r\n".to_vec()];
    for cue in 0..2 * CUE {
        let end = ["\n", "\r\n", "\r"][cue % 3];
        let block = format!(
            "{cue}{end}00:{:02}:{:02}.000 --> 00:{:02}:{:02}.900 align:left{end}A line of text that is as long as others.{end}And one more.{end}{end}",
            cue / 60, cue % 60, cue / 60, cue % 60
        );
        half[cue / CUE].extend_from_slice(block.as_bytes());
    }
    half[1].extend_from_slice(b"NOTE cut \xE2\x82");
    let [before, after] = half;
    (before, b"00:05:00.000-->00:05:00.900 size:50%\rThe first tram.".to_vec(), after)
}

fn old_and_new() -> (Vec<u8>, Vec<u8>) {
    let (before, cue, after) = halves();
    let new = b"00:00:01.000 --> 00:00:02.500\nThe last tram.".to_vec();
    ([before.clone(), cue, after.clone()].concat(), [before, new, after].concat())
}

fn above(path: &str) -> PathBuf {
    Path::new(env!("CARGO_MANIFEST_DIR")).join("..").join(path)
}

fn archive() -> PathBuf {
    std::env::var_os("SPATZENHERD_ARCHIVE").map_or_else(|| above("target/staticlib"), PathBuf::from).join("libc_api.a")
}

fn folder() -> PathBuf {
    let folder = Path::new(env!("CARGO_TARGET_TMPDIR")).join("callers");
    std::fs::create_dir_all(&folder).expect("a folder for what is built");
    folder
}

fn compiled(arguments: &[&std::ffi::OsStr]) {
    let output = Command::new("cc").args(arguments).output().expect("cc, the C compiler, is missing");
    assert!(output.status.success(), "cc: {}", String::from_utf8_lossy(&output.stderr));
}

/// What a program that replaces the cue prints, and its refusal of a cue that is not there.
fn try_caller(run: impl Fn(&Path, &str) -> Output, name: &str) {
    let (old, new) = old_and_new();
    assert!(old.len() > 60_000, "{}", old.len());
    let captions = folder().join(format!("{name}.vtt"));
    std::fs::write(&captions, &old).expect("the file is written");
    let output = run(&captions, &CUE.to_string());
    assert!(output.status.success(), "{name}: {}", String::from_utf8_lossy(&output.stderr));
    assert!(output.stdout == new, "{name}: other bytes than those promised");
    let output = run(&captions, "601");
    assert!(
        !output.status.success() && output.stdout.is_empty() && String::from_utf8_lossy(&output.stderr).contains('7'),
        "{name}: {output:?}"
    );
}

#[test]
fn from_rust() {
    let (old, new) = old_and_new();
    let cue = NewCue { start: 1000, end: 2500, text: "The last tram.", ..NewCue::default() };
    assert!(replace(&old, CUE, &cue).expect("it is accepted") == new);
}

/// The program of an example in C.
fn example_in_c(name: &str) -> PathBuf {
    program_in_c(name, &above("examples").join(name).with_extension("c"))
}

fn program_in_c(name: &str, source: &Path) -> PathBuf {
    let program = folder().join(name);
    let warnings = ["-std=c99", "-Wall", "-Wextra", "-Werror", "-pedantic", "-I"].map(std::ffi::OsStr::new);
    let (header, archive) = (above("include"), archive());
    let files = [header.as_os_str(), "-o".as_ref(), program.as_os_str(), source.as_os_str(), archive.as_os_str()];
    compiled(&[warnings.as_slice(), files.as_slice()].concat());
    program
}

#[test]
fn from_c() {
    let program = example_in_c("replace");
    try_caller(
        |captions, cue| Command::new(&program).arg(captions).args([cue, "1000", "2500", "The last tram."]).output().expect("it runs"),
        "c",
    );
}

/// The second and the ninth example of request Q-8, one without a list, and a file that is refused.
#[test]
fn lines_from_c() {
    let (program, captions) = (example_in_c("lines"), folder().join("lines.vtt"));
    let cases: [(&str, Result<&str, &str>); 4] = [
        ("WEBVTT\n\na\n00:01.000 --> 00:02.000\nx\ny\n\n\n00:03.000 --> 00:04.000\n", Ok("3 4 1000 2000\n9 1 3000 4000\n")),
        ("WEBVTT\n\nNOTE\n\nSTYLE\nx\n\na\n00:03.000 --> 00:04.000\nb", Ok("8 3 3000 4000\n")),
        ("WEBVTT", Ok("")),
        ("WEBVTX", Err("refused 4\n")),
    ];
    for (raw, expected) in cases {
        std::fs::write(&captions, raw).expect("the file is written");
        let output = Command::new(&program).arg(&captions).output().expect("it runs");
        let told = if output.status.success() { Ok(output.stdout) } else { Err(output.stderr) };
        assert_eq!(told, expected.map(|lines| lines.into()).map_err(|error| error.into()), "{raw:?}");
    }
}

/// Asks about a time, a tag's time or a timing line, and prints what is handed back and the eight words.
const TIMES_IN_C: &str = r#"
#include <inttypes.h>
#include <stdio.h>
#include <string.h>

#include "spatzenherd.h"

int main(int argc, char **argv) {
    const uint8_t *text = (const uint8_t *)argv[argc - 1];
    uint64_t values[8] = {9, 9, 9, 9, 9, 9, 9, 9}, refused = 0;
    switch (argv[1][0]) {
    case '0': refused = spatz_time(text, strlen(argv[2]), values); break;
    case '1': refused = spatz_tag_time(text, strlen(argv[2]), values); break;
    case '2': refused = spatz_timing_line(text, strlen(argv[2]), values); break;
    }
    printf("%" PRIu64 ":", refused);
    for (size_t word = 0; word < 8; word++)
        printf(" %" PRIu64, values[word]);
    return 0;
}
"#;

/// Examples of request Q-5, one for each answer that there is.
#[test]
fn times_from_c() {
    let source = folder().join("times.c");
    std::fs::write(&source, TIMES_IN_C).expect("the program is written");
    let program = program_in_c("times", &source);
    for (function, text, expected) in [
        ("0", "", "0: 1 0 9 9 9 9 9 9"),
        ("0", "00:01.000x", "0: 0 9 1000 9 9 9 9 9"),
        ("0", "100000:00:00.000", "5: 9 9 9 9 9 9 9 9"),
        ("1", "00:01.000", "0: 0 9 1000 9 9 9 9 9"),
        ("1", "00:01.000 ", "0: 7 9 9 9 9 9 9 9"),
        ("2", "00:01.000-->00:02.000x", "0: 0 21 1000 2000 9 9 9 9"),
        ("2", "00:01.000 --> 00:60.000 line:0", "0: 5 23 9 9 9 9 9 9"),
        ("2", "00:01.000 --> 00:02.000 line:1000000", "5: 9 9 9 9 9 9 9 9"),
    ] {
        let output = Command::new(&program).args([function, text]).output().expect("it runs");
        assert_eq!(String::from_utf8_lossy(&output.stdout), expected, "{text}");
    }
}

/// The numbers that C takes from the header are those of the rows and of the steps here: nothing else would tell, since a caller in C lends and asks
/// what the header says.
#[test]
fn numbers_in_c() {
    let header = std::fs::read_to_string(above("include/spatzenherd.h")).expect("include/spatzenherd.h");
    for (name, number) in [
        ("SPATZ_CUE_WORDS", lent::CUE_WORDS as u64),
        ("SPATZ_NEW_CUE_WORDS", lent::NEW_CUE_WORDS as u64),
        ("SPATZ_REGION_WORDS", lent::REGION_WORDS as u64),
        ("SPATZ_STYLE_WORDS", lent::STYLE_WORDS as u64),
        ("SPATZ_NODE_WORDS", lent::NODE_WORDS as u64),
        ("SPATZ_STEP_NONE", 0),
        ("SPATZ_DIGIT_MISSING", TimeFault::DigitMissing.number()),
        ("SPATZ_WRONG_DIGIT_COUNT", TimeFault::WrongDigitCount.number()),
        ("SPATZ_COLON_MISSING", TimeFault::ColonMissing.number()),
        ("SPATZ_FULL_STOP_MISSING", TimeFault::FullStopMissing.number()),
        ("SPATZ_OVER_59", TimeFault::Over59.number()),
        ("SPATZ_ARROW_MISSING", TimeFault::ArrowMissing.number()),
        ("SPATZ_SOMETHING_AFTER", TimeFault::SomethingAfter.number()),
    ] {
        let value = header.split(&format!("{name} = ")).nth(1).and_then(|rest| rest.split(|c: char| !c.is_ascii_digit()).next());
        assert_eq!(value, Some(number.to_string().as_str()), "{name}");
    }
}

/// The example of docs/LIBRARY.md: the indented lines after its heading, from `import` on.
fn python_example() -> String {
    let page = std::fs::read_to_string(above("docs/LIBRARY.md")).expect("docs/LIBRARY.md");
    let section = page.split("\n## From Python\n").nth(1).expect("the section From Python");
    let lines = section.lines().skip_while(|line| !line.starts_with("    import ")).take_while(|line| line.starts_with("    "));
    lines.map(|line| line[4..].to_string() + "\n").collect()
}

#[test]
fn from_python() {
    if Command::new("python3").arg("--version").output().is_err() {
        println!("python3 is not on this machine: its example was not run");
        return;
    }
    let (library, script) = (folder().join("libspatzenherd.so"), folder().join("replace.py"));
    let example = python_example();
    assert!((10..=20).contains(&example.lines().count()), "{example}");
    std::fs::write(&script, example).expect("the example is written");
    let archive = archive();
    let words = ["-shared", "-o"].map(std::ffi::OsStr::new);
    let files = [library.as_os_str(), "-Wl,--whole-archive".as_ref(), archive.as_os_str(), "-Wl,--no-whole-archive".as_ref()];
    compiled(&[words.as_slice(), files.as_slice()].concat());
    let run =
        |captions: &Path, cue: &str| Command::new("python3").args([&script, &library]).arg(captions).args([cue, "The last tram."]).output();
    try_caller(|captions, cue| run(captions, cue).expect("it runs"), "python");
}

fn on_a_stack_of(bytes: usize, call: impl FnOnce() + Send + 'static) {
    std::thread::Builder::new().stack_size(bytes).spawn(call).expect("a thread").join().expect("it answers");
}

/// A cue's text of up to 786,432 bytes is read with 128 KB of stack, the rest being this thread's own, and the safe function takes a longer one
/// there too.
#[test]
fn on_a_small_stack() {
    on_a_stack_of(160 << 10, || {
        for length in [0, 41, 12_288, 12_289, LONG_TEXT] {
            let text = "<i>".repeat(length / 3) + &"x".repeat(length % 3);
            let (mut room, mut nodes) = (vec![0; length], vec![[0; 7]; length / 3 + 1]);
            assert_eq!(lent::tree(text.as_bytes(), &mut room, &mut nodes, &mut [0; 8]), 0);
            assert_eq!(
                lent::tree(text.as_bytes(), &mut [], &mut [], &mut [0; 8]),
                if length == 0 { 0 } else { 6 - 4 * u64::from(length % 3 > 0) }
            );
        }
        let long = "<b>".repeat(LONG_TEXT);
        assert_eq!(Tree::read(&long).expect("it is read").nodes().len(), LONG_TEXT);
    });
}
