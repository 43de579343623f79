//! Measures the proved functions and prints the tables of docs/SPEED.md. Every time is a ratio to a bare scan of the same bytes for LF and
//! `-->` in the same run, the best of some runs: `cargo run --release --bin bench`, with words of a table's title to choose tables.
//!
//! `bench regions` is a table of its own, of files whose cues name regions; letters after it, `bench regions aeg`, choose files. Some of them can
//! take ten minutes, so it is measured only where it is asked for.
mod samples;

use spatzenherd::lent::{self, CueRow, RegionRow, StyleRow, CUE_WORDS, NEW_CUE_WORDS, NODE_WORDS, REGION_WORDS, STYLE_WORDS};
use spatzenherd::MAX_FILE;
use std::hint::black_box;
use std::time::Instant;

/// Counts line ends and arrows, byte by byte: what any reader must look at. It is written in three ways, of which the fastest counts, for how
/// fast one of them is depends on where the compiler puts it.
#[inline(never)]
fn scan_from_greater(bytes: &[u8]) -> usize {
    let mut found = 0;
    for (i, &byte) in bytes.iter().enumerate() {
        if byte == b'\n' {
            found += 1
        }
        if byte == b'>' && i >= 2 && bytes[i - 1] == b'-' && bytes[i - 2] == b'-' {
            found += 1
        }
    }
    found
}

#[inline(never)]
fn scan_from_hyphen(bytes: &[u8]) -> usize {
    let mut found = 0;
    let mut i = 0;
    while i < bytes.len() {
        match bytes[i] {
            b'\n' => found += 1,
            b'-' if bytes[i..].starts_with(b"-->") => found += 1,
            _ => {}
        }
        i += 1;
    }
    found
}

#[inline(never)]
fn scan_by_state(bytes: &[u8]) -> usize {
    let (mut found, mut hyphens) = (0, 0);
    for &byte in bytes {
        if byte == b'-' {
            hyphens += 1;
            continue;
        }
        if byte == b'\n' || (byte == b'>' && hyphens >= 2) {
            found += 1;
        }
        hyphens = 0;
    }
    found
}

/// Seconds that the fastest scan takes.
fn scanning(bytes: &[u8]) -> f64 {
    let scans: [fn(&[u8]) -> usize; 3] = [scan_from_greater, scan_from_hyphen, scan_by_state];
    assert!(scans.iter().all(|scan| scan(bytes) == scan_by_state(bytes)));
    let time = |scan: fn(&[u8]) -> usize| {
        seconds(|| {
            black_box(scan(black_box(bytes)));
        })
    };
    scans.map(time).into_iter().fold(f64::INFINITY, f64::min)
}

/// Seconds that a call takes: the best of five runs, each of as many calls as take some hundredths of a second; one call that takes more than ten
/// seconds is enough.
fn seconds(mut call: impl FnMut()) -> f64 {
    let mut once = || {
        let start = Instant::now();
        call();
        start.elapsed().as_secs_f64()
    };
    let first = once();
    if first > 10.0 {
        return first;
    }
    let calls = (0.02 / first.max(1e-9)).ceil().clamp(1.0, 100_000.0) as usize;
    let runs = if first > 2.0 { 1 } else { 5 };
    let mean = |once: &mut dyn FnMut() -> f64| (0..calls).map(|_| once()).sum::<f64>() / calls as f64;
    (0..runs).map(|_| mean(&mut once)).fold(first, f64::min)
}

/// The lists of a text with the memory that reading it takes.
struct Read {
    text: Vec<u8>,
    cues: Vec<CueRow>,
    regions: Vec<RegionRow>,
    styles: Vec<StyleRow>,
}

impl Read {
    fn of(raw: &[u8]) -> Read {
        let mut values = [0; 8];
        let mut text = vec![0; 3 * raw.len()];
        assert_eq!(lent::convert(raw, &mut text, &mut values), 0);
        text.truncate(values[0] as usize);
        if lent::read(&text, &mut [], &mut [], &mut [], &mut values) == 0 {
            values = [0; 8];
        }
        let [cues, regions, styles, ..] = values.map(|count| count as usize);
        Read { text, cues: vec![[0; CUE_WORDS]; cues], regions: vec![[0; REGION_WORDS]; regions], styles: vec![[0; STYLE_WORDS]; styles] }
    }

    fn read(&mut self) -> u64 {
        lent::read(&self.text, &mut self.cues, &mut self.regions, &mut self.styles, &mut [0; 8])
    }
}

/// MB/s, with as many decimals as a slow call needs.
fn speed(bytes: usize, time: f64) -> String {
    let speed = bytes as f64 / time / 1e6;
    format!("{speed:.*}", if speed < 9.5 { 2 } else { 0 })
}

/// A time as a ratio to the scan's, with its speed.
fn cell(bytes: usize, scanned: f64, time: f64) -> String {
    format!("{:.1} ({})", time / scanned, speed(bytes, time))
}

/// One row of a table: the scan's speed, then its cells.
fn line(name: &str, bytes: usize, scanned: f64, cells: &[String]) {
    println!("| {name} | {} | {} |", speed(bytes, scanned), cells.join(" | "));
}

fn row(name: &str, bytes: usize, scanned: f64, times: &[f64]) {
    line(name, bytes, scanned, &times.iter().map(|&time| cell(bytes, scanned, time)).collect::<Vec<_>>());
}

fn heading(title: &str, columns: &[&str]) {
    println!("\n{title}: times the scan's time (MB/s)\n");
    println!("| | scan, MB/s | {} |", columns.join(" | "));
    println!("|---|---:|{}", "---:|".repeat(columns.len()));
}

/// What replacing the cue of a number by one like it answers, and its seconds.
fn replacing(raw: &[u8], number: usize) -> (u64, f64) {
    let text = b"Replaced.";
    let mut row = [0; NEW_CUE_WORDS];
    (row[2], row[3], row[5], row[14], row[15]) = (1000, 2000, text.len() as u64, 100_000_000, 1);
    let (mut scratch, mut out) = (vec![0; 3 * raw.len()], vec![0; raw.len() + 100]);
    let mut answer = 0;
    let time = seconds(|| answer = lent::replace(raw, number, &row, text, &mut scratch, &mut out, &mut [0; 8]));
    (answer, time)
}

fn episodes() {
    let columns = [
        "convert",
        "read",
        "convert and read",
        "in one call",
        "write",
        "replace first",
        "replace middle",
        "replace last",
        "trees of all cues",
    ];
    heading("Episodes", &columns);
    for (name, length, line_end) in [
        ("50 KB, LF", 50_000, "\n"),
        ("1 MB, LF", 1_000_000, "\n"),
        ("1 MB, CR LF", 1_000_000, "\r\n"),
        ("12 MB, LF", 12_000_000, "\n"),
        ("12 MB, CR LF", 12_000_000, "\r\n"),
    ] {
        episode(name, &samples::episode(length, line_end));
    }
}

fn episode(name: &str, raw: &[u8]) {
    let scanned = scanning(raw);
    let mut file = Read::of(raw);
    let mut room = vec![0; 3 * raw.len()];
    let convert = seconds(|| assert_eq!(lent::convert(raw, &mut room, &mut [0; 8]), 0));
    let read = seconds(|| assert_eq!(file.read(), 0));
    let both = seconds(|| {
        assert_eq!(lent::convert(raw, &mut room, &mut [0; 8]), 0);
        assert_eq!(file.read(), 0);
    });
    let one_call = seconds(|| {
        assert_eq!(lent::read_file(raw, &mut room, &mut file.cues, &mut file.regions, &mut file.styles, &mut [0; 8]), 0);
    });
    let mut out = vec![0; MAX_FILE];
    let write = seconds(|| assert_eq!(lent::write(&file.text, &file.styles, &file.regions, &file.cues, &mut out, &mut [0; 8]), 0));
    let last = file.cues.len() - 1;
    let replace = [0, last / 2, last].map(|number| match replacing(raw, number) {
        (0, time) => time,
        (answer, _) => panic!("replacing cue {number} is refused by {answer}"),
    });
    let mut nodes = vec![[0; NODE_WORDS]; 1000];
    let trees = seconds(|| {
        for cue in &file.cues {
            let text = &file.text[cue[4] as usize..cue[5] as usize];
            assert_eq!(lent::tree(text, &mut room, &mut nodes, &mut [0; 8]), 0);
        }
    });
    let texts: u64 = file.cues.iter().map(|cue| cue[5] - cue[4]).sum();
    let trees = trees * raw.len() as f64 / texts as f64;
    row(name, raw.len(), scanned, &[convert, read, both, one_call, write, replace[0], replace[1], replace[2], trees]);
}

fn worst() {
    heading("Worst cases of a file", &["convert", "read", "in one call", "replace the first cue"]);
    for (name, raw) in samples::worst() {
        let scanned = scanning(&raw);
        let mut room = vec![0; 3 * raw.len()];
        let convert = seconds(|| assert_eq!(lent::convert(&raw, &mut room, &mut [0; 8]), 0));
        let mut file = Read::of(&raw);
        let read = seconds(|| assert_eq!(file.read(), 0));
        let one_call = seconds(|| {
            assert_eq!(lent::read_file(&raw, &mut room, &mut file.cues, &mut file.regions, &mut file.styles, &mut [0; 8]), 0);
        });
        // A file without a cue is refused by 7, and one that would grow above the limit by 1, when all of it has been read.
        let (_, replace) = replacing(&raw, 0);
        row(name, raw.len(), scanned, &[convert, read, one_call, replace]);
    }
}

/// A room as long as the text makes `convert` go over the bytes twice, since it cannot know before that the text fits.
fn converting() {
    heading("Converting", &["room of three times the file", "room as long as the text", "is the text plain"]);
    for (name, raw) in samples::bytes() {
        let scanned = scanning(&raw);
        let text = Read::of(&raw).text;
        let mut room = vec![0; 3 * raw.len()];
        let convert = seconds(|| assert_eq!(lent::convert(&raw, &mut room, &mut [0; 8]), 0));
        let twice = seconds(|| assert_eq!(lent::convert(&raw, &mut room[..text.len()], &mut [0; 8]), 0));
        let plain = seconds(|| assert_eq!(lent::first_not_plain(&text, &mut [0; 8]), 0));
        row(name, raw.len(), scanned, &[convert, twice, plain * raw.len() as f64 / text.len() as f64]);
    }
}

fn worst_texts() {
    heading("Worst cases of a cue's text", &["tree"]);
    for (name, text) in samples::worst_texts() {
        let scanned = scanning(&text);
        let mut room = vec![0; text.len()];
        let mut nodes = vec![[0; NODE_WORDS]; text.len() / 2 + 2];
        let tree = seconds(|| assert_eq!(lent::tree(&text, &mut room, &mut nodes, &mut [0; 8]), 0));
        row(name, text.len(), scanned, &[tree]);
    }
}

/// A text that is no time or no timing line is read as far as a step fails.
fn worst_times() {
    heading("Worst cases of a time", &["time", "tag's time", "timing line"]);
    for (name, text) in samples::worst_times() {
        let calls: [fn(&[u8], &mut lent::Values) -> u64; 3] = [lent::time, lent::tag_time, lent::timing_line];
        let times = calls.map(|call| seconds(|| assert_eq!(call(black_box(&text), &mut [0; 8]), 0)));
        row(name, text.len(), scanning(&text), &times);
    }
}

/// Reading in one call, and writing what was read where it can be written.
fn regions(letters: &str) {
    heading("Cues that name regions", &["read, in one call", "seconds", "write", "seconds"]);
    for (letter, name, raw) in samples::named_regions() {
        if !letters.is_empty() && !letters.contains(letter) {
            continue;
        }
        let scanned = scanning(&raw);
        let mut file = Read::of(&raw);
        let mut room = vec![0; 3 * raw.len()];
        eprintln!("{letter}: reading {} bytes, {} regions and {} cues", raw.len(), file.regions.len(), file.cues.len());
        let read = seconds(|| {
            assert_eq!(lent::read_file(&raw, &mut room, &mut file.cues, &mut file.regions, &mut file.styles, &mut [0; 8]), 0);
        });
        eprintln!("{letter}: {read:.3} seconds; writing");
        let (mut out, mut refused) = (vec![0; MAX_FILE], 0);
        let write = seconds(|| refused = lent::write(&file.text, &file.styles, &file.regions, &file.cues, &mut out, &mut [0; 8]));
        let cells = |time: f64| [cell(raw.len(), scanned, time), format!("{time:.3}")];
        let written = if refused == 0 { cells(write) } else { [format!("refused by {refused}"), String::new()] };
        line(&format!("{letter}: {name}"), raw.len(), scanned, &[cells(read), written].concat());
    }
}

fn main() {
    let chosen: Vec<String> = std::env::args().skip(1).collect();
    let tables: [(&str, fn()); 5] =
        [("episodes", episodes), ("worst", worst), ("converting", converting), ("texts", worst_texts), ("times", worst_times)];
    let run = move || match chosen.split_first() {
        Some((word, letters)) if word == "regions" => regions(&letters.concat()),
        _ => {
            for (name, table) in tables {
                if chosen.is_empty() || chosen.iter().any(|word| word == name) {
                    table();
                }
            }
        }
    };
    // A very long cue text takes some 7 MB of stack.
    let thread = std::thread::Builder::new().stack_size(64 << 20).spawn(run);
    thread.and_then(|thread| thread.join().map_err(|_| std::io::Error::other("it was not measured"))).expect("a measurement");
}
