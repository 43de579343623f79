//! A unified diff of two files that differ in one place, as `diff -u` prints it and `patch` takes it: lines end at LF, whatever else is in them.
use super::screen::{self, harmless, painted, Colour};

/// How many lines are shown before and after those that differ.
const AROUND: usize = 3;

/// The diff; nothing where the files are the same.
pub fn unified(name: &str, old: &[u8], new: &[u8]) -> Vec<u8> {
    let (old_lines, new_lines): (Vec<&[u8]>, Vec<&[u8]>) = (lines(old), lines(new));
    let before = old_lines.iter().zip(&new_lines).take_while(|(one, other)| one == other).count();
    let (old_rest, new_rest) = (&old_lines[before..], &new_lines[before..]);
    let after = old_rest.iter().rev().zip(new_rest.iter().rev()).take_while(|(one, other)| one == other).count();
    let (removed, added) = (&old_rest[..old_rest.len() - after], &new_rest[..new_rest.len() - after]);
    if removed.is_empty() && added.is_empty() {
        return vec![];
    }
    let above = &old_lines[before.saturating_sub(AROUND)..before];
    let below = &old_rest[removed.len()..][..after.min(AROUND)];
    let head = format!(
        "@@ -{} +{} @@\n",
        range(before - above.len(), above.len() + removed.len() + below.len()),
        range(before - above.len(), above.len() + added.len() + below.len())
    );
    let mut out = Shown { bytes: vec![], terminal: screen::is_terminal() };
    // As `diff` does, a tab ends a name that has a space, so that `patch` finds it.
    let end = if name.contains(' ') && !screen::is_terminal() { "\t" } else { "" };
    out.put(None, format!("--- {name}{end}\n").as_bytes());
    out.put(None, format!("+++ {name}{end}\n").as_bytes());
    out.put(Some(Colour::Cyan), head.as_bytes());
    out.all(None, b" ", above);
    for change in changes(removed, added) {
        match change {
            Change::Removed(line) => out.all(Some(Colour::Red), b"-", &[line]),
            Change::Added(line) => out.all(Some(Colour::Green), b"+", &[line]),
            Change::Kept(line) => out.all(None, b" ", &[line]),
        }
    }
    out.all(None, b" ", below);
    out.bytes
}

/// What becomes of a line.
enum Change<'a> {
    Removed(&'a [u8]),
    Added(&'a [u8]),
    Kept(&'a [u8]),
}

/// Lines made others, with as many kept as can be; where there are very many, none is.
fn changes<'a>(old: &[&'a [u8]], new: &[&'a [u8]]) -> Vec<Change<'a>> {
    const MOST: usize = 1_000_000;
    let width = new.len() + 1;
    // At (i, j): how many lines can be kept of those from i and from j on.
    let mut kept = vec![0u32; if old.len().saturating_mul(width) > MOST { 0 } else { (old.len() + 1) * width }];
    if !kept.is_empty() {
        for i in (0..old.len()).rev() {
            for j in (0..new.len()).rev() {
                let here = kept[(i + 1) * width + j + 1] + 1;
                kept[i * width + j] = if old[i] == new[j] { here } else { kept[(i + 1) * width + j].max(kept[i * width + j + 1]) };
            }
        }
    }
    let at = |i: usize, j: usize| kept.get(i * width + j).copied().unwrap_or(0);
    let (mut i, mut j, mut changes) = (0, 0, vec![]);
    while i < old.len() || j < new.len() {
        if i < old.len() && j < new.len() && at(i, j) > 0 && old[i] == new[j] {
            changes.push(Change::Kept(old[i]));
            (i, j) = (i + 1, j + 1);
        } else if i < old.len() && (j == new.len() || at(i + 1, j) >= at(i, j + 1)) {
            changes.push(Change::Removed(old[i]));
            i += 1;
        } else {
            changes.push(Change::Added(new[j]));
            j += 1;
        }
    }
    changes
}

/// Lines with their LF; the last may have none.
fn lines(bytes: &[u8]) -> Vec<&[u8]> {
    bytes.split_inclusive(|byte| *byte == b'\n').collect()
}

/// A range of lines as a hunk's head has it: its first line from 1, and its count where that is not 1.
fn range(before: usize, count: usize) -> String {
    match count {
        0 => format!("{before},0"),
        1 => format!("{}", before + 1),
        _ => format!("{},{count}", before + 1),
    }
}

struct Shown {
    bytes: Vec<u8>,
    terminal: bool,
}

impl Shown {
    fn all(&mut self, colour: Option<Colour>, mark: &[u8], lines: &[&[u8]]) {
        for line in lines {
            self.put(colour, &[mark, line].concat());
            if !line.ends_with(b"\n") {
                self.bytes.extend_from_slice(b"\n\\ No newline at end of file\n");
            }
        }
    }

    /// To a terminal in colour and with its control characters shown; to a pipe as it is.
    fn put(&mut self, colour: Option<Colour>, line: &[u8]) {
        if !self.terminal {
            return self.bytes.extend_from_slice(line);
        }
        let end = line.ends_with(b"\n");
        let text = String::from_utf8_lossy(&line[..line.len() - end as usize]);
        let shown = harmless(&text);
        let shown = colour.map_or(shown.to_string(), |colour| painted(colour, &shown));
        self.bytes.extend_from_slice(shown.as_bytes());
        self.bytes.extend_from_slice(if end { b"\n" } else { b"" });
    }
}
