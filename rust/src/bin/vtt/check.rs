//! `vtt check`: is a file accepted, which of its cues could not be written, and where players differ on it.
use super::failure::{Failure, DONE, REFUSED};
use super::screen::{self, harmless, painted, Colour};
use super::{files, refusals, warnings};
use spatzenherd::{Cue, Refusal, Region};
use std::path::PathBuf;

/// What was found in all files.
#[derive(Default)]
struct Sums {
    accepted: usize,
    refused: usize,
    unread: usize,
    unwritable: u64,
    warnings: u64,
}

pub fn run(all: &[PathBuf], strict: bool, every: bool, quiet: bool) -> Result<u8, Failure> {
    let mut sums = Sums::default();
    let mut worst = DONE;
    for path in all {
        let name = files::name(path);
        match files::read(path) {
            Ok(raw) => {
                let lines = one(&name, &raw, every, quiet, &mut sums);
                files::print(on_screen(lines).as_bytes())?;
            }
            Err(failure) => {
                failure.tell();
                sums.unread += 1;
                worst = worst.max(failure.status);
            }
        }
    }
    if sums.refused > 0 || strict && sums.unwritable + sums.warnings > 0 {
        worst = worst.max(REFUSED);
    }
    if all.len() > 1 && !quiet {
        files::print(on_screen(sums.line(all.len())).as_bytes())?;
    }
    Ok(worst)
}

fn on_screen(lines: String) -> String {
    if !screen::is_terminal() {
        return lines;
    }
    let mut lines = harmless(&lines).into_owned();
    for word in ["warning", "no cue here"] {
        lines = lines.replace(&format!(": {word}: "), &format!(": {}: ", painted(Colour::Yellow, word)));
    }
    lines.replace(": refused ", &format!(": {} ", painted(Colour::Red, "refused")))
}

impl Sums {
    fn line(&self, files: usize) -> String {
        let unread = if self.unread > 0 { format!(", {} not read", self.unread) } else { String::new() };
        format!(
            "{files} files: {} accepted, {} refused{unread}; {}, {}\n",
            self.accepted,
            self.refused,
            counted(self.unwritable, "cue that cannot be written", "cues that cannot be written"),
            counted(self.warnings, "warning", "warnings")
        )
    }
}

fn counted(count: u64, one: &str, many: &str) -> String {
    format!("{count} {}", if count == 1 { one } else { many })
}

/// The lines of one file.
fn one(name: &str, raw: &[u8], every: bool, quiet: bool, sums: &mut Sums) -> String {
    let file = match refusals::accepted(name, raw) {
        Ok(file) => file,
        Err(failure) => {
            sums.refused += 1;
            return format!("{}\n", failure.message);
        }
    };
    let regions: Vec<Region<&str>> = file.regions().collect();
    let unwritable: Vec<String> = file.cues().enumerate().filter_map(|(number, cue)| unwritable(&regions, number, &cue)).collect();
    let warnings = warnings::of(raw, &file, every);
    sums.accepted += 1;
    sums.unwritable += unwritable.len() as u64;
    sums.warnings += warnings.count();
    let mut lines = String::new();
    if !quiet {
        let counts = [
            counted(file.cues().len() as u64, "cue", "cues"),
            counted(file.regions().len() as u64, "region", "regions"),
            counted(file.styles().len() as u64, "style", "styles"),
        ];
        lines = format!("{name}: accepted: {}; {}\n", counts.join(", "), counted(warnings.count(), "warning", "warnings"));
    }
    for sentence in unwritable {
        lines.push_str(&format!("{name}:{sentence}\n"));
    }
    for warning in &warnings.kept {
        let column = warning.column.map_or(String::new(), |column| format!(":{column}"));
        let (standard, seen) = warning.kind.words();
        let (line, label, what) = (warning.line, warning.kind.label(), &warning.what);
        let next = if screen::is_terminal() { "\n    " } else { "; " };
        lines.push_str(&format!("{name}:{line}{column}: {label}{what}{next}the standard: {standard}{next}seen: {seen}\n"));
    }
    for (kind, count) in warnings.left_out() {
        lines.push_str(&format!("{name}: warning: {kind}: {count} more of these; --all prints them\n"));
    }
    lines
}

/// Why a cue could not be written, after its line. A read cue's region is the last of its name, so beside that region alone it is judged as in the
/// whole file.
fn unwritable(regions: &[Region<&str>], number: usize, cue: &Cue<&str>) -> Option<String> {
    let its_region = cue.region.map_or(&regions[..0], |index| &regions[index..=index]);
    let alone = Cue { region: cue.region.map(|_| 0), ..*cue };
    let reason = match spatzenherd::write(&[], its_region, &[alone]) {
        Ok(_) => return None,
        Err(Refusal::NotWritable { test, .. }) => refusals::cue_reason(test, cue.start, cue.end),
        Err(refusal) => refusal.to_string(),
    };
    Some(format!("{}: cue {number} cannot be written: {reason}", cue.lines.first))
}
