//! `vtt mend`: one cue replaced. What is not named stays as the cue has it; every other byte of the file stays as it is.
use super::arguments::{Changes, Output, Text, Which};
use super::failure::{Failure, DONE};
use super::raw_lines::own_bytes;
use super::{diff, files, probes, refusals, screen};
use spatzenherd::{Area, Cue, File, LineSpan, NewCue, Refusal, Region, Settings};
use std::cmp::Ordering;
use std::path::Path;

pub fn run(path: &Path, which: &Which, changes: &Changes, output: &Output, quiet: bool) -> Result<u8, Failure> {
    let name = files::name(path);
    let given = Given::of(changes)?;
    let raw = files::read(path)?;
    let file = refusals::accepted(&name, &raw)?;
    let number = find(&name, &file, which)?;
    let old = file.cue(number).map_err(|_| refusals::no_such_cue(&name, &file, &format!("there is no cue {number}")))?;
    let new = given.over(&file, &old);
    let bytes = spatzenherd::replace(&raw, number, &new).map_err(|refusal| refusals::of_replacing(&name, &file, number, &new, &refusal))?;
    let own = &raw[own_bytes(&raw, old.lines)];
    let kept = [given.text.is_none().then_some(old.text), given.identifier.is_none().then_some(old.identifier)];
    let exchanged = kept.iter().flatten().any(|part| part.contains(char::REPLACEMENT_CHARACTER));
    if exchanged && (own.contains(&0) || std::str::from_utf8(own).is_err()) {
        screen::tell(&format!("{name}:{}: note: the cue holds NUL or broken bytes; the new cue has U+FFFD for them", old.lines.first));
    }
    match output {
        Output::Diff => files::print(&diff::unified(&name, &raw, &bytes)),
        Output::InPlace { backup } => {
            let kept = files::replace(path, &raw, &bytes, *backup, |found| replaced(&raw, &file, found, number, &new))?;
            if !quiet {
                let lines = File::read(&bytes).ok().and_then(|file| file.cue(number).map(|cue| lines(cue.lines)).ok()).unwrap_or_default();
                screen::tell(&format!("{name}: cue {number} is replaced, now {lines}{}", files::kept_words(&kept)));
            }
            Ok(DONE)
        }
        _ => files::put_out(output, &bytes),
    }
}

fn lines(span: LineSpan) -> String {
    match span.count {
        1 => format!("line {}", span.first),
        _ => format!("lines {} to {}", span.first, span.first + span.count - 1),
    }
}

/// The number of the cue that is meant.
pub fn find(name: &str, file: &File, which: &Which) -> Result<usize, Failure> {
    match which {
        Which::Number(number) => {
            let there = usize::try_from(*number).ok().filter(|number| file.cue(*number).is_ok());
            there.ok_or_else(|| {
                refusals::no_such_cue(name, file, &about(*number, "there is no cue", "there is no cue with so great a number"))
            })
        }
        Which::Line(line) => {
            let holds = |cue: &Cue<&str>| (cue.lines.first..cue.lines.first + cue.lines.count).contains(line);
            file.cues().position(|cue| holds(&cue)).ok_or_else(|| {
                let near = file.cues().enumerate().min_by_key(|(_, cue)| distance(cue.lines, *line));
                let hint = near.map_or(String::new(), |(number, cue)| format!(", the nearest is cue {number} ({})", lines(cue.lines)));
                refusals::no_such_cue(name, file, &(about(*line, "no cue has line", "no cue has a line with so great a number") + &hint))
            })
        }
        Which::Identifier(identifier) => {
            let found: Vec<usize> =
                file.cues().enumerate().filter(|(_, cue)| cue.identifier == identifier).map(|(number, _)| number).collect();
            match found[..] {
                [number] => Ok(number),
                [] => Err(refusals::no_such_cue(name, file, &format!("no cue has the identifier \"{identifier}\""))),
                [first, second, ..] => {
                    let sentence = format!("{} cues have the identifier \"{identifier}\", {first} and {second} first", found.len());
                    Err(refusals::no_such_cue(name, file, &sentence))
                }
            }
        }
    }
}

/// A sentence about a number of the command line. One too great for the machine was cut there, and is not told.
fn about(number: u64, of_it: &str, of_a_great_one: &str) -> String {
    match number {
        u64::MAX => of_a_great_one.into(),
        _ => format!("{of_it} {number}"),
    }
}

fn distance(lines: LineSpan, line: u64) -> u64 {
    lines.first.saturating_sub(line).max(line.saturating_sub(lines.first + lines.count - 1))
}

/// What is given of a new cue, read; `None` stays as the old cue has it.
struct Given {
    start: Option<u64>,
    end: Option<u64>,
    identifier: Option<String>,
    text: Option<String>,
    /// With the region's name, empty for none.
    settings: Option<(Settings, String)>,
}

impl Given {
    fn of(changes: &Changes) -> Result<Given, Failure> {
        let time = |option: &str, value: &Option<String>| {
            let read = |value: &String| probes::time(value).map_err(|reason| Failure::misused(format!("{option}: {reason}")));
            value.as_ref().map(read).transpose()
        };
        let settings = |value: &String| probes::settings(value).map_err(|reason| Failure::misused(format!("--settings: {reason}")));
        let text = match &changes.text {
            None => None,
            Some(Text::Given(text)) => Some(plain("--text", text.as_bytes())?),
            Some(Text::File(file)) => Some(without_last_end(plain(&files::name(file), &files::read(file)?)?)),
        };
        Ok(Given {
            start: time("--start", &changes.start)?,
            end: time("--end", &changes.end)?,
            identifier: changes.identifier.clone(),
            text,
            settings: changes.settings.as_ref().map(settings).transpose()?,
        })
    }

    /// The new cue: what is given, over what the old one has.
    fn over<'a>(&'a self, file: &'a File, old: &Cue<&'a str>) -> NewCue<'a> {
        let name = |index: usize| file.regions().nth(index).map_or("", |region| region.identifier);
        let (settings, region) = match &self.settings {
            Some((settings, region)) => (*settings, region.as_str()),
            None => (old.settings, old.region.map_or("", name)),
        };
        NewCue {
            identifier: self.identifier.as_deref().unwrap_or(old.identifier),
            start: self.start.unwrap_or(old.start),
            end: self.end.unwrap_or(old.end),
            text: self.text.as_deref().unwrap_or(old.text),
            settings,
            region,
        }
    }
}

/// A new text with its line ends made LF. One with NUL or broken characters is refused by 3: nothing that was written is exchanged in silence.
fn plain(name: &str, bytes: &[u8]) -> Result<String, Failure> {
    match refusals::of_text(name, bytes) {
        Some(failure) => Err(failure),
        None => spatzenherd::convert(bytes).map_err(|refusal| Failure::refused(name, refusal.number(), "the new text is too long")),
    }
}

/// An editor ends a file's last line; the cue's text has no line end there.
fn without_last_end(mut text: String) -> String {
    if text.ends_with('\n') {
        text.pop();
    }
    text
}

/// Do two files have the same lists; where a cue stands in its file may differ.
pub fn same_lists(one: &File, other: &File) -> bool {
    fn unplaced(cue: Cue<&str>) -> Cue<&str> {
        Cue { lines: LineSpan::default(), ..cue }
    }
    one.styles().eq(other.styles()) && one.regions().eq(other.regions()) && one.cues().map(unplaced).eq(other.cues().map(unplaced))
}

/// Is the new file what demand 3 says: the old bytes around the cue's own, and the old lists with that one cue replaced.
fn replaced(raw: &[u8], old: &File, new_raw: &[u8], number: usize, cue: &NewCue<'_>) -> Result<(), String> {
    let new = File::read(new_raw).map_err(|refusal| refusal.to_string())?;
    let span = |file: &File| file.cue(number).map(|cue| cue.lines).map_err(|refusal| refusal.to_string());
    let (from, to) = (span(old)?, span(&new)?);
    let (own, new_own) = (own_bytes(raw, from), own_bytes(new_raw, to));
    if raw[..own.start] != new_raw[..new_own.start] || raw[own.end..] != new_raw[new_own.end..] {
        return Err("bytes outside the cue differ".into());
    }
    if written(cue).map_err(|refusal| refusal.to_string())? != new_raw[new_own] {
        return Err("the cue's own bytes are not its written form".into());
    }
    let NewCue { identifier, start, end, text, settings, region } = *cue;
    let region = (!region.is_empty()).then(|| old.find_region(region).index).flatten();
    let asked_for = Cue { identifier, start, end, text, settings, region, lines: to };
    let moved = |lines: LineSpan| LineSpan { first: lines.first + to.count - from.count, ..lines };
    let wanted = old.cues().enumerate().map(|(index, cue)| match index.cmp(&number) {
        Ordering::Less => cue,
        Ordering::Equal => asked_for,
        Ordering::Greater => Cue { lines: moved(cue.lines), ..cue },
    });
    if from.first != to.first || !wanted.eq(new.cues()) || !old.styles().eq(new.styles()) || !old.regions().eq(new.regions()) {
        return Err("it does not read as the old one with that cue replaced".into());
    }
    Ok(())
}

/// The written form of a cue, without its last LF: what writing it alone adds to a file that has its region.
fn written(cue: &NewCue<'_>) -> Result<Vec<u8>, Refusal> {
    let NewCue { identifier, start, end, text, settings, region } = *cue;
    let regions = [Region { identifier: region, area: Area::default() }];
    let region = (!region.is_empty()).then_some(0);
    let regions = &regions[..region.map_or(0, |_| 1)];
    let before = spatzenherd::write(&[], regions, &[])?;
    let mut file = spatzenherd::write(&[], regions, &[Cue { identifier, start, end, text, settings, region, lines: LineSpan::default() }])?;
    file.pop();
    Ok(file.split_off(before.len() + 1))
}

#[cfg(test)]
mod tests {
    use super::*;

    const OLD: &[u8] =
        b"WEBVTT\r\n\r\nNOTE \xFF\r\n\r\na\r\n00:01.000 --> 00:02.000\r\nOne.\r\nTwo.\r\n\r\n00:03.000 --> 00:04.000\r\nThree.";

    #[test]
    fn a_new_file_is_held_to_demand_3() {
        let file = File::read(OLD).expect("it is accepted");
        let cue = NewCue { identifier: "a", start: 1000, end: 2500, text: "One.", ..NewCue::default() };
        let new = spatzenherd::replace(OLD, 0, &cue).expect("it is accepted");
        let held = |new: &[u8], number| replaced(OLD, &file, new, number, &cue);
        assert_eq!(held(&new, 0), Ok(()));
        assert!(held(OLD, 0).is_err(), "the old file handed back");
        assert!(held(&new, 1).is_err(), "another cue");
        assert!(held(b"", 0).is_err() && held(b"WEBVTT\n", 0).is_err(), "no cue at all");
        for (place, byte) in new.iter().enumerate() {
            let mut other = new.clone();
            other[place] = if *byte == b'x' { b'y' } else { b'x' };
            assert!(held(&other, 0).is_err(), "byte {place} is another");
            other.remove(place);
            assert!(held(&other, 0).is_err(), "byte {place} is missing");
        }
    }

    #[test]
    fn a_cue_is_found_by_its_lines() {
        let file = File::read(OLD).expect("it is accepted");
        let found = |line| find("f", &file, &Which::Line(line)).map_err(|failure| failure.message);
        assert_eq!([5, 6, 7, 8].map(|line| found(line).ok()), [Some(0); 4]);
        assert_eq!([10, 11].map(|line| found(line).ok()), [Some(1); 2]);
        for line in [0, 1, 4, 9, 12, u64::MAX] {
            assert!(found(line).is_err_and(|message| message.contains("the nearest is cue")), "{line}");
        }
    }
}
