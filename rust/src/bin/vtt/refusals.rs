//! Refusals as a caption editor reads them: the file, document 01's number, and what to do about it.
use super::failure::Failure;
use super::list::time;
use super::raw_lines::line_and_column;
use spatzenherd::{File, List, NewCue, Refusal};

/// The lists of a file, or why it is refused.
pub fn accepted(name: &str, raw: &[u8]) -> Result<File, Failure> {
    File::read(raw).map_err(|refusal| of_reading(name, raw, &refusal))
}

/// A file that cannot be read.
pub fn of_reading(name: &str, raw: &[u8], refusal: &Refusal) -> Failure {
    let number = refusal.number();
    match refusal {
        Refusal::TooLong => Failure::refused(name, number, "the file is longer than 16,777,216 bytes, the most that is read"),
        Refusal::NoSignature => {
            let hint = match raw {
                [] => "; it is empty",
                [0xFF, 0xFE, ..] | [0xFE, 0xFF, ..] => "; it looks like UTF-16: save it as UTF-8",
                _ => "",
            };
            let sentence = format!("a WebVTT file begins with the word WEBVTT, alone on its line or with a space or tab after it{hint}");
            Failure::refused(format!("{name}:1"), number, sentence)
        }
        Refusal::OverLimit => {
            let place = line_over_limit(raw).map_or(name.to_string(), |line| format!("{name}:{line}"));
            Failure::refused(place, number, OVER_LIMIT)
        }
        _ => Failure::refused(name, number, refusal),
    }
}

const OVER_LIMIT: &str =
    "a number is above its limit: hours go up to 99,999, line numbers to 999,999 either way, a region's lines to 999,999";

/// The first line with which the file is refused by 5. The library refuses every longer start of the file too, so it is found by halving.
fn line_over_limit(raw: &[u8]) -> Option<u64> {
    let text = spatzenherd::convert(raw).ok()?;
    let ends: Vec<usize> = text.match_indices('\n').map(|(at, _)| at).chain([text.len()]).collect();
    let refused = |end: &usize| matches!(File::of_text(text[..*end].to_string()), Err(Refusal::OverLimit));
    let line = ends.partition_point(|end| !refused(end));
    (line < ends.len()).then_some(line as u64 + 1)
}

/// A cue's text that cannot be read into its tags.
pub fn of_tree(name: &str, line: u64, refusal: &Refusal) -> Failure {
    let sentence = match refusal {
        Refusal::OverLimit => "the hours of a timestamp in the cue's text are above 99,999".into(),
        _ => refusal.to_string(),
    };
    Failure::refused(format!("{name}:{line}"), refusal.number(), sentence)
}

/// Lists that cannot be written.
pub fn of_writing(name: &str, file: &File, refusal: &Refusal) -> Failure {
    match refusal {
        Refusal::NotWritable { list: List::Cues, index, test } => match file.cue(*index as usize) {
            Ok(cue) => {
                let reason = cue_reason(*test, cue.start, cue.end);
                Failure::refused(
                    format!("{name}:{}", cue.lines.first),
                    refusal.number(),
                    format!("cue {index} cannot be written: {reason}"),
                )
            }
            Err(_) => Failure::refused(name, refusal.number(), refusal),
        },
        Refusal::TooLong => Failure::refused(name, refusal.number(), LONG_OUTPUT),
        _ => Failure::refused(name, refusal.number(), refusal),
    }
}

const LONG_OUTPUT: &str = "the new file would be longer than 16,777,216 bytes, the most that is written";

/// Why a cue fails one of document 01's tests.
pub fn cue_reason(test: u64, start: u64, end: u64) -> String {
    match test {
        1 => "a part of it holds a CR, a NUL or a broken character".into(),
        2 => "its identifier has a line break or an arrow -->".into(),
        3 => "its text has an empty line or an arrow -->; an empty line ends a cue, and a line with an arrow begins one".into(),
        4 if end > start => format!("its time {} is above 99999:59:59.999", time(end)),
        4 => format!("its end, {}, is not after its start, {}", time(end), time(start)),
        5 => "its settings hold a number outside its range, or an alignment without the number it belongs to".into(),
        _ => "its region is not in the file".into(),
    }
}

/// A cue that cannot be replaced: the file with its lists as far as it could be read, the cue that was to be put in, and its number.
pub fn of_replacing(name: &str, file: &File, number: usize, new: &NewCue<'_>, refusal: &Refusal) -> Failure {
    let line = file.cue(number).map_or(0, |cue| cue.lines.first);
    let at = format!("{name}:{line}");
    match refusal {
        Refusal::NoSuchCue { .. } => no_such_cue(name, file, &format!("there is no cue {number}")),
        Refusal::NotWritable { test, .. } => {
            let sentence = match test {
                3 => format!("the new text cannot stand in a cue: {}", text_reason(new.text)),
                6 => format!("the file has no region \"{}\"; {}", new.region, regions(file)),
                _ => format!("the new cue cannot be written: {}", cue_reason(*test, new.start, new.end)),
            };
            Failure::refused(at, refusal.number(), sentence)
        }
        Refusal::NoGap => Failure::refused(
            name,
            refusal.number(),
            format!("the new identifier would become the last line of the text above it; put an empty line before line {line}"),
        ),
        Refusal::TooLong => Failure::refused(name, refusal.number(), LONG_OUTPUT),
        _ => Failure::refused(name, refusal.number(), refusal),
    }
}

/// A cue that is not there.
pub fn no_such_cue(name: &str, file: &File, what: &str) -> Failure {
    let count = file.cues().len();
    let has = match count {
        0 => "the file has no cue".into(),
        1 => "the file has one cue, number 0".into(),
        _ => format!("the file has {count} cues, numbered 0 to {}", count - 1),
    };
    Failure::refused(name, Refusal::NoSuchCue { count: count as u64 }.number(), format!("{what}; {has}"))
}

/// What in a text keeps it from being a cue's: where its first empty line or arrow is.
fn text_reason(text: &str) -> String {
    for (index, line) in text.split('\n').enumerate() {
        if line.is_empty() {
            return format!("its line {} is empty, and an empty line ends a cue", index + 1);
        }
        if line.contains("-->") {
            return format!("its line {} has an arrow -->, which begins a cue", index + 1);
        }
    }
    "it has an empty line or an arrow -->".into()
}

/// The regions that a file has, by name.
fn regions(file: &File) -> String {
    let names: Vec<&str> = file.regions().map(|region| region.identifier).filter(|name| !name.is_empty()).collect();
    match names.len() {
        0 => "it has none".into(),
        1..=8 => format!("it has {}", names.join(", ")),
        count => format!("it has {count}, the first of them {}", names[..8].join(", ")),
    }
}

/// A new text that is no plain text: where its first NUL or broken character is.
pub fn of_text(name: &str, bytes: &[u8]) -> Option<Failure> {
    let broken = std::str::from_utf8(bytes).map_or_else(|error| error.valid_up_to(), str::len);
    let place = bytes[..broken].iter().position(|byte| *byte == 0).unwrap_or(broken);
    let before = std::str::from_utf8(bytes.get(..place)?).ok()?;
    let what = match bytes.get(place)? {
        0 => "a NUL",
        _ => "a byte that is no UTF-8",
    };
    let before = before.replace("\r\n", "\n").replace('\r', "\n");
    let (line, column) = line_and_column(&before, before.len());
    let number = Refusal::NotPlain { place: place as u64 }.number();
    Some(Failure::refused(format!("{name}:{line}:{column}"), number, format!("the new text holds {what}, which a cue cannot have")))
}

#[cfg(test)]
mod tests {
    use super::*;

    #[test]
    fn the_line_of_a_number_above_its_limit_is_found() {
        let over = |raw: &str| line_over_limit(raw.as_bytes());
        assert_eq!(
            over("WEBVTT\n\n00:01.000 --> 00:02.000\na\n\nid\n100000:00:00.000 --> 100000:00:01.000\nb\n\n00:05.000 --> 00:06.000\n"),
            Some(7)
        );
        assert_eq!(over("WEBVTT\r\n\r\n00:01.000 --> 00:02.000 line:1000000"), Some(3));
        assert_eq!(over("WEBVTT\n\nREGION\nid:a\nlines:1000000\nwidth:50%\n\n"), Some(5));
        assert_eq!(over("WEBVTT\n"), None);
    }

    #[test]
    fn a_text_that_is_not_plain_is_told_where() {
        let told = |bytes: &[u8]| of_text("t", bytes).map(|failure| failure.message);
        assert_eq!(told("ä\nb".as_bytes()), None);
        assert_eq!(told(b""), None);
        assert!(told(b"a\rb\r\nc\xFFd").is_some_and(|message| message.starts_with("t:3:2: refused 3: ")));
        assert!(told(b"a\nbc\xFFd").is_some_and(|message| message.starts_with("t:2:3: refused 3: ")));
        assert!(told(b"a\0\xFF").is_some_and(|message| message.starts_with("t:1:2: refused 3: ") && message.contains("NUL")));
    }
}
