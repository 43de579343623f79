//! The command line: which command, on which files, with which options. Nothing here knows WebVTT; what stands in a value is looked at where
//! it is used.
use std::collections::HashMap;
use std::ffi::{OsStr, OsString};
use std::os::unix::ffi::{OsStrExt, OsStringExt};
use std::path::{Path, PathBuf};

/// What is asked for.
#[derive(Debug, PartialEq, Eq)]
pub enum Command {
    List { file: PathBuf, json: bool },
    Tree { file: PathBuf, cue: Which },
    Mend { file: PathBuf, cue: Which, changes: Changes, output: Output, quiet: bool },
    Rewrite { files: Vec<PathBuf>, output: Output, quiet: bool },
    Check { files: Vec<PathBuf>, strict: bool, all: bool, quiet: bool },
    Plain { file: PathBuf, output: Output },
    Help(Option<Name>),
    Version,
}

/// The commands by their names.
#[derive(Clone, Copy, Debug, PartialEq, Eq)]
pub enum Name {
    List,
    Tree,
    Mend,
    Rewrite,
    Check,
    Plain,
}

/// Which cue is meant.
#[derive(Clone, Debug, PartialEq, Eq)]
pub enum Which {
    /// Counted from 0.
    Number(u64),
    /// The one whose lines hold this line of the file, counted from 1.
    Line(u64),
    /// The only one with this identifier.
    Identifier(String),
}

/// What of a cue changes; `None` stays as it is.
#[derive(Debug, Default, PartialEq, Eq)]
pub struct Changes {
    pub start: Option<String>,
    pub end: Option<String>,
    pub identifier: Option<String>,
    pub text: Option<Text>,
    pub settings: Option<String>,
}

/// Where a new text comes from.
#[derive(Debug, PartialEq, Eq)]
pub enum Text {
    Given(String),
    File(PathBuf),
}

/// Where the result goes.
#[derive(Debug, PartialEq, Eq)]
pub enum Output {
    Standard,
    File(PathBuf),
    InPlace { backup: bool },
    Diff,
}

/// Why a command line is not understood: the command, where it is known, and a sentence.
#[derive(Debug, PartialEq, Eq)]
pub struct Misuse {
    pub command: Option<Name>,
    pub sentence: String,
}

const NAMES: [(&str, Name); 6] = [
    ("list", Name::List),
    ("tree", Name::Tree),
    ("mend", Name::Mend),
    ("rewrite", Name::Rewrite),
    ("check", Name::Check),
    ("plain", Name::Plain),
];

impl Name {
    pub fn word(self) -> &'static str {
        NAMES[self as usize].0
    }

    fn of(word: &OsStr) -> Option<Name> {
        NAMES.iter().find(|(name, _)| word == *name).map(|(_, name)| *name)
    }

    /// The options that stand alone, and those that take a value. Each takes `--help` and `--quiet` too.
    fn options(self) -> (&'static [&'static str], &'static [&'static str]) {
        match self {
            Name::List => (&["--json"], &[]),
            Name::Tree => (&[], &["--line", "--identifier"]),
            Name::Mend => (
                &["--in-place", "--diff", "--backup"],
                &["--line", "--identifier", "--start", "--end", "--id", "--text", "--text-file", "--settings", "--output"],
            ),
            Name::Rewrite => (&["--in-place", "--backup"], &["--output"]),
            Name::Check => (&["--strict", "--all"], &[]),
            Name::Plain => (&[], &["--output"]),
        }
    }
}

/// The words of a command line, sorted.
#[derive(Default)]
struct Sorted {
    plain: Vec<OsString>,
    flags: Vec<&'static str>,
    values: HashMap<&'static str, OsString>,
}

/// The command that these words, the program's own name left out, ask for.
pub fn parse(words: impl IntoIterator<Item = OsString>) -> Result<Command, Misuse> {
    let mut words = words.into_iter();
    let general = |sentence: String| Misuse { command: None, sentence };
    let Some(first) = words.next() else { return Err(general("a command is missing".into())) };
    match first.to_str() {
        Some("--help" | "-h") => return Ok(Command::Help(None)),
        Some("--version" | "-V") => return Ok(Command::Version),
        Some("help") => {
            return match words.next() {
                None => Ok(Command::Help(None)),
                Some(word) if word == "help" || word == "--help" => Ok(Command::Help(None)),
                Some(word) => Name::of(&word).map(|name| Command::Help(Some(name))).ok_or_else(|| general(unknown(&word))),
            }
        }
        _ => {}
    }
    let name = Name::of(&first).ok_or_else(|| general(unknown(&first)))?;
    let sorted = sort(name, words).map_err(|sentence| Misuse { command: Some(name), sentence })?;
    if sorted.flags.contains(&"--help") {
        return Ok(Command::Help(Some(name)));
    }
    command(name, sorted).map_err(|sentence| Misuse { command: Some(name), sentence })
}

fn unknown(word: &OsStr) -> String {
    format!("there is no command \"{}\"", word.to_string_lossy())
}

/// Puts options, their values and the other words apart. After `--` nothing is an option; `-` is a file.
fn sort(name: Name, mut words: impl Iterator<Item = OsString>) -> Result<Sorted, String> {
    let (flags, valued) = name.options();
    let mut sorted = Sorted::default();
    while let Some(word) = words.next() {
        if word == "--" {
            sorted.plain.extend(words);
            break;
        }
        if word == "-" || !word.as_bytes().starts_with(b"-") {
            sorted.plain.push(word);
            continue;
        }
        let (option, attached) = cut(&word);
        let option = match option.to_str() {
            Some("-q") => "--quiet",
            Some("-h") => "--help",
            Some("-o") => "--output",
            Some(option) => option,
            None => return Err(no_option(&word)),
        };
        let known = |among: &[&'static str]| among.iter().find(|known| **known == option).copied();
        if let Some(flag) = known(&["--quiet", "--help"]).or(known(flags)) {
            if attached.is_some() {
                return Err(format!("{flag} takes no value"));
            }
            sorted.flags.push(flag);
        } else if let Some(option) = known(valued) {
            let value = attached.or_else(|| words.next()).ok_or_else(|| format!("{option} needs a value after it"))?;
            if sorted.values.insert(option, value).is_some() {
                return Err(format!("{option} is given twice"));
            }
        } else {
            return Err(no_option(&word));
        }
    }
    Ok(sorted)
}

fn no_option(word: &OsStr) -> String {
    format!("there is no option \"{}\" here", word.to_string_lossy())
}

/// `--option=value` as option and value.
fn cut(word: &OsStr) -> (OsString, Option<OsString>) {
    let bytes = word.as_bytes();
    match bytes.iter().position(|byte| *byte == b'=') {
        Some(at) if bytes.starts_with(b"--") => {
            (OsString::from_vec(bytes[..at].to_vec()), Some(OsString::from_vec(bytes[at + 1..].to_vec())))
        }
        _ => (word.to_os_string(), None),
    }
}

fn command(name: Name, mut sorted: Sorted) -> Result<Command, String> {
    let quiet = sorted.flag("--quiet");
    match name {
        Name::List => Ok(Command::List { json: sorted.flag("--json"), file: sorted.file()? }),
        Name::Tree => {
            let (file, cue) = sorted.file_and_cue()?;
            Ok(Command::Tree { file, cue })
        }
        Name::Mend => {
            let (file, cue) = sorted.file_and_cue()?;
            let changes = sorted.changes()?;
            let output = sorted.output()?;
            no_input_in_place(&[&file], &output)?;
            if changes.text == Some(Text::File("-".into())) && is_standard(&file) {
                return Err("the file and its new text cannot both come from standard input".into());
            }
            Ok(Command::Mend { file, cue, changes, output, quiet })
        }
        Name::Rewrite => {
            let output = sorted.output()?;
            let files = match output {
                Output::InPlace { .. } => sorted.files()?,
                _ => vec![sorted.file()?],
            };
            no_input_in_place(&files.iter().collect::<Vec<_>>(), &output)?;
            Ok(Command::Rewrite { files, output, quiet })
        }
        Name::Check => Ok(Command::Check { strict: sorted.flag("--strict"), all: sorted.flag("--all"), files: sorted.files()?, quiet }),
        Name::Plain => {
            let output = sorted.output()?;
            Ok(Command::Plain { file: sorted.file()?, output })
        }
    }
}

/// A file by its name, which has at least one character.
fn named(word: OsString) -> Result<PathBuf, String> {
    match word.is_empty() {
        true => Err("the name of a file is empty".into()),
        false => Ok(word.into()),
    }
}

/// Is standard input meant, or standard output.
pub fn is_standard(file: &Path) -> bool {
    file.as_os_str() == "-"
}

fn no_input_in_place(files: &[&PathBuf], output: &Output) -> Result<(), String> {
    match output {
        Output::InPlace { .. } if files.iter().any(|file| is_standard(file)) => {
            Err("--in-place needs a named file, not standard input".into())
        }
        _ => Ok(()),
    }
}

impl Sorted {
    fn flag(&self, flag: &str) -> bool {
        self.flags.contains(&flag)
    }

    fn word(&mut self, option: &str) -> Result<Option<String>, String> {
        self.values.remove(option).map(|value| value.into_string().map_err(|_| format!("the value of {option} is not UTF-8"))).transpose()
    }

    fn number(&mut self, option: &str) -> Result<Option<u64>, String> {
        let word = self.word(option)?;
        word.map(|word| number(&word).ok_or_else(|| format!("{option} needs a number, not \"{word}\""))).transpose()
    }

    fn files(&mut self) -> Result<Vec<PathBuf>, String> {
        if self.plain.is_empty() {
            return Err("a file is missing; - is standard input".into());
        }
        let files = std::mem::take(&mut self.plain).into_iter().map(named).collect::<Result<Vec<PathBuf>, String>>()?;
        if files.iter().filter(|file| is_standard(file)).count() > 1 {
            return Err("standard input can be read once only".into());
        }
        Ok(files)
    }

    fn file(&mut self) -> Result<PathBuf, String> {
        let mut files = self.files()?;
        match files.len() {
            1 => Ok(files.remove(0)),
            _ => Err(format!("one file is taken here, and \"{}\" is one word too many", files[1].display())),
        }
    }

    fn file_and_cue(&mut self) -> Result<(PathBuf, Which), String> {
        let line = self.number("--line")?.map(Which::Line);
        let identifier = self.word("--identifier")?.map(Which::Identifier);
        if identifier == Some(Which::Identifier(String::new())) {
            return Err("--identifier needs an identifier; a cue without one is named by its number or a line".into());
        }
        if line.is_some() && identifier.is_some() {
            return Err("--line and --identifier cannot both be given".into());
        }
        let by_option = line.or(identifier);
        if self.plain.len() == 2 && by_option.is_some() {
            return Err("the cue is named twice: by a number, and by --line or --identifier".into());
        }
        if self.plain.len() == 1 && by_option.is_none() {
            return Err("the cue is missing: its number counted from 0, --line N or --identifier X".into());
        }
        let cue = match by_option {
            Some(cue) => cue,
            None if self.plain.len() < 2 => return Err("a file and a cue are missing".into()),
            None => {
                let word = self.plain.remove(1).to_string_lossy().into_owned();
                Which::Number(number(&word).ok_or_else(|| format!("\"{word}\" is not a cue's number; they are counted from 0"))?)
            }
        };
        Ok((self.file()?, cue))
    }

    fn changes(&mut self) -> Result<Changes, String> {
        let given = self.word("--text")?.map(Text::Given);
        let from_file = self.values.remove("--text-file").map(named).transpose()?.map(Text::File);
        if given.is_some() && from_file.is_some() {
            return Err("--text and --text-file cannot both be given".into());
        }
        let changes = Changes {
            start: self.word("--start")?,
            end: self.word("--end")?,
            identifier: self.word("--id")?,
            text: given.or(from_file),
            settings: self.word("--settings")?,
        };
        if changes == Changes::default() {
            return Err("nothing is to change: name --start, --end, --id, --text, --text-file or --settings".into());
        }
        Ok(changes)
    }

    fn output(&mut self) -> Result<Output, String> {
        let file = self.values.remove("--output").map(named).transpose()?;
        let (in_place, diff, backup) = (self.flag("--in-place"), self.flag("--diff"), self.flag("--backup"));
        if (file.is_some() as u8) + (in_place as u8) + (diff as u8) > 1 {
            return Err("-o, --in-place and --diff exclude one another".into());
        }
        if backup && !in_place {
            return Err("--backup goes with --in-place".into());
        }
        Ok(match file {
            _ if in_place => Output::InPlace { backup },
            _ if diff => Output::Diff,
            Some(file) if !is_standard(&file) => Output::File(file),
            _ => Output::Standard,
        })
    }
}

/// A number in digits; one too great for the machine is the greatest, which no list and no file has.
fn number(word: &str) -> Option<u64> {
    let digits = !word.is_empty() && word.bytes().all(|byte| byte.is_ascii_digit());
    digits.then(|| word.parse().unwrap_or(u64::MAX))
}

#[cfg(test)]
mod tests {
    use super::*;

    fn parsed(line: &[&str]) -> Result<Command, String> {
        parse(line.iter().map(OsString::from)).map_err(|misuse| misuse.sentence)
    }

    fn mend(cue: Which, changes: Changes, output: Output) -> Result<Command, String> {
        Ok(Command::Mend { file: "a.vtt".into(), cue, changes, output, quiet: false })
    }

    #[test]
    fn commands_are_found() {
        assert_eq!(parsed(&["list", "a.vtt"]), Ok(Command::List { file: "a.vtt".into(), json: false }));
        assert_eq!(parsed(&["list", "--json", "-"]), Ok(Command::List { file: "-".into(), json: true }));
        assert_eq!(parsed(&["tree", "a.vtt", "3"]), Ok(Command::Tree { file: "a.vtt".into(), cue: Which::Number(3) }));
        assert_eq!(parsed(&["plain", "a.vtt", "-o", "b"]), Ok(Command::Plain { file: "a.vtt".into(), output: Output::File("b".into()) }));
        assert_eq!(parsed(&["--version"]), Ok(Command::Version));
        assert_eq!(parsed(&["help"]), Ok(Command::Help(None)));
        assert_eq!(parsed(&["help", "mend"]), Ok(Command::Help(Some(Name::Mend))));
        assert_eq!(parsed(&["mend", "-h"]), Ok(Command::Help(Some(Name::Mend))));
        for (word, name) in NAMES {
            assert_eq!((name.word(), Name::of(OsStr::new(word))), (word, Some(name)));
        }
    }

    #[test]
    fn several_files_where_they_make_sense() {
        let files = vec![PathBuf::from("a"), "b".into()];
        assert_eq!(
            parsed(&["check", "a", "--strict", "b", "-q"]),
            Ok(Command::Check { files: files.clone(), strict: true, all: false, quiet: true })
        );
        assert_eq!(
            parsed(&["rewrite", "--in-place", "a", "b"]),
            Ok(Command::Rewrite { files, output: Output::InPlace { backup: false }, quiet: false })
        );
        assert!(parsed(&["rewrite", "a", "b"]).is_err());
        assert!(parsed(&["list", "a", "b"]).is_err());
        assert!(parsed(&["check", "-", "-"]).is_err());
        assert!(parsed(&["check"]).is_err());
    }

    #[test]
    fn a_value_may_begin_with_a_dash() {
        let changes = || Changes { text: Some(Text::Given("- Who is it?".into())), ..Changes::default() };
        assert_eq!(parsed(&["mend", "a.vtt", "0", "--text", "- Who is it?"]), mend(Which::Number(0), changes(), Output::Standard));
        assert_eq!(parsed(&["mend", "--text=- Who is it?", "a.vtt", "0"]), mend(Which::Number(0), changes(), Output::Standard));
        assert_eq!(parsed(&["list", "--", "-a.vtt"]), Ok(Command::List { file: "-a.vtt".into(), json: false }));
        let empty = Changes { identifier: Some(String::new()), ..Changes::default() };
        assert_eq!(parsed(&["mend", "a.vtt", "0", "--id="]), mend(Which::Number(0), empty, Output::Standard));
    }

    #[test]
    fn a_cue_is_named_once() {
        let changes = || Changes { start: Some("1000".into()), ..Changes::default() };
        assert_eq!(parsed(&["mend", "a.vtt", "--line", "210", "--start", "1000"]), mend(Which::Line(210), changes(), Output::Standard));
        assert_eq!(
            parsed(&["mend", "a.vtt", "--identifier", "x", "--start=1000", "--diff"]),
            mend(Which::Identifier("x".into()), changes(), Output::Diff)
        );
        assert_eq!(
            parsed(&["mend", "a.vtt", "99999999999999999999", "--start", "1000", "--in-place", "--backup"]),
            mend(Which::Number(u64::MAX), changes(), Output::InPlace { backup: true })
        );
        for line in [
            &["mend", "a.vtt", "--start", "1"][..],
            &["mend", "a.vtt", "0", "--line", "1", "--start", "1"],
            &["mend", "a.vtt", "--line", "1", "--identifier", "x", "--start", "1"],
            &["mend", "a.vtt", "-1", "--start", "1"],
            &["mend", "a.vtt", "x", "--start", "1"],
            &["mend", "a.vtt", "0", "1", "--start", "1"],
            &["mend", "a.vtt", "--line", "1x", "--start", "1"],
            &["mend", "a.vtt", "--identifier", "", "--start", "1"],
            &["mend", "--start", "1"],
            &["tree", "a.vtt"],
        ] {
            assert!(parsed(line).is_err(), "{line:?}");
        }
    }

    #[test]
    fn what_contradicts_is_refused() {
        for line in [
            &[][..],
            &["ls"],
            &["help", "ls"],
            &["list", "--jsno", "a"],
            &["list", "--json=1", "a"],
            &["list", "-j", "a"],
            &["mend", "a", "0"],
            &["mend", "a", "0", "--start"],
            &["mend", "a", "0", "--start", "1", "--start", "2"],
            &["mend", "a", "0", "--text", "x", "--text-file", "y"],
            &["mend", "a", "0", "--start", "1", "-o", "b", "--diff"],
            &["mend", "a", "0", "--start", "1", "--in-place", "--diff"],
            &["mend", "a", "0", "--start", "1", "--backup"],
            &["mend", "-", "0", "--start", "1", "--in-place"],
            &["mend", "-", "0", "--text-file", "-"],
            &["rewrite", "--in-place", "a", "-"],
            &["list", ""],
            &["check", "a", ""],
            &["plain", "a", "-o", ""],
            &["mend", "a", "0", "--text-file", ""],
        ] {
            assert!(parsed(line).is_err(), "{line:?}");
        }
    }

    #[test]
    fn names_of_files_are_any_bytes() {
        let name = OsString::from_vec(b"\xff.vtt".to_vec());
        let words = [OsString::from("list"), name.clone()];
        assert_eq!(parse(words), Ok(Command::List { file: name.clone().into(), json: false }));
        let text = [OsString::from("mend"), "a".into(), "0".into(), "--text".into(), name.clone()];
        assert!(parse(text).is_err());
        assert!(parse([OsString::from("list"), OsString::from_vec(b"--\xff".to_vec())]).is_err());
        assert!(parse([name]).is_err());
    }
}
