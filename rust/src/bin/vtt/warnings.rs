//! Where players differ: what a file holds that the standard reads one way and common players another, or that has no effect at all. Which player
//! and version each was seen in is in `docs/PLAYERS.md`. What is read is asked of the library; here is only where to look.
use super::list::{field, time};
use super::probes::{self, Effect, Setting, Tag};
use super::raw_lines::raw_lines;
use spatzenherd::{Cue, Failed, File, NoTime, TimeFault};
use std::collections::{HashMap, HashSet};

/// What is warned of.
#[derive(Clone, Copy, Debug, PartialEq, Eq, PartialOrd, Ord)]
pub enum Kind {
    BrokenUtf8,
    Nul,
    CrAlone,
    TimingLine,
    LineAbove,
    LateBlock,
    NoEmptyLine,
    IdentifierKeyword,
    ArrowWithoutSpace,
    FormFeed,
    EndNotAfterStart,
    SettingNoEffect,
    RegionUnknown,
    RegionCancelled,
    TagUnknown,
    TagOpen,
    TimestampLimit,
    EscapeNotRead,
}

/// Each kind's name, what the standard says, and what was seen. In the order of the kinds.
const KINDS: [(&str, &str, &str); 18] = [
    ("broken-utf8", "each broken run is shown as U+FFFD", "FFmpeg drops the cue; webvtt-py refuses the file"),
    ("nul", "it is shown as U+FFFD", "in libavformat, GStreamer and VLC the text or the file ends there"),
    ("cr-alone", "it ends a line", "libavformat loses the first cue; GStreamer and VLC find none"),
    (
        "timing-line",
        "no cue begins here, and the lines of its block are passed over",
        "Chromium and VLC lose this cue, libavformat all later ones too; webvtt-py reads it where only a comma is wrong",
    ),
    (
        "line-above",
        "a cue without identifier begins here",
        "before the first cue, Chromium may take the line above for its identifier; libavformat may lose the cue",
    ),
    ("late-block", "it is passed over", "Chromium passes it over too; libavformat loses all cues after it"),
    ("no-empty-line", "a cue begins here", "libavformat, GStreamer and VLC take it for text of the cue above"),
    (
        "identifier-keyword",
        "it is an identifier like any other",
        "before the first cue, Chromium takes it for a block's first line and loses it",
    ),
    ("arrow-without-space", "it is a timing line", "VLC finds no cue here"),
    ("form-feed", "it is whitespace", "Chromium loses the settings that touch it"),
    ("end-not-after-start", "the cue is read, and never shown", "FFmpeg shows a cue that ends before its start until the next one"),
    ("setting-no-effect", "it changes nothing", "Chromium ignores it too"),
    ("region-unknown", "the cue has no region", "Chromium gives it none either"),
    ("region-cancelled", "the cue has no region", "Firefox, WebKit and Chromium with regions keep it: the caption stands elsewhere"),
    ("tag-unknown", "it is left out, and the text in it stays", "Chromium and FFmpeg do the same"),
    ("tag-open", "all from < to the cue's end is a tag and not shown", "Chromium does the same"),
    ("timestamp-limit", "it is a timestamp; here the cue's text is refused by 5", "Chromium reads it"),
    (
        "escape-not-read",
        "HTML's escapes are read; here only &amp; &lt; &gt; &lrm; &rlm; &nbsp; are",
        "Chromium shows the character, FFmpeg what is written",
    ),
];

impl Kind {
    pub fn name(self) -> &'static str {
        KINDS[self as usize].0
    }

    /// What stands before the sentence of a warning. A block that gives no cue is told as just that.
    pub fn label(self) -> String {
        match self {
            Kind::TimingLine => "no cue here: ".into(),
            kind => format!("warning: {}: ", kind.name()),
        }
    }

    /// What the standard says, and what was seen.
    pub fn words(self) -> (&'static str, &'static str) {
        (KINDS[self as usize].1, KINDS[self as usize].2)
    }
}

/// One warning: where, of what kind, and what stands there.
#[derive(Clone, Debug, PartialEq, Eq)]
pub struct Warning {
    pub line: u64,
    pub column: Option<u64>,
    pub kind: Kind,
    pub what: String,
}

/// How many warnings of one kind are kept of one file, unless all are asked for.
pub const SHOWN: u64 = 20;

/// The warnings of a file, and how many there are of each kind, those that are not kept too.
#[derive(Debug, Default)]
pub struct Warnings {
    all: bool,
    pub kept: Vec<Warning>,
    counts: [u64; KINDS.len()],
}

impl Warnings {
    fn add(&mut self, kind: Kind, line: u64, column: Option<u64>, what: impl FnOnce() -> String) {
        let count = &mut self.counts[kind as usize];
        *count += 1;
        if self.all || *count <= SHOWN {
            self.kept.push(Warning { line, column, kind, what: what() });
        }
    }

    pub fn count(&self) -> u64 {
        self.counts.iter().sum()
    }

    /// The kinds of which some are not kept, with how many those are.
    pub fn left_out(&self) -> impl Iterator<Item = (&'static str, u64)> + '_ {
        let more = |count: u64| if self.all { 0 } else { count.saturating_sub(SHOWN) };
        KINDS.iter().zip(self.counts).map(move |(kind, count)| (kind.0, more(count))).filter(|(_, more)| *more > 0)
    }
}

/// A place that goes on through a text, with its line and its column in characters.
struct Place<'a> {
    text: &'a str,
    at: usize,
    line: u64,
    column: u64,
}

impl<'a> Place<'a> {
    fn of(text: &'a str, line: u64) -> Self {
        Place { text, at: 0, line, column: 1 }
    }

    /// Goes on to a later place.
    fn to(&mut self, at: usize) -> (u64, Option<u64>) {
        for c in self.text[self.at..at].chars() {
            (self.line, self.column) = if c == '\n' { (self.line + 1, 1) } else { (self.line, self.column + 1) };
        }
        self.at = at;
        (self.line, Some(self.column))
    }
}

/// A piece of a file in a sentence: on one line, and not too long.
fn shown(piece: &str) -> String {
    const MOST: usize = 40;
    match piece.char_indices().nth(MOST) {
        Some((end, _)) => format!("\"{}...\"", field(&piece[..end])),
        None => format!("\"{}\"", field(piece)),
    }
}

/// All that is warned of in a file that was read from these bytes.
pub fn of(raw: &[u8], file: &File, all: bool) -> Warnings {
    let mut search = Search {
        file,
        lines: file.plain_text().split('\n').collect(),
        regions: file.regions().map(|region| region.identifier).collect(),
        effects: HashMap::new(),
        tags: HashMap::new(),
        warnings: Warnings { all, ..Warnings::default() },
    };
    search.bytes(raw);
    for (number, line, failed) in failed_timing_lines(file) {
        let (number, column) = Place::of(line, number).to(failed.place);
        search.warnings.add(Kind::TimingLine, number, column, || reason(line, failed));
    }
    let mut after_last = 0;
    for cue in file.cues() {
        search.above(&cue, after_last == cue.lines.first);
        search.cue(&cue);
        after_last = cue.lines.first + cue.lines.count;
    }
    search.late_blocks();
    let mut warnings = search.warnings;
    warnings.kept.sort_by_key(|warning| (warning.line, warning.column, warning.kind));
    warnings
}

struct Search<'a> {
    file: &'a File,
    /// The lines of the plain text; line n of the file is at n - 1.
    lines: Vec<&'a str>,
    regions: HashSet<&'a str>,
    /// What was asked before, for pieces that are not too long to be kept.
    effects: HashMap<&'a str, Effect>,
    tags: HashMap<&'a str, Tag>,
    warnings: Warnings,
}

/// The timing line's number: the cue's first line, or the one after its identifier.
fn timing_line(cue: &Cue<&str>) -> u64 {
    cue.lines.first + !cue.identifier.is_empty() as u64
}

/// The timing lines that fail, each with its number, and where it fails. Every line with an arrow after the first line of a file is a block's timing
/// line.
pub fn failed_timing_lines(file: &File) -> impl Iterator<Item = (u64, &str, Failed)> {
    let lines = file.plain_text().split('\n').enumerate().skip(1).filter(|(_, line)| line.contains("-->"));
    lines.filter_map(|(index, line)| match spatzenherd::timing_line(line.as_bytes()) {
        Err(NoTime::Failed(failed)) => Some((index as u64 + 1, line, failed)),
        _ => None,
    })
}

/// Why a timing line gives no cue. No time has an arrow in it, so one that stands before the place has been read, and the start time with it.
fn reason(line: &str, Failed { fault, place }: Failed) -> String {
    let part = match fault {
        TimeFault::ArrowMissing => "after the start time",
        _ if line[..place].contains("-->") => "in the end time",
        _ => "in the start time",
    };
    format!("{fault} {part}")
}

impl<'a> Search<'a> {
    fn line(&self, number: u64) -> &'a str {
        number.checked_sub(1).and_then(|index| self.lines.get(index as usize)).copied().unwrap_or("")
    }

    /// What is in the raw bytes and not in the plain text.
    fn bytes(&mut self, raw: &[u8]) {
        let mut alone = None;
        for (index, line) in raw_lines(raw).enumerate() {
            let number = index as u64 + 1;
            // A byte order mark is in no column.
            let from = if index == 0 && raw.starts_with(b"\xEF\xBB\xBF") { 3 } else { line.start };
            let column = |place: usize| Some(String::from_utf8_lossy(&raw[from..line.start + place]).chars().count() as u64 + 1);
            if let Some(place) = raw[line.clone()].iter().position(|byte| *byte == 0) {
                self.warnings.add(Kind::Nul, number, column(place), || "a NUL stands here".into());
            }
            if let Err(error) = std::str::from_utf8(&raw[line.clone()]) {
                let place = error.valid_up_to();
                let byte = raw[line.start + place];
                self.warnings.add(Kind::BrokenUtf8, number, column(place), || format!("the byte {byte:02X} is no UTF-8"));
            }
            if alone.is_none() && raw[line.end..].starts_with(b"\r") && !raw[line.end..].starts_with(b"\r\n") {
                alone = Some(number);
            }
        }
        if let Some(number) = alone {
            self.warnings.add(Kind::CrAlone, number, None, || "this line, the first of its kind, ends with CR alone".into());
        }
    }

    /// What stands right above a cue, with no empty line between: another cue, or lines that make none.
    fn above(&mut self, cue: &Cue<&'a str>, is_cue: bool) {
        let first = cue.lines.first;
        match self.line(first - 1) {
            "" => {}
            _ if is_cue => self.warnings.add(Kind::NoEmptyLine, first, None, || "no empty line parts this cue from the one above".into()),
            line => self.warnings.add(Kind::LineAbove, first, None, || format!("no empty line parts this cue from {}", shown(line))),
        }
    }

    fn cue(&mut self, cue: &Cue<&'a str>) {
        let first = cue.lines.first;
        if matches!(cue.identifier.trim_end_matches(|c: char| c.is_ascii_whitespace()), "STYLE" | "REGION") {
            self.warnings.add(Kind::IdentifierKeyword, first, None, || format!("the cue's identifier is {}", shown(cue.identifier)));
        }
        if cue.end <= cue.start {
            let (start, end) = (time(cue.start), time(cue.end));
            self.warnings
                .add(Kind::EndNotAfterStart, timing_line(cue), None, || format!("the end, {end}, is not after the start, {start}"));
        }
        self.timing_line(cue);
        self.text(cue);
    }

    fn timing_line(&mut self, cue: &Cue<&'a str>) {
        let number = timing_line(cue);
        let line = self.line(number);
        let mut place = Place::of(line, number);
        if let Some(at) = line.find("-->") {
            let spaced = |c: Option<char>| c.map_or(true, |c| c.is_ascii_whitespace());
            if !spaced(line[..at].chars().last()) || !spaced(line[at + 3..].chars().next()) {
                let (number, column) = place.to(at);
                self.warnings.add(Kind::ArrowWithoutSpace, number, column, || "a space is missing beside the arrow".into());
            }
        }
        if let Some(at) = line.find('\x0C') {
            let (number, column) = Place::of(line, number).to(at);
            self.warnings.add(Kind::FormFeed, number, column, || "a form feed stands in the timing line".into());
        }
        let mut vertical = false;
        let mut region: Option<&str> = None;
        let mut cancelled = None;
        for Setting { word, place: at } in probes::settings_of_line(line) {
            let at = place.to(at);
            match probes::region_name(word) {
                Some(name) if !name.is_empty() => {
                    (region, cancelled) = (self.regions.contains(name).then_some(word), None);
                    if region.is_none() {
                        self.warnings.add(Kind::RegionUnknown, at.0, at.1, || format!("the file has no region {}", shown(name)));
                    }
                    continue;
                }
                _ => {}
            }
            let effect = self.effect(word);
            if effect.none {
                let hint = || format!("{} has no effect: {}", shown(word), probes::hint(word));
                self.warnings.add(Kind::SettingNoEffect, at.0, at.1, hint);
            }
            if effect.cancels[vertical as usize] {
                cancelled = region.take().map(|region| (region, word, at)).or(cancelled);
            }
            vertical |= effect.turns;
        }
        if let (Some((region, word, at)), None) = (cancelled, cue.region) {
            self.warnings.add(Kind::RegionCancelled, at.0, at.1, || format!("{} is cancelled by {} after it", shown(region), shown(word)));
        }
    }

    fn effect(&mut self, word: &'a str) -> Effect {
        remembered(&mut self.effects, word, probes::effect)
    }

    /// Tags and escapes.
    fn text(&mut self, cue: &Cue<&'a str>) {
        let text = cue.text;
        let mut place = Place::of(text, timing_line(cue) + 1);
        let mut next = 0;
        while let Some(at) = text[next..].find(['<', '&']).map(|at| next + at) {
            let rest = &text[at..];
            let (length, found) = if rest.starts_with('<') { self.tag(rest) } else { self.escape(rest) };
            next = at + length;
            if let Some((kind, what)) = found {
                let (line, column) = place.to(at);
                self.warnings.add(kind, line, column, || format!("{} {what}", shown(&rest[..length])));
            }
        }
    }

    /// The tag that begins here: how long it is, and what is wrong with it. It goes from `<` to the next `>`, whatever is in it.
    fn tag(&mut self, rest: &'a str) -> (usize, Option<(Kind, &'static str)>) {
        let Some(end) = rest.find('>') else { return (rest.len(), Some((Kind::TagOpen, "has no > after it"))) };
        let found = match remembered(&mut self.tags, &rest[..=end], probes::tag) {
            Tag::Read => None,
            Tag::Unknown => Some((Kind::TagUnknown, "is no tag of WebVTT")),
            Tag::OverLimit => Some((Kind::TimestampLimit, "has hours above 99,999")),
        };
        (end + 1, found)
    }

    /// The escape that begins here: how long it is, and what is wrong with it. It goes from `&` over letters and digits, at least two of them as in
    /// `&lt;`, to a semicolon; what stands in "R&D;" is none.
    fn escape(&self, rest: &'a str) -> (usize, Option<(Kind, &'static str)>) {
        const SHORTEST: usize = 3;
        let name = 1 + rest[1..].find(|c: char| !c.is_ascii_alphanumeric() && c != '#').unwrap_or(rest.len() - 1);
        let ended = rest[name..].starts_with(';');
        let length = name + ended as usize;
        let escape = &rest[..length];
        let found = match ended {
            _ if name < SHORTEST => None,
            true => (!probes::escape_is_read(escape)).then_some("is not read"),
            false => self.lacks_its_end(escape).then_some("is not read, for it has no semicolon"),
        };
        (length, found.map(|what| (Kind::EscapeNotRead, what)))
    }

    /// Would an escape be read if a semicolon stood after it.
    fn lacks_its_end(&self, escape: &str) -> bool {
        const LONGEST: usize = 40;
        escape.len() <= LONGEST && probes::escape_is_read(&format!("{escape};"))
    }

    /// STYLE and REGION blocks after the first cue: what would be read as one if it stood before.
    fn late_blocks(&mut self) {
        let Ok(first) = self.file.cue(0) else { return };
        let mut number = first.lines.first + first.lines.count;
        while number < self.lines.len() as u64 {
            number += 1;
            let line = self.line(number);
            let keyword = line.trim_end_matches(|c: char| c.is_ascii_whitespace());
            if !matches!(keyword, "STYLE" | "REGION") || !self.line(number - 1).is_empty() {
                continue;
            }
            let block: Vec<&str> =
                self.lines[number as usize..].iter().take_while(|line| !line.is_empty() && !line.contains("-->")).copied().collect();
            let alone = File::read(format!("WEBVTT\n\n{keyword}\n{}\n", block.join("\n")).as_bytes());
            if alone.is_ok_and(|alone| alone.styles().len() + alone.regions().len() > 0) {
                self.warnings.add(Kind::LateBlock, number, None, || format!("this {keyword} block stands after a cue"));
            }
            number += block.len() as u64;
        }
    }
}

/// What was answered before of a piece, or what is answered now. A long piece is not kept.
fn remembered<'a, T: Copy>(answers: &mut HashMap<&'a str, T>, piece: &'a str, ask: impl Fn(&str) -> T) -> T {
    const LONGEST: usize = 200;
    if piece.len() > LONGEST {
        return ask(piece);
    }
    *answers.entry(piece).or_insert_with(|| ask(piece))
}
