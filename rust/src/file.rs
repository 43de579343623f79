//! A file that was read: its plain text, and its lists as rows over it. What is handed out of it are views of that text; `to_owned` copies one.
use crate::lent::{self, CueRow, RegionRow, StyleRow, Values, CUE_WORDS, REGION_WORDS, STYLE_WORDS};
use crate::refusal::Refusal;
use crate::settings::{area_of, area_words, settings_of, settings_words, Area, Settings};
use crate::tree::Tree;

/// The lines of a cue in the file that it was read from. The default, 0 and 0, is for a cue that was read from none.
#[derive(Clone, Copy, Debug, Default, PartialEq, Eq)]
pub struct LineSpan {
    /// The number of its first line, counted from 1: its identifier's, or its timing line's where it has none.
    pub first: u64,
    pub count: u64,
}

/// A cue: `Cue<&str>` is a view of a file's text, `Cue` owns its strings.
#[derive(Clone, Copy, Debug, Default, PartialEq, Eq)]
pub struct Cue<S = String> {
    /// Empty for none.
    pub identifier: S,
    /// In milliseconds.
    pub start: u64,
    /// In milliseconds.
    pub end: u64,
    /// The cue's text with its tags; [`Tree::read`] reads them.
    pub text: S,
    pub settings: Settings,
    /// The index of its region in the file's list.
    pub region: Option<usize>,
    /// Its lines in the file that it was read from. Writing does not look at them.
    pub lines: LineSpan,
}

/// A region: `Region<&str>` is a view of a file's text, `Region` owns its identifier.
#[derive(Clone, Copy, Debug, Default, PartialEq, Eq)]
pub struct Region<S = String> {
    pub identifier: S,
    pub area: Area,
}

impl Cue<&str> {
    /// The cue with strings of its own.
    pub fn to_owned(&self) -> Cue {
        Cue {
            identifier: self.identifier.to_string(),
            start: self.start,
            end: self.end,
            text: self.text.to_string(),
            settings: self.settings,
            region: self.region,
            lines: self.lines,
        }
    }
}

impl Region<&str> {
    /// The region with an identifier of its own.
    pub fn to_owned(&self) -> Region {
        Region { identifier: self.identifier.to_string(), area: self.area }
    }
}

/// What the look-up of a region by its name gives.
#[derive(Clone, Copy, Debug, PartialEq, Eq)]
pub struct Found {
    /// The region's index in the file's list.
    pub index: Option<usize>,
    /// How many regions were looked at: from the last of them to the one that is found, which counts too, or all.
    pub seen: usize,
}

/// A file that was read.
#[derive(Clone, Debug, PartialEq, Eq)]
pub struct File {
    text: String,
    cues: Vec<CueRow>,
    regions: Vec<RegionRow>,
    styles: Vec<StyleRow>,
}

/// Calls with room of a first length, and where that is too short with as much as the call says it needs. `short` is the refusal's number.
/// Hands back the call's number and the room, cut to the length that the call put as its first value.
pub(crate) fn with_room(
    first: usize,
    short: u64,
    values: &mut Values,
    mut call: impl FnMut(&mut [u8], &mut Values) -> u64,
) -> (u64, Vec<u8>) {
    let mut room = vec![0; first];
    let mut number = call(&mut room, values);
    if number == short {
        room = vec![0; values[0] as usize];
        number = call(&mut room, values);
    }
    if number == 0 {
        room.truncate(values[0] as usize);
    }
    (number, room)
}

/// `Ok` where a call accepted, else its refusal.
pub(crate) fn accepted(number: u64, values: &Values) -> Result<(), Refusal> {
    match number {
        0 => Ok(()),
        _ => Err(Refusal::told(number, values, false)),
    }
}

/// The bytes of a plain text as a string.
pub(crate) fn plain_string(bytes: Vec<u8>) -> String {
    String::from_utf8(bytes).expect("plain text is well-formed")
}

/// The plain text of a raw file: one leading byte order mark dropped, line ends made LF, NUL made U+FFFD, and broken bytes as
/// `String::from_utf8_lossy` makes them: one U+FFFD for each longest run that could have begun a sequence and for each stray byte.
pub fn convert(raw: &[u8]) -> Result<String, Refusal> {
    let mut values = [0; 8];
    let (number, room) = with_room(raw.len().min(crate::MAX_FILE), 2, &mut values, |room, values| lent::convert(raw, room, values));
    accepted(number, &values).map(|()| plain_string(room))
}

impl File {
    /// Reads the bytes of a file.
    ///
    /// ```
    /// let file = spatzenherd::File::read(b"WEBVTT\r\n\r\n00:01.000 --> 00:02.500\r\nThe last tram.\r\n")?;
    /// let cue = file.cue(0)?;
    /// assert_eq!((cue.start, cue.end, cue.text), (1000, 2500, "The last tram."));
    /// assert_eq!((cue.lines.first, cue.lines.count), (3, 2));
    /// # Ok::<(), spatzenherd::Refusal>(())
    /// ```
    pub fn read(raw: &[u8]) -> Result<File, Refusal> {
        let mut values = [0; 8];
        let (mut cues, mut regions, mut styles) = (vec![], vec![], vec![]);
        let mut text = vec![0; raw.len().min(crate::MAX_FILE)];
        loop {
            let number = lent::read_file(raw, &mut text, &mut cues, &mut regions, &mut styles, &mut values);
            match number {
                2 => text = vec![0; values[0] as usize],
                6 => {
                    cues = vec![[0; CUE_WORDS]; values[0] as usize];
                    regions = vec![[0; REGION_WORDS]; values[1] as usize];
                    styles = vec![[0; STYLE_WORDS]; values[2] as usize];
                }
                _ => {
                    accepted(number, &values)?;
                    text.truncate(values[3] as usize);
                    return Ok(File { text: plain_string(text), cues, regions, styles });
                }
            }
        }
    }

    /// Reads a plain text. It is refused by 3 where it holds CR or NUL.
    pub fn of_text(text: String) -> Result<File, Refusal> {
        let mut values = [0; 8];
        let asked = lent::read(text.as_bytes(), &mut [], &mut [], &mut [], &mut values);
        if asked != 6 {
            accepted(asked, &values)?;
        }
        let mut cues = vec![[0; CUE_WORDS]; values[0] as usize];
        let mut regions = vec![[0; REGION_WORDS]; values[1] as usize];
        let mut styles = vec![[0; STYLE_WORDS]; values[2] as usize];
        if asked == 6 {
            accepted(lent::read(text.as_bytes(), &mut cues, &mut regions, &mut styles, &mut values), &values)?;
        }
        Ok(File { text, cues, regions, styles })
    }

    /// The plain text that was read.
    pub fn plain_text(&self) -> &str {
        &self.text
    }

    /// The cue with a number, counted from 0; refused by 7 where there is none.
    pub fn cue(&self, number: usize) -> Result<Cue<&str>, Refusal> {
        match self.cues.get(number) {
            Some(row) => Ok(self.cue_of(row)),
            None => Err(Refusal::NoSuchCue { count: self.cues.len() as u64 }),
        }
    }

    /// The cues, in the file's order.
    pub fn cues(&self) -> impl ExactSizeIterator<Item = Cue<&str>> {
        self.cues.iter().map(|row| self.cue_of(row))
    }

    /// The regions, in the file's order.
    pub fn regions(&self) -> impl ExactSizeIterator<Item = Region<&str>> {
        self.regions.iter().map(|row| Region { identifier: self.part(row[0], row[1]), area: area_of(row) })
    }

    /// The region whose identifier is this name. The later of two regions with the same identifier counts, here as where a cue names them. An
    /// empty name finds the last region without an identifier, which no cue can name.
    ///
    /// ```
    /// use spatzenherd::{File, Found};
    /// let file = File::read(b"WEBVTT\n\nREGION\nid:low\nlines:2\n\nREGION\nid:low\nlines:4\n\nREGION\nid:top\n")?;
    /// assert_eq!(file.find_region("low"), Found { index: Some(1), seen: 2 });
    /// assert_eq!(file.regions().nth(1).map(|region| region.area.lines), Some(4));
    /// assert_eq!(file.find_region("left"), Found { index: None, seen: 3 });
    /// # Ok::<(), spatzenherd::Refusal>(())
    /// ```
    pub fn find_region(&self, name: impl AsRef<[u8]>) -> Found {
        let mut values = [0; 8];
        lent::find_region(self.text.as_bytes(), &self.regions, name.as_ref(), &mut values);
        Found { index: (values[0] == 1).then_some(values[1] as usize), seen: values[2] as usize }
    }

    /// The style texts, in the file's order.
    pub fn styles(&self) -> impl ExactSizeIterator<Item = &str> {
        self.styles.iter().map(|row| self.part(row[0], row[1]))
    }

    /// The nodes of one cue's text.
    pub fn tree(&self, number: usize) -> Result<Tree, Refusal> {
        Tree::read(self.cue(number)?.text)
    }

    /// The file in the one written form. A file can be read and yet not be written, for example where a cue's end is not after its start.
    pub fn write(&self) -> Result<Vec<u8>, Refusal> {
        written(self.text.as_bytes(), &self.styles, &self.regions, &self.cues)
    }

    fn cue_of(&self, row: &CueRow) -> Cue<&str> {
        Cue {
            identifier: self.part(row[0], row[1]),
            start: row[2],
            end: row[3],
            text: self.part(row[4], row[5]),
            settings: settings_of(row),
            region: row[16].checked_sub(1).map(|index| index as usize),
            lines: LineSpan { first: row[17], count: row[18] },
        }
    }

    fn part(&self, from: u64, to: u64) -> &str {
        &self.text[from as usize..to as usize]
    }
}

fn written(text: &[u8], styles: &[StyleRow], regions: &[RegionRow], cues: &[CueRow]) -> Result<Vec<u8>, Refusal> {
    let mut values = [0; 8];
    let (number, out) = with_room(0, 10, &mut values, |out, values| lent::write(text, styles, regions, cues, out, values));
    accepted(number, &values).map(|()| out)
}

/// A text that strings are put into one after the other, so that rows can name them.
#[derive(Default)]
pub(crate) struct Joined(Vec<u8>);

impl Joined {
    pub(crate) fn put(&mut self, string: &str) -> [u64; 2] {
        let from = self.0.len() as u64;
        self.0.extend_from_slice(string.as_bytes());
        [from, self.0.len() as u64]
    }

    pub(crate) fn bytes(&self) -> &[u8] {
        &self.0
    }
}

/// The words 0 to 15 of a cue's row.
pub(crate) fn cue_words(identifier: [u64; 2], times: [u64; 2], text: [u64; 2], settings: &Settings) -> [u64; 16] {
    let mut words = [0; 16];
    words[0..2].copy_from_slice(&identifier);
    words[2..4].copy_from_slice(&times);
    words[4..6].copy_from_slice(&text);
    words[6..16].copy_from_slice(&settings_words(settings));
    words
}

/// The file that has these lists, in the one written form: reading it gives them back, each cue with its lines in that file. The first entry that
/// cannot be written is refused by 8.
///
/// ```
/// use spatzenherd::{write, Cue};
/// let cue = Cue { text: "The last tram.", start: 1000, end: 2500, ..Cue::default() };
/// assert_eq!(write::<&str>(&[], &[], &[cue])?, b"WEBVTT\n\n00:00:01.000 --> 00:00:02.500\nThe last tram.\n");
/// # Ok::<(), spatzenherd::Refusal>(())
/// ```
pub fn write<S: AsRef<str>>(styles: &[S], regions: &[Region<S>], cues: &[Cue<S>]) -> Result<Vec<u8>, Refusal> {
    let mut text = Joined::default();
    let styles: Vec<StyleRow> = styles.iter().map(|style| text.put(style.as_ref())).collect();
    let regions: Vec<RegionRow> = regions
        .iter()
        .map(|region| {
            let mut row = [0; REGION_WORDS];
            row[0..2].copy_from_slice(&text.put(region.identifier.as_ref()));
            row[2..].copy_from_slice(&area_words(&region.area));
            row
        })
        .collect();
    let cues: Vec<CueRow> = cues
        .iter()
        .map(|cue| {
            let parts = (text.put(cue.identifier.as_ref()), text.put(cue.text.as_ref()));
            let mut row = [0; CUE_WORDS];
            row[0..16].copy_from_slice(&cue_words(parts.0, [cue.start, cue.end], parts.1, &cue.settings));
            row[16] = cue.region.map_or(0, |index| (index as u64).saturating_add(1));
            row
        })
        .collect();
    written(text.bytes(), &styles, &regions, &cues)
}

/// A raw file in the one written form: reading it, and then [`File::write`].
pub fn rewrite(raw: &[u8]) -> Result<Vec<u8>, Refusal> {
    File::read(raw)?.write()
}
