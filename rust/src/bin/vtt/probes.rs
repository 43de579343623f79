//! Questions to the library about one piece of a file: is this a time, has this setting an effect, is this tag read. Where the library has no
//! function for one, it is put as a small file or cue text of its own, and the answer is what the library reads of it, so no rule of WebVTT stands
//! here twice.
use spatzenherd::{Cue, Failed, File, Kind, NoTime, Settings, Tree, Vertical};

/// Reads times as a person gives them: milliseconds, or a time as a timing line has it.
pub fn time(given: &str) -> Result<u64, String> {
    if !given.is_empty() && given.bytes().all(|byte| byte.is_ascii_digit()) {
        return given.parse().map_err(|_| format!("\"{given}\" milliseconds are too many"));
    }
    spatzenherd::tag_time(given.as_bytes()).map_err(|no_time| match no_time {
        NoTime::Failed(Failed { fault, place }) => {
            format!("\"{given}\" is not a time: {fault} at character {}; write HH:MM:SS.mmm or milliseconds", place + 1)
        }
        NoTime::Refused(_) => format!("the hours of \"{given}\" are above 99,999"),
    })
}

/// A setting as it stands in a line, and its place there in bytes.
#[derive(Clone, Copy, Debug, PartialEq, Eq)]
pub struct Setting<'a> {
    pub word: &'a str,
    pub place: usize,
}

/// The words of a line that ASCII whitespace parts, each with its place.
pub fn words(line: &str) -> impl Iterator<Item = Setting<'_>> {
    let start = line.as_ptr() as usize;
    line.split_ascii_whitespace().map(move |word| Setting { word, place: word.as_ptr() as usize - start })
}

/// The settings of a timing line: what stands after its end time.
pub fn settings_of_line(line: &str) -> impl Iterator<Item = Setting<'_>> {
    let from = spatzenherd::timing_line(line.as_bytes()).map_or(line.len(), |times| times.ends_at);
    words(&line[from..]).map(move |setting| Setting { place: setting.place + from, ..setting })
}

/// The region that a setting names, empty where it names none.
pub fn region_name(word: &str) -> Option<&str> {
    word.strip_prefix("region:")
}

/// What a setting other than a region does to a cue.
#[derive(Clone, Copy, Debug, PartialEq, Eq)]
pub struct Effect {
    /// It changes no cue's settings.
    pub none: bool,
    /// Its number is above its limit; then no more is known of it.
    pub over: bool,
    /// It makes a horizontal cue vertical.
    pub turns: bool,
    /// It takes a horizontal cue's region, and a vertical one's.
    pub cancels: [bool; 2],
}

/// Settings of which every one is another than a cue has at first.
const OTHERS: &str = "vertical:lr line:1,end position:1%,line-right size:1% align:end";

/// Asks what a setting does: over the opening settings, over others, and beside a region.
pub fn effect(setting: &str) -> Effect {
    let line = |before: &str| format!("00:00.000 --> 00:00.000 {before} {setting}\n\n");
    let file = File::read(
        format!(
            "WEBVTT\n\nREGION\nid:r\n\n00:00.000 --> 00:00.000 {OTHERS}\n\n{}{}{}{}",
            line(""),
            line(OTHERS),
            line("region:r"),
            line("vertical:rl region:r")
        )
        .as_bytes(),
    );
    let nothing = Effect { none: true, over: file.is_err(), turns: false, cancels: [false; 2] };
    let Ok(file) = file else { return nothing };
    let cues: Vec<Cue<&str>> = file.cues().collect();
    let [others, alone, over_others, beside, beside_vertical] = cues[..] else { return nothing };
    Effect {
        none: alone.settings == Settings::default() && over_others.settings == others.settings,
        over: false,
        turns: alone.settings.vertical != Vertical::Horizontal,
        cancels: [beside.region.is_none(), beside_vertical.region.is_none()],
    }
}

/// The settings that a person gives, and the region's name. A setting that would do nothing is refused, and so is a region that a later setting
/// would take away again.
pub fn settings(given: &str) -> Result<(Settings, String), String> {
    if given.contains(['\n', '\r', '\0']) {
        return Err("settings stand on one line".into());
    }
    let mut names: Vec<&str> = vec![];
    let mut line = String::from("00:00.000 --> 00:00.000");
    for Setting { word, .. } in words(given) {
        match region_name(word) {
            Some(name) if !name.is_empty() => {
                line.push_str(&format!(" region:{}", names.len()));
                names.push(name);
            }
            _ if effect(word).over => return Err(format!("the number of \"{word}\" is beyond 999,999")),
            _ if effect(word).none => return Err(format!("\"{word}\" would have no effect; {}", hint(word))),
            _ => {
                line.push(' ');
                line.push_str(word);
            }
        }
    }
    let regions: String = (0..names.len()).map(|number| format!("\nREGION\nid:{number}\n")).collect();
    let file = File::read(format!("WEBVTT\n{regions}\n{line}\n").as_bytes()).map_err(|refusal| refusal.to_string())?;
    let cue = file.cue(0).map_err(|refusal| refusal.to_string())?;
    match (cue.region, names.last()) {
        (None, Some(name)) => Err(format!("\"region:{name}\" is cancelled by a setting after it; put it last, or leave it out")),
        (region, _) => Ok((cue.settings, region.map_or(String::new(), |number| names[number].to_string()))),
    }
}

/// What may have been meant by a setting that has no effect.
pub fn hint(word: &str) -> String {
    let forms = [
        ("vertical", "vertical:rl or vertical:lr"),
        ("line", "line:5, line:-1, line:10% or line:5,end"),
        ("position", "position:10% or position:10%,line-left"),
        ("size", "size:50%"),
        ("align", "align:start, align:center, align:end, align:left or align:right"),
        ("region", "region: and the identifier of a region"),
    ];
    if word == "align:middle" {
        return "the word of 2013 for align:center".into();
    }
    let name = word.split(':').next().unwrap_or_default();
    match forms.iter().find(|(known, _)| *known == name) {
        Some((_, form)) => format!("it is written {form}"),
        None => "there is no such setting".into(),
    }
}

/// How a tag is read.
#[derive(Clone, Copy, Debug, PartialEq, Eq)]
pub enum Tag {
    /// It opens something, or closes it, or is a time, at least in some place.
    Read,
    /// It is left out.
    Unknown,
    /// A time with hours above their limit: the text that has it is refused.
    OverLimit,
}

/// Asks how a tag, from its `<` to its `>`, is read.
pub fn tag(tag: &str) -> Tag {
    let openers = ["<c>", "<i>", "<b>", "<u>", "<ruby>", "<ruby><rt>", "<v>", "<lang>"];
    let nodes = |text: &str| Tree::read(text).map(|tree| tree.nodes().len());
    let read = match nodes(tag) {
        Err(_) => return Tag::OverLimit,
        Ok(_) if tag.starts_with("</") => openers.iter().any(|opener| closes(opener, tag)),
        Ok(count) => count > 0 || nodes(&format!("<ruby>{tag}")).is_ok_and(|count| count > 1),
    };
    if read {
        Tag::Read
    } else {
        Tag::Unknown
    }
}

/// Does a tag close what an opening one opened: a text after it stands elsewhere than one before it.
fn closes(opener: &str, tag: &str) -> bool {
    let Ok(tree) = Tree::read(&format!("{opener}x{tag}y")) else { return false };
    let parents: Vec<Option<usize>> = tree.nodes().filter(|node| node.kind == Kind::String).map(|node| node.parent).collect();
    parents.first() != parents.last()
}

/// Is what begins with `&` read as an escape: as another text than stands there.
pub fn escape_is_read(escape: &str) -> bool {
    Tree::read(escape).is_ok_and(|tree| !tree.nodes().map(|node| node.value).eq([escape]))
}

#[cfg(test)]
mod tests {
    use super::*;

    #[test]
    fn times_are_milliseconds_or_as_in_a_timing_line() {
        assert_eq!(time("1500"), Ok(1500));
        assert_eq!(time("00:01.500"), Ok(1500));
        assert_eq!(time("01:00:01.500"), Ok(3_601_500));
        assert_eq!(time("99999:59:59.999"), Ok(359_999_999_999));
        for bad in [
            "",
            "1.5",
            "00:01,500",
            "00:60.000",
            "100000:00:00.000",
            "00:01.5000",
            " 00:01.500",
            "00:01.500 ",
            "-1",
            "00:01.000-->00:02.000",
            "1\n2",
            "99999999999999999999999",
        ] {
            assert!(time(bad).is_err(), "{bad}");
        }
    }

    #[test]
    fn settings_are_found_in_a_timing_line() {
        let found = |line| settings_of_line(line).map(|setting| (setting.word, setting.place)).collect::<Vec<_>>();
        assert_eq!(found("00:01.000 --> 00:02.000 align:left\tline:5"), [("align:left", 24), ("line:5", 35)]);
        assert_eq!(found("00:01.000-->00:02.000align:left"), [("align:left", 21)]);
        assert_eq!(found("00:01.000 --> 00:02.000 00:03.000"), [("00:03.000", 24)]);
        assert_eq!(found("\t00:01.000 --> 00:02.000.5:7 line:5"), [(".5:7", 24), ("line:5", 29)]);
        assert_eq!(found("00:01.000 --> 00:02.000 "), []);
    }

    #[test]
    fn what_settings_do_is_asked() {
        for word in ["align:center", "align:left", "size:100%", "line:-1", "line:5,end", "position:0%", "vertical:rl", "size:50%"] {
            assert!(!effect(word).none, "{word}");
        }
        for word in ["align:middle", "line:5,", "size:50", "position:101%", "foo:bar", "vertical:bad", "region:", "x-->y", "line:auto", ":"]
        {
            assert!(effect(word).none, "{word}");
        }
        assert_eq!(effect("size:100%").cancels, [false; 2]);
        assert_eq!(effect("vertical:bad").cancels, [false, true]);
        assert_eq!((effect("vertical:lr").turns, effect("vertical:lr").cancels), (true, [true; 2]));
    }

    #[test]
    fn settings_are_taken_from_left_to_right() {
        let read = |given: &str| settings(given).map(|(settings, region)| (settings.line, region));
        assert_eq!(read(""), Ok((spatzenherd::Line::Auto, String::new())));
        assert_eq!(read("line:5 region:low"), Ok((spatzenherd::Line::Number(5_000_000), "low".into())));
        assert_eq!(read("region:a region:b-->c"), Ok((spatzenherd::Line::Auto, "b-->c".into())));
        for bad in ["region:low line:5", "align:middle", "line:1000000", "align:left\nx", "region:"] {
            assert!(settings(bad).is_err(), "{bad}");
        }
    }

    #[test]
    fn tags_and_escapes_are_asked() {
        assert_eq!(tag("<100000:00:00.000>"), Tag::OverLimit);
        for known in
            ["<i>", "</i>", "<c.red>", "</c>", "<v Anna>", "</v>", "<rt>", "</rt>", "<ruby>", "</ruby>", "<lang de>", "<00:01.000>"]
        {
            assert_eq!(tag(known), Tag::Read, "{known}");
        }
        for unknown in ["<foo>", "</foo>", "<br>", "<>", "</>", "<3 you>", "<I>", "</c.red>", "<00:01>"] {
            assert_eq!(tag(unknown), Tag::Unknown, "{unknown}");
        }
        assert!(escape_is_read("&amp;") && escape_is_read("&nbsp;"));
        assert!(!escape_is_read("&copy;") && !escape_is_read("&amp") && !escape_is_read("&#39;"));
    }
}
