//! Files to compare on: made from the words that WebVTT files are made of, right and wrong ones, and damaged copies of public files.
use crate::papers;
use crate::random::Random;

const STARTS: [&str; 14] = [
    "WEBVTT",
    "WEBVTT",
    "WEBVTT",
    "WEBVTT - title",
    "WEBVTT\ttitle",
    "\u{FEFF}WEBVTT",
    "\u{FEFF}WEBVTT x --> y",
    "WEBVTT ",
    "WEBVTT\0",
    "WEBVTTX",
    "webvtt",
    "\u{FEFF}\u{FEFF}WEBVTT",
    "WEBVT",
    "",
];
const TIMES: [&str; 30] = [
    "00:00.000",
    "00:01.000",
    "00:02.500",
    "00:00:03.000",
    "1:00:00.000",
    "99:59:59.999",
    "99999:59:59.999",
    "100000:00:00.000",
    "00000000000000000000001:00:00.000",
    "123456789012345678901234:00:00.000",
    "60:00.000",
    "60:00:00.000",
    "00:60:00.000",
    "00:60.000",
    "1:00.000",
    "00:01,000",
    "00:01.0000",
    "00:01.00",
    "00:01",
    "0:0:0.000",
    "00:00:00.000.000",
    "-00:01.000",
    "",
    "x",
    "00:1.000",
    "000:00.000",
    "00:00:00:00.000",
    "00 :00.000",
    "59:59.999",
    "00:59:59.999",
];
const NUMBERS: [&str; 44] = [
    "0",
    "1",
    "-1",
    "-0",
    "00",
    "5.5",
    "-5.5",
    ".5",
    "5.",
    "-.5",
    "-",
    "--1",
    "50%",
    "0%",
    "100%",
    "100.0%",
    "100.000000000000000000001%",
    "100.1%",
    "101%",
    "050%",
    "99.9999999%",
    "33.3333333%",
    "-1%",
    "-0%",
    "1%%",
    "%",
    "50.%",
    "50.5.5%",
    "999999",
    "1000000",
    "-999999",
    "-1000000",
    "999999.0000000000",
    "999999.000000000000000000000001",
    "-999999.5",
    "123456789012345678901234567890",
    "0.0000001",
    "1e5",
    "+5",
    "0.10%",
    "12.345678%",
    "12.3456789%",
    "00000000000000000000000000000000050%",
    "1 2",
];
const WORDS: [&str; 32] = [
    "low",
    "top",
    "r",
    "fred",
    "start",
    "center",
    "middle",
    "end",
    "left",
    "right",
    "line-left",
    "line-right",
    "auto",
    "rl",
    "lr",
    "up",
    "down",
    "x",
    "-->",
    "a-->b",
    "--",
    "->",
    "\u{E9}",
    "\u{8A9E}",
    "\u{1F600}",
    "",
    "STYLE",
    "REGION",
    "NOTE",
    "\u{FFFD}",
    ":",
    ",",
];
const TEXTS: [&str; 52] = [
    "The last tram.",
    "It does not wait.",
    "<i>",
    "</i>",
    "<b>",
    "</b>",
    "<u>",
    "</u>",
    "<c>",
    "<c.a.b>",
    "<c.>",
    "<c..a>",
    "<.a>",
    "</c>",
    "<v Anna>",
    "<v.loud Anna B>",
    "<v\tAnna>",
    "<v>",
    "</v>",
    "<lang en>",
    "<lang.x en-GB>",
    "</lang>",
    "<ruby>",
    "<rt>",
    "</rt>",
    "</ruby>",
    "<00:01.000>",
    "<00:00:02.000>",
    "<100000:00:00.000>",
    "<00:01.000 >",
    "<00:01>",
    "<123456789012345678901234:00:00.000>",
    "&amp;",
    "&lt;",
    "&gt;",
    "&lrm;",
    "&rlm;",
    "&nbsp;",
    "&amp",
    "&",
    "&;",
    "&AMP;",
    "&#65;",
    "&a",
    "<",
    ">",
    "<>",
    "</>",
    "</",
    "<i",
    "<v An&amp;na>",
    "<i.a\u{8A9E}.b c>",
];
const ODD: [&[u8]; 27] = [
    b"\0",
    b"\r",
    b"\n",
    b"\r\n",
    b"\x0C",
    b"\t",
    b" ",
    b"\xFF",
    b"\xC0\x80",
    b"\xC2",
    b"\xE0\x80\x80",
    b"\xE0\xA0",
    b"\xED\xA0\x80",
    b"\xED\x9F\xBF",
    b"\xF0\x8F\xBF\xBF",
    b"\xF0\x90\x80\x80",
    b"\xF4\x8F\xBF\xBF",
    b"\xF4\x90\x80\x80",
    b"\xF5\x80\x80\x80",
    b"\xEF\xBB\xBF",
    b"\x80",
    b"\xF0\x9F\x98",
    b"\xE2",
    b"\xE2\x82",
    b"\xE2\x82\r\n",
    b"\xEF\xBB",
    b"\xE1\x80\xE2\xF0\x91\x92\xF1\xBF",
];

/// A name or a value, now and then of two.
fn word(random: &mut Random) -> String {
    let one = random.of(&WORDS).to_string();
    match random.below(6) {
        0 => one + random.of(&WORDS),
        _ => one,
    }
}

/// Settings are mostly in their form, the value mostly one that the name takes.
fn cue_setting(random: &mut Random) -> String {
    let number = random.of(&NUMBERS);
    let align = random.of(&["start", "center", "end", "left", "right", "middle", "line-left", "line-right", "auto", ""]);
    match random.below(12) {
        0 => format!("vertical:{}", random.of(&["rl", "lr", "lr", "RL", "", "x", "horizontal"])),
        1 => format!("line:{number}"),
        2 => format!("line:{number},{align}"),
        3 => format!("position:{number}"),
        4 => format!("position:{number},{align}"),
        5 => format!("size:{number}"),
        6 => format!("align:{align}"),
        7 | 8 => format!("region:{}", word(random)),
        9 => format!("{}:{}", word(random), number),
        10 => format!("line:auto{}", random.of(&["", ",end"])),
        _ => word(random),
    }
}

fn region_setting(random: &mut Random) -> String {
    let numbers = (random.of(&NUMBERS), random.of(&NUMBERS));
    match random.below(10) {
        0..=2 => format!("id:{}", word(random)),
        3 => format!("width:{}", numbers.0),
        4 => format!("lines:{}", numbers.0),
        5 => format!("regionanchor:{},{}", numbers.0, numbers.1),
        6 => format!("viewportanchor:{},{}", numbers.0, numbers.1),
        7 => format!("scroll:{}", random.of(&["up", "down", "", "UP"])),
        8 => format!("{}:{}", word(random), numbers.0),
        _ => word(random),
    }
}

fn parted(random: &mut Random, count: usize, one: fn(&mut Random) -> String) -> String {
    let mut line = String::new();
    for _ in 0..count {
        line.push_str(&one(random));
        line.push_str(random.of(&[" ", " ", " ", "\t", "  ", "\x0C", "\n"]));
    }
    line
}

fn timing_line(random: &mut Random) -> String {
    let good = !random.once_in(6);
    let time = |random: &mut Random| if good { TIMES[random.below(7)] } else { random.of(&TIMES) };
    let (start, end) = (time(random), time(random));
    let arrow = random.of(&[" --> ", " --> ", " --> ", "-->", "\t-->  ", " -->", "--> ", " -> ", "-- >", " -->x"]);
    let settings = random.below(5);
    let mut line = format!("{}{start}{arrow}{end}", random.of(&["", "", "", " ", "\t "]));
    if settings > 0 {
        line.push_str(random.of(&[" ", " ", " ", "\t", ""]));
        line.push_str(parted(random, settings, cue_setting).trim_end_matches('\n'));
    }
    line
}

/// A time, mostly a good one: without hours, with a few, with hours around their limit, and with up to 20 digits of them.
fn any_time(random: &mut Random) -> String {
    let hours = match random.below(6) {
        0 | 1 => String::new(),
        2 => format!("{:02}:", random.below(100)),
        3 => format!("{}{}:", "0".repeat(random.below(15)), 99_998 + random.below(4)),
        4 => (0..=random.below(20)).map(|_| random.below(10).to_string()).collect::<String>() + ":",
        _ => format!("{}:", random.below(1000)),
    };
    let sixty = |random: &mut Random| if random.once_in(10) { random.below(100) } else { random.below(60) };
    format!("{hours}{:02}:{:02}.{:03}", sixty(random), sixty(random), random.below(1000))
}

/// One change of a time or a timing line: a byte of those that it is made of, gone, put in or in another's place; a byte doubled; more digits; a comma
/// for a full stop; or one of the changes that files have.
fn damage_time(random: &mut Random, text: &mut Vec<u8>) {
    const BYTES: [&[u8]; 24] = [
        b"0",
        b"1",
        b"5",
        b"6",
        b"9",
        b":",
        b":",
        b".",
        b".",
        b",",
        b",",
        b"-",
        b"-",
        b">",
        b"-->",
        b" ",
        b"\t",
        b"\x0C",
        b"\r",
        b"\n",
        b"\0",
        b"/",
        b";",
        "\u{8A9E}".as_bytes(),
    ];
    let at = random.below(text.len() + 1);
    let to = (at + 1).min(text.len());
    match random.below(8) {
        0 => drop(text.splice(at..to, random.of(&BYTES).iter().copied())),
        1 => drop(text.splice(at..at, random.of(&BYTES).iter().copied())),
        2 => drop(text.drain(at..to)),
        3 => drop(text.splice(at..at, text[at..to].to_vec())),
        4 => drop(text.splice(at..at, (0..random.below(20)).map(|_| b'0' + random.below(10) as u8).collect::<Vec<u8>>())),
        5 => text.iter_mut().skip(at).filter(|byte| **byte == b'.').take(1).for_each(|byte| *byte = b','),
        6 => text.truncate(at),
        _ => damage(random, text),
    }
}

/// What may stand where a time or a timing line is expected: a good one or a damaged one.
pub fn time_or_line(random: &mut Random) -> Vec<u8> {
    let blank = |random: &mut Random| random.of(&["", "", " ", " ", "\t", " \t ", "\x0C", "\n", "\r", "\u{A0}"]);
    let mut text = match random.below(6) {
        0 => any_time(random),
        1 => any_time(random) + &word(random),
        2 => timing_line(random),
        // The usual form, for which the library has a way of its own.
        3 => format!("{:02}:00:{:02}.250 --> 00:{:02}:59.999", random.below(100), random.below(61), random.below(61)),
        _ => {
            let settings = random.below(3);
            let blanks = [blank(random), blank(random), blank(random), blank(random)];
            let (start, end) = (any_time(random), any_time(random));
            format!("{}{start}{}-->{}{end}{}{}", blanks[0], blanks[1], blanks[2], blanks[3], parted(random, settings, cue_setting))
        }
    }
    .into_bytes();
    for _ in 0..random.below(4) {
        damage_time(random, &mut text);
    }
    text
}

/// A file of so many lines that are timing lines or nearly, in blocks of their own and not.
pub fn timed_file(random: &mut Random, lines: usize) -> Vec<u8> {
    let mut bytes = b"WEBVTT\n\n".to_vec();
    for _ in 0..lines {
        bytes.extend_from_slice(random.of(&["", "", "id\n", "a\nb\n", "STYLE\n"]).as_bytes());
        bytes.extend_from_slice(&time_or_line(random));
        bytes.extend_from_slice(random.of(&["\n", "\n\n", "\n\n", "\nx\n", "\r\n\r\n"]).as_bytes());
    }
    bytes
}

/// A cue's text: mostly a few lines of strings and tags.
pub fn cue_text(random: &mut Random, pieces: usize) -> String {
    let mut text = String::new();
    for _ in 0..random.below(pieces + 1) {
        text.push_str(random.of(&TEXTS));
        if random.once_in(6) {
            text.push('\n');
        }
    }
    text
}

fn block(random: &mut Random) -> String {
    match random.below(14) {
        0 | 1 => {
            let count = random.below(6);
            format!("REGION{}\n{}\n", random.of(&["", "", " ", "\t", "x", ":"]), parted(random, count, region_setting))
        }
        2 => format!(
            "STYLE{}\n{}\n",
            random.of(&["", "", " ", "x"]),
            random.of(&["::cue { color: red }", "a\nb", "", "x --> y", "\u{8A9E}"])
        ),
        3 => format!("NOTE {}\n{}\n", word(random), word(random)),
        4 => format!("{}\n{}\n", word(random), word(random)),
        5 => format!("{}\n", random.of(&["-->", "a --> b", "", " ", "x"])),
        6 | 7 => format!("{}\n{}\n", timing_line(random), cue_text(random, 4)),
        8 => format!("{}\n{}\n{}\n", word(random), word(random), timing_line(random)),
        _ => format!("{}\n{}\n{}\n", word(random), timing_line(random), cue_text(random, 8)),
    }
}

/// A file of about this many blocks.
pub fn file(random: &mut Random, blocks: usize) -> Vec<u8> {
    let mut text = STARTS[if random.once_in(5) { random.below(STARTS.len()) } else { random.below(8) }].to_string();
    text.push_str(random.of(&["\n\n", "\n\n", "\n\n", "\n", "\nheader line\n\n", "\n00:00.000 --> 00:01.000\nx\n\n", ""]));
    for _ in 0..blocks {
        text.push_str(&block(random));
        text.push_str(random.of(&["\n", "\n", "\n", "\n\n", ""]));
    }
    let line_end = random.of(&["\n", "\n", "\r\n", "\r", "\n\r"]);
    let mut bytes = text.replace('\n', line_end).into_bytes();
    if random.once_in(3) {
        for _ in 0..=random.below(3) {
            damage(random, &mut bytes);
        }
    }
    bytes
}

/// A file of about this many bytes with a signature and without a number above its limit, so that there is much to read in it; half of these
/// files can be written too.
pub fn long_file(random: &mut Random, length: usize) -> Vec<u8> {
    let writable = random.once_in(2);
    let mut text = String::from("WEBVTT\n\n");
    while text.len() < length {
        let more = block(random) + random.of(&["\n", "\n", "\n", "\n\n", ""]);
        let alone = format!("WEBVTT\n\n{more}");
        let out = if writable { 1 << 20 } else { 0 };
        if !papers::rewrite(alone.as_bytes(), 1 << 20, 99, 99, 99, out).is_err_and(|refusal| writable || [4, 5].contains(&refusal.number)) {
            text.push_str(&more);
        }
    }
    text.replace('\n', random.of(&["\n", "\r\n", "\r"])).into_bytes()
}

/// One change: a byte, some bytes gone, put in, doubled or moved, or the end cut.
pub fn damage(random: &mut Random, bytes: &mut Vec<u8>) {
    let at = random.below(bytes.len() + 1);
    let to = (at + random.below(12)).min(bytes.len());
    match random.below(8) {
        0 if at < bytes.len() => bytes[at] = random.word() as u8,
        1 => drop(bytes.drain(at..to)),
        2 => bytes.truncate(at),
        3 => drop(bytes.splice(at..at, bytes[at..to].to_vec())),
        4 => drop(bytes.splice(at..at, random.of(&WORDS).bytes())),
        5 => drop(bytes.splice(at..to, random.of(&TIMES).bytes())),
        6 => drop(bytes.splice(at..at, random.of(&NUMBERS).bytes())),
        _ => drop(bytes.splice(at..at, random.of(&ODD).iter().copied())),
    }
}

/// A row's words changed: small numbers, great ones, and numbers near what stood there.
pub fn damage_row(random: &mut Random, row: &mut [u64]) {
    let at = random.below(row.len());
    row[at] = match random.below(6) {
        0 => random.word(),
        1 => u64::MAX - random.below(3) as u64,
        2 => row[at].wrapping_add(1),
        3 => row[at].wrapping_sub(1),
        4 => random.below(200_000_000) as u64,
        _ => random.below(6) as u64,
    };
}

/// A file whose cues name regions, by few or by many names: some are of no region, and some of several.
pub fn named_file(random: &mut Random) -> Vec<u8> {
    let (names, regions, cues) = (1 + random.below(700), random.below(300), random.below(500));
    let mut text = String::from("WEBVTT\n\n");
    for _ in 0..regions {
        text.push_str(&format!("REGION\nid:r{}\n\n", random.below(names)));
    }
    for _ in 0..cues {
        let name = random.below(names + names / 4 + 1);
        text.push_str(&format!("00:00.000-->00:01.000{}\n", if random.once_in(9) { String::new() } else { format!(" region:r{name}") }));
    }
    text.into_bytes()
}

/// Rows of regions that nobody read, over a text of this length. Their identifiers are mostly short parts of it, and some rows come more than once.
pub fn any_regions(random: &mut Random, length: usize) -> Vec<papers::RegionRow> {
    let mut rows: Vec<papers::RegionRow> = Vec::new();
    for count in 0..random.below(7) {
        if count > 0 && random.once_in(3) {
            rows.push(rows[random.below(count)]);
            continue;
        }
        let mut row: papers::RegionRow = std::array::from_fn(|_| random.word());
        row[0] = random.below(length + 2) as u64;
        row[1] = row[0] + random.below(6) as u64;
        for _ in 0..random.below(3) {
            damage_row(random, &mut row[..2]);
        }
        rows.push(row);
    }
    rows
}

/// The lines of a cue that is lent: any two numbers, since nobody looks at them.
pub fn any_lines(random: &mut Random) -> [u64; 2] {
    match random.below(4) {
        0 => [0, 0],
        1 => [u64::MAX, u64::MAX],
        2 => [random.below(20) as u64, random.below(6) as u64],
        _ => [random.word(), random.word()],
    }
}

/// A new cue: a row of words over a text of its own. Most of them are writable.
pub fn new_cue(random: &mut Random) -> (Vec<u64>, Vec<u8>) {
    let mut text = b"xyz".to_vec();
    let mut part = |string: &str| {
        let from = text.len() as u64;
        text.extend_from_slice(string.as_bytes());
        [from, text.len() as u64]
    };
    let mut row = vec![0; papers::NEW_CUE_WORDS];
    row[0..2].copy_from_slice(&part(random.of(&["", "", "id", "7", "a b", "\u{8A9E}", "STYLE", "a-->", "NOTE x"])));
    row[2] = random.below(100_000) as u64;
    row[3] = row[2] + random.below(5_000) as u64;
    let words = if random.once_in(4) { cue_text(random, 6) } else { random.of(&TEXTS).to_string() };
    row[4..6].copy_from_slice(&part(words.trim_matches('\n')));
    let percentage = |random: &mut Random| random.below(1001) as u64 * 100_000;
    if random.once_in(3) {
        row[6] = random.below(3) as u64;
        row[7] = random.below(3) as u64;
        row[9] = if row[7] == 1 { random.below(2) as u64 } else { 0 };
        row[8] = if row[7] == 0 { 0 } else { percentage(random) };
        row[10] = if row[7] == 0 { 0 } else { random.below(3) as u64 };
        row[11] = random.below(2) as u64;
        row[12] = if row[11] == 0 { 0 } else { percentage(random) };
        row[13] = if row[11] == 0 { 0 } else { random.below(4) as u64 };
    }
    row[14] = if random.once_in(3) { percentage(random) } else { 100_000_000 };
    row[15] = if random.once_in(3) { random.below(5) as u64 } else { 1 };
    row[16..18].copy_from_slice(&part(random.of(&["", "", "", "low", "top", "r", "fred", "none"])));
    row[18..].copy_from_slice(&any_lines(random));
    if random.once_in(4) {
        damage_row(random, &mut row);
    }
    if random.once_in(40) {
        // Another count of words: among them those of a cue's row and of a new cue's before request Q-8, and one too many.
        let counts = [17, 18, 19, 21, 22, random.below(papers::NEW_CUE_WORDS)];
        row.resize(counts[random.below(counts.len())], 0);
    }
    if random.once_in(20) {
        damage(random, &mut text);
    }
    (row, text)
}
