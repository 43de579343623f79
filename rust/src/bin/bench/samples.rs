//! The files that are measured: episodes like those of a captioning house, and the worst that sixteen megabytes can be.
use spatzenherd::MAX_FILE;

/// What every third, fifth and seventh cue has on its timing line.
fn settings(cue: usize) -> &'static str {
    match (cue % 3, cue % 5, cue % 7) {
        (0, 0, _) => " line:10% position:20%,line-left size:60% align:left",
        (0, _, _) => " region:low align:start",
        (_, 0, _) => " line:-2 align:center",
        (_, _, 0) => " vertical:rl position:12.5%",
        _ => "",
    }
}

const TEXTS: [&str; 6] = [
    "The last tram does not wait for anyone tonight.\nRun!",
    "<v Anna>Did you see <i>that</i>?",
    "<v.loud Bert>Nein, das weiß ich nicht – warum?</v>",
    "- I told you so.\n- You did not &amp; you know it.",
    "[door closes]",
    "Ein Satz, der etwas länger ist als die anderen,\nund der darum auf zwei Zeilen steht.",
];

/// An episode of about this many bytes: two regions, a style, a comment now and then, and cues one second apart.
pub fn episode(length: usize, line_end: &str) -> Vec<u8> {
    let regions = "REGION\nid:low\nlines:2\n\nREGION\nid:top\nregionanchor:0%,0%\n\n";
    episode_with(regions, settings, length).replace('\n', line_end).into_bytes()
}

/// An episode with these regions, and with these settings on its timing lines.
fn episode_with(regions: &str, settings: fn(usize) -> &'static str, length: usize) -> String {
    let mut file = format!("WEBVTT - episode\n\nSTYLE\n::cue(.loud) {{ color: red }}\n\n{regions}");
    let mut cue = 0;
    while file.len() < length {
        let time = |t: usize| format!("{:02}:{:02}:{:02}.{:03}", t / 3_600_000, t / 60_000 % 60, t / 1000 % 60, t % 1000);
        if cue % 50 == 0 {
            file.push_str("NOTE scene\nwith its second line\n\n");
        }
        if cue % 2 == 0 {
            file.push_str(&format!("{cue}\n"));
        }
        let start = cue * 1000;
        file.push_str(&format!("{} --> {}{}\n{}\n\n", time(start), time(start + 900), settings(cue), TEXTS[cue % TEXTS.len()]));
        cue += 1;
    }
    file
}

/// A file that is filled with copies of some bytes up to the greatest length.
fn filled(start: &str, with: &[u8]) -> Vec<u8> {
    let mut file = start.as_bytes().to_vec();
    file.reserve(MAX_FILE - file.len());
    while file.len() + with.len() <= MAX_FILE {
        file.extend_from_slice(with);
    }
    file
}

/// Many regions, and cues that name each of them in turn.
pub fn regions(regions: usize, cues: usize) -> Vec<u8> {
    let mut file = String::from("WEBVTT\n\n");
    for region in 0..regions {
        file.push_str(&format!("REGION\nid:r{region:06}\n\n"));
    }
    for cue in 0..cues {
        file.push_str(&format!("00:00.000 --> 00:01.000 region:r{:06}\nx\n\n", cue * 7919 % regions));
    }
    file.into_bytes()
}

/// Regions that all have one identifier, and lines of cues without a text, each with the name that is made for its number.
fn other_names(identifier: &str, regions: usize, cues: usize, name: impl Fn(usize) -> String) -> Vec<u8> {
    let mut file = "WEBVTT\n\n".to_string() + &format!("REGION\nid:{identifier}\n\n").repeat(regions);
    (0..cues).for_each(|cue| file.push_str(&format!("00:00.000-->00:01.000 region:{}\n", name(cue))));
    file.into_bytes()
}

/// 3,600 names of two characters, in turn: each is asked for again when it is long forgotten. None of them has a `z`.
fn two_characters(number: usize) -> String {
    let characters = b"0123456789ABCDEFGHIJKLMNOPQRSTUVWXYabcdefghijklmnopqrstuvwxy";
    [60, 1].map(|power| characters[number / power % 60] as char).iter().collect()
}

/// Files whose cues name regions, each with its letter and its name. Where a name is of no region, all of them have to be looked at.
pub fn named_regions() -> Vec<(char, &'static str, Vec<u8>)> {
    // Half of the greatest length for the regions, of 13 or 14 bytes, and half for the cues, of 31 or 32.
    let (half_regions, half_cues) = (645_277, 270_600);
    let absent = other_names("a", half_regions, half_cues, |_| "b".into());
    assert_eq!(absent.len(), 16_777_209);
    let four_regions: String = ["top", "low", "left", "right"].map(|name| format!("REGION\nid:{name}\nlines:2\n\n")).concat();
    let in_turn = |cue: usize| [" region:top", " region:low", " region:left", " region:right"][cue % 4];
    vec![
        ('a', "10^5 regions `a`, 10^5 cues that name `b`", other_names("a", 100_000, 100_000, |_| "b".into())),
        ('b', "16 MB of regions `a` and cues that name `b`", absent),
        ('c', "as b, the cues name `b` and `c` in turn", other_names("a", half_regions, half_cues, |cue| ["b", "c"][cue % 2].into())),
        ('d', "16 MB of regions `zz` and cues that name 3,600 others in turn", other_names("zz", 599_186, 262_143, two_characters)),
        ('e', "10^5 regions, 10^4 cues that name them", regions(100_000, 10_000)),
        ('f', "10^4 regions, 10^4 cues that name one each", regions(10_000, 10_000)),
        ('g', "an episode of 1 MB, 4 regions in turn", episode_with(&four_regions, in_turn, 1_000_000).into_bytes()),
        ('h', "10^3 regions `zz`, 16 MB of cues that name 3,600 others in turn", other_names("zz", 1000, 523_800, two_characters)),
    ]
}

/// The worst cases of reading, each with its name.
pub fn worst() -> Vec<(&'static str, Vec<u8>)> {
    let timing = "WEBVTT\n\n00:00.000 --> 00:01.000";
    vec![
        ("one line", filled("WEBVTT ", b"x")),
        ("one cue text of one line", filled("WEBVTT\n\n00:00.000 --> 00:01.000\n", b"x")),
        ("only LF", filled("WEBVTT\n", b"\n")),
        ("only CR", filled("WEBVTT\n", b"\r")),
        ("only `-`", filled("WEBVTT\n\n", b"-")),
        ("only NUL", filled("WEBVTT\n\n", b"\0")),
        ("only bytes FF", filled("WEBVTT\n\n", b"\xFF")),
        ("only cut sequences F0 9F 98", filled("WEBVTT\n\n", b"\xF0\x9F\x98")),
        ("only two-byte characters", filled("WEBVTT\n\n", "ß".as_bytes())),
        ("only three-byte characters", filled("WEBVTT\n\n", "語".as_bytes())),
        ("` a` on a timing line", filled(timing, b" a")),
        ("` line:0` on a timing line", filled(timing, b" line:0")),
        ("lines `-->`", filled("WEBVTT\n\n", b"-->\n")),
        ("blocks of one letter", filled("WEBVTT\n\n", b"x\n\n")),
        ("shortest cues", filled("WEBVTT\n\n", b"00:00.000-->00:00.000\n")),
        ("a number of 16 million digits", filled("WEBVTT\n\n00:00.000 --> 00:01.000 position:", b"0")),
        ("numbers of a million digits", {
            let digits = [b" size:".as_slice(), &[b'1'; 1_000_000], b"%"].concat();
            filled(timing, &digits)
        }),
        ("10^5 regions, 10^4 cues that name them", regions(100_000, 10_000)),
    ]
}

/// What converting meets, each kind of byte by itself, and texts.
pub fn bytes() -> Vec<(&'static str, Vec<u8>)> {
    let of = |with: &[u8]| filled("WEBVTT\n\n", with);
    vec![
        ("an episode", episode(12_000_000, "\n")),
        ("a text in Russian", of("Последний трамвай не ждёт. ".as_bytes())),
        ("one line", of(b"x")),
        ("CR LF after every second byte", of(b"xx\r\n")),
        ("CR", of(b"\r")),
        ("two-byte characters", of("ß".as_bytes())),
        ("three-byte characters", of("語".as_bytes())),
        ("four-byte characters", of("😀".as_bytes())),
        ("one to four bytes in turn", of("aß語😀".as_bytes())),
        ("NUL", of(b"\0")),
        ("FF", of(b"\xFF")),
        ("80", of(b"\x80")),
        ("C2", of(b"\xC2")),
        ("E2 82", of(b"\xE2\x82")),
        ("F0 9F 98", of(b"\xF0\x9F\x98")),
        ("F0 9F 41", of(b"\xF0\x9FA")),
        ("ED A0 80", of(b"\xED\xA0\x80")),
    ]
}

/// The worst cases of a cue's text.
pub fn worst_texts() -> Vec<(&'static str, Vec<u8>)> {
    let of = |with: &str, length: usize| with.repeat(length / with.len()).into_bytes();
    vec![
        ("`<i>` in `<i>`, 700 KB", of("<i>", 700_000)),
        ("`<i>` in `<i>`, 16 MB", of("<i>", MAX_FILE)),
        ("`<i></i>`, 16 MB", of("<i></i>", MAX_FILE)),
        ("`<c.a.b.c>`, 16 MB", of("<c.a.b.c>", MAX_FILE)),
        ("`&amp;`, 16 MB", of("&amp;", MAX_FILE)),
        ("`&`, 16 MB", of("&", MAX_FILE)),
        ("`<`, 16 MB", of("<", MAX_FILE)),
        ("`</i>`, 16 MB", of("</i>", MAX_FILE)),
        ("`<00:00:00.000>`, 16 MB", of("<00:00:00.000>", MAX_FILE)),
        ("one string, 16 MB", of("x", MAX_FILE)),
    ]
}

/// Times and timing lines of 16 MB, as long as any of their steps can make them.
pub fn worst_times() -> Vec<(&'static str, Vec<u8>)> {
    let time = b"00:01.000";
    vec![
        ("digits", filled("", b"0")),
        ("hours of 16 MB, and a time after them", [filled("", b"0"), b":00:00.000".to_vec()].concat()),
        ("spaces, and a timing line after them", [filled("", b" "), [time, &b" --> "[..], time].concat()].concat()),
        ("a time, and spaces after it", filled("00:01.000", b" ")),
        ("a timing line, and `line:5` after it", filled("00:01.000 --> 00:02.000", b" line:5")),
    ]
}
