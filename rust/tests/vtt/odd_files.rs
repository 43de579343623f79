//! Files of every kind, whole and damaged, long and empty: an answer or a refusal for each, never a crash, and the same answer from each command.
use crate::documents::lines_of;
use crate::published::runs;
use crate::random::Random;
use crate::tools::{fields, found, within, Folder, FIRST_LINE, LINE_COUNT, TEXT};
use std::time::Duration;

const MOST: usize = 16_777_216;
const LIMIT: Duration = Duration::from_secs(20);

/// What may be put into a file to damage it.
const PIECES: [&[u8]; 24] = [
    b"-->",
    b"\n",
    b"\n\n",
    b"\r",
    b"\r\n",
    b"\0",
    b"\xFF",
    b"\xE2\x82",
    b"\xF0\x9F\x9A",
    b"\xEF\xBB\xBF",
    b"\xC0\x80",
    b"<",
    b">",
    b"&",
    b"&lt;",
    b"<ruby><rt>",
    b"</v>",
    b"00:00:01.000 --> 00:00:02.000",
    b"STYLE\n",
    b"REGION\nid:",
    b" region:",
    b" line:999999999",
    b"99999999",
    b"NOTE",
];

/// A copy with some damage.
fn damaged(file: &[u8], random: &mut Random) -> Vec<u8> {
    let mut file = file.to_vec();
    for _ in 0..1 + random.below(6) {
        let at = random.below(file.len() + 1);
        match random.below(6) {
            0 if at < file.len() => file[at] = random.word() as u8,
            1 => file.truncate(at.max(6)),
            2 => drop(file.drain(at..(at + random.below(12)).min(file.len()))),
            3 => {
                let again = file[at..(at + random.below(200)).min(file.len())].to_vec();
                let to = random.below(file.len() + 1);
                file.splice(to..to, again);
            }
            _ => drop(file.splice(at..at, PIECES[random.below(PIECES.len())].iter().copied())),
        }
    }
    file
}

/// The number of a refusal in a sentence.
fn refusal(sentence: &str) -> Option<u64> {
    sentence.split(": refused ").nth(1)?.split(':').next()?.parse().ok()
}

/// Every command on one file: each ends as its help says, and what they answer goes together. Gives the lines and the document of a file that
/// is accepted.
fn try_all(folder: &Folder, name: &str, file: &[u8]) -> Option<(String, Vec<u8>)> {
    folder.write("a.vtt", file);
    let [list, json, tree, check, rewrite, plain, mend, diff] = [
        &["list", "a.vtt"][..],
        &["list", "--json", "a.vtt"],
        &["tree", "a.vtt", "0"],
        &["check", "a.vtt"],
        &["rewrite", "a.vtt"],
        &["plain", "a.vtt"],
        &["mend", "a.vtt", "0", "--text", "x"],
        &["mend", "a.vtt", "0", "--start", "0", "--diff"],
    ]
    .map(|words| folder.vtt(words));
    assert_eq!(plain.status, 0, "{name}");
    assert!(std::str::from_utf8(&plain.out).is_ok_and(|text| !text.contains(['\r', '\0'])), "{name}");
    if let Some(number) = refusal(&list.err) {
        assert!([4, 5].contains(&number), "{name}: {}", list.err);
        for other in [&json, &tree, &rewrite, &mend, &diff] {
            assert_eq!((other.status, other.out.len(), &other.err), (1, 0, &list.err), "{name}");
        }
        assert_eq!((check.status, check.out, check.err.as_str()), (1, list.err.into_bytes(), ""), "{name}");
        return None;
    }
    assert_eq!((list.status, json.status, check.status, check.err.as_str()), (0, 0, 0, ""), "{name}");
    let lines = String::from_utf8(list.out).expect("UTF-8");
    let cues: Vec<Vec<String>> = lines.lines().filter(|line| line.starts_with("cue\t")).map(fields).collect();
    let checked = String::from_utf8(check.out).expect("UTF-8");
    let unwritable = checked.contains(" cannot be written: ");
    assert_eq!((rewrite.status, refusal(&rewrite.err)), if unwritable { (1, Some(8)) } else { (0, None) }, "{name}");
    if cues.is_empty() {
        for other in [&tree, &mend, &diff] {
            assert_eq!((other.status, refusal(&other.err)), (1, Some(7)), "{name}: {}", other.err);
        }
        return Some((lines, json.out));
    }
    assert!(tree.status == 0 || refusal(&tree.err) == Some(5), "{name}: {}", tree.err);
    assert!(diff.status == 0 || refusal(&diff.err) == Some(8), "{name}: {}", diff.err);
    assert_eq!(mend.status == 0, checked.find(": cue 0 cannot be written: ").is_none(), "{name}: {}", mend.err);
    if mend.status == 0 {
        let after = folder.vtt_given(["list", "-"], &mend.out).text();
        let new: Vec<Vec<String>> = after.lines().filter(|line| line.starts_with("cue\t")).map(fields).collect();
        assert_eq!(new.len(), cues.len(), "{name}");
        for (number, (old, new)) in cues.iter().zip(&new).enumerate() {
            let differing: Vec<usize> = (0..old.len()).filter(|field| old[*field] != new[*field]).collect();
            let allowed: &[usize] = if number == 0 { &[TEXT, LINE_COUNT] } else { &[FIRST_LINE] };
            assert!(differing.iter().all(|field| allowed.contains(field)), "{name}: cue {number}: {old:?} {new:?}");
        }
    }
    Some((lines, json.out))
}

/// Tries files, and reads all their documents with Python.
fn try_files(folder: &str, files: impl Iterator<Item = (String, Vec<u8>)>) {
    let folder = Folder::new(folder);
    let mut expected = String::new();
    let mut documents = vec![];
    for (name, file) in files {
        if let Some((lines, document)) = try_all(&folder, &name, &file) {
            expected.push_str(&format!("{lines}file\ta.vtt\n"));
            folder.write(&format!("{}.json", documents.len()), document);
            documents.push(format!("{}.json", documents.len()));
        }
    }
    assert!(documents.len() > 20, "{} files are accepted", documents.len());
    if found("python3") {
        assert!(lines_of(&folder, &documents) == expected, "a document does not have what the lines have");
    }
}

/// Every public file.
#[test]
fn public_files() {
    try_files("odd-public", runs("lists").into_iter().map(|run| (run.name, run.input)));
}

/// Damaged copies of public files, 75 of each seed.
fn damaged_files(seed: u64) {
    let files = runs("lists");
    let mut random = Random::new(seed);
    let copies = (0..75).map(|copy| {
        let run = &files[random.below(files.len())];
        (format!("seed {seed}, copy {copy} of {}", run.name), damaged(&run.input, &mut random))
    });
    try_files(&format!("odd-damaged-{seed}"), copies.collect::<Vec<_>>().into_iter());
}

#[test]
fn damaged_files_1() {
    damaged_files(1);
}

#[test]
fn damaged_files_2() {
    damaged_files(2);
}

#[test]
fn damaged_files_3() {
    damaged_files(3);
}

#[test]
fn damaged_files_4() {
    damaged_files(4);
}

/// Short files: empty, one byte, and every start of a file, some of which end in the middle of a character.
#[test]
fn short_files() {
    let folder = Folder::new("odd-short");
    assert!(try_all(&folder, "empty", b"").is_none());
    let whole = "\u{FEFF}WEBVTT\n\nä\n00:01.000 --> 00:02.000\n\u{1F68B} tram<i>\u{20AC}";
    for length in 0..=whole.len() {
        let answer = try_all(&folder, &format!("the first {length} bytes"), &whole.as_bytes()[..length]);
        assert_eq!(answer.is_some(), length >= 9, "{length}");
    }
    for byte in [0, b'\n', b'\r', b'W', 0x1A, 0x7F, 0x80, 0xBF, 0xC2, 0xE2, 0xF0, 0xFF] {
        try_all(&folder, &format!("the byte {byte}"), &[byte]);
    }
    folder.write("cut.vtt", b"WEBVTT\n\n00:01.000 --> 00:02.000\nThe last tram\xF0\x9F\x9A");
    assert!(folder.vtt(["list", "cut.vtt"]).text().contains("\tThe last tram\u{FFFD}\t"));
    assert!(folder.vtt(["check", "cut.vtt"]).text().contains("cut.vtt:4:14: warning: broken-utf8: "));
}

/// Devices: one with nothing in it, and one without end.
#[test]
fn devices() {
    let folder = Folder::new("odd-devices");
    assert!(folder.vtt(["list", "/dev/null"]).refused(4).ends_with("it is empty"));
    assert_eq!(folder.vtt(["plain", "/dev/null"]).text(), "");
    for words in [&["list", "/dev/zero"][..], &["plain", "/dev/zero"], &["mend", "/dev/zero", "0", "--text", "x", "--in-place"]] {
        assert!(within(LIMIT, &folder, words).refused(1).starts_with("/dev/zero: "), "{words:?}");
    }
}

/// A start and then a piece over and over, up to a length.
fn filled(start: &str, piece: &[u8], length: usize) -> Vec<u8> {
    let mut file = [start.as_bytes(), &piece.repeat(length / piece.len() + 1)].concat();
    file.truncate(length);
    file
}

const CUE: &str = "WEBVTT\n\n00:00:01.000 --> 00:00:02.000\n";

/// Exactly as long as a file may be, and one byte more.
#[test]
fn the_longest_file() {
    let folder = Folder::new("odd-longest");
    folder.write("a.vtt", filled(CUE, b"x", MOST));
    let commands: [&[&str]; 4] = [&["list", "a.vtt"], &["check", "a.vtt"], &["plain", "a.vtt"], &["mend", "a.vtt", "0", "--text", "x"]];
    let lengths = commands.map(|words| {
        let done = within(LIMIT, &folder, words);
        assert_eq!(done.status, 0, "{words:?}: {}", done.err);
        done.out.len()
    });
    assert!(lengths[0] > MOST - 100);
    assert_eq!((lengths[2], lengths[3]), (MOST, CUE.len() + 1));
    folder.write("a.vtt", filled(CUE, b"x", MOST + 1));
    for words in commands {
        let done = within(LIMIT, &folder, words);
        assert_eq!(done.status, 1, "{words:?}");
        let told = [String::from_utf8_lossy(&done.out).as_ref(), &done.err].concat();
        assert!(told.starts_with("a.vtt: refused 1: "), "{told}");
    }
}

/// 16 MB of one letter, of LF, of `<`, of arrows: answered in time.
#[test]
fn long_files_of_one_thing() {
    let folder = Folder::new("odd-long");
    for (start, piece) in
        [("WEBVTT\n\n", &b"x"[..]), ("WEBVTT\n", b"\n"), (CUE, b"<"), ("WEBVTT\n\n", b"-->\n"), (CUE, b"&lt;"), ("", b"x")]
    {
        let file = filled(start, piece, MOST);
        folder.write("a.vtt", &file);
        let done = within(LIMIT, &folder, &["check", "a.vtt"]);
        assert_eq!(done.status, start.is_empty() as i32, "{}", String::from_utf8_lossy(piece));
        assert!(done.out.starts_with(b"a.vtt:") && done.out.len() < 20_000);
    }
}

/// Many cues that name the last of many regions: to check them takes time by their sum, as to list them does.
#[test]
fn many_cues_in_one_of_many_regions() {
    let folder = Folder::new("odd-regions");
    let regions: String = (0..40_000).map(|number| format!("REGION\nid:{number}\n\n")).collect();
    folder.write("a.vtt", format!("WEBVTT\n\n{regions}{}", "00:01.000 --> 00:02.000 region:39999\n\n".repeat(200_000)));
    within(Duration::from_secs(8), &folder, &["list", "a.vtt"]);
    within(Duration::from_secs(8), &folder, &["check", "a.vtt"]);
}
