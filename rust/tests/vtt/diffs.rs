//! One cue of a whole episode mended: what `cmp`, `diff` and `patch` say of it, and what `vtt mend --diff` prints.
use crate::random::Random;
use crate::tools::{found, output_of, Folder};

/// An episode of 60 KB with CR LF ends, comments, NUL and broken bytes, some cues with no empty line between them, and no line end at its end.
fn episode() -> Vec<u8> {
    let mut file =
        b"\xEF\xBB\xBFWEBVTT Night tram, episode 12\r\n\r\nNOTE caf\xE9, not UTF-8\r\n\0\r\n\r\nREGION\r\nid:low\r\n\r\n".to_vec();
    for cue in 0..660_u32 {
        if cue % 3 == 0 {
            file.extend_from_slice(format!("{}\r\n", cue + 1).as_bytes());
        }
        let (minute, second) = (cue / 30, cue * 2 % 60);
        let settings = ["", " align:left", " line:90%", " region:low", "\tfoo:bar "][cue as usize % 5];
        file.extend_from_slice(format!("00:{minute:02}:{second:02}.000 --> 00:{minute:02}:{second:02}.900{settings}\r\n").as_bytes());
        file.extend_from_slice(format!("- Line one of caption {cue},\r\n").as_bytes());
        file.extend_from_slice(if cue % 7 == 0 { b"and a \xFF\0 broken one.\r\n" } else { b"and its second line.\r\n" });
        if cue % 3 == 2 || cue % 5 != 0 {
            file.extend_from_slice(b"\r\n");
        }
        if cue % 50 == 49 {
            file.extend_from_slice(b"NOTE \xC3\x28 page\0 ends\r\nand goes on\r\n\r\n");
        }
    }
    file.extend_from_slice(b"NOTE cut in the middle of a character \xE2\x82");
    file
}

/// The lines of a file, with their LF.
fn lines(bytes: &[u8]) -> Vec<&[u8]> {
    bytes.split_inclusive(|byte| *byte == b'\n').collect()
}

/// The number of the line, from 1, with a text in it.
fn line_with(bytes: &[u8], text: &str) -> usize {
    lines(bytes).iter().position(|line| String::from_utf8_lossy(line).contains(text)).expect("a line with it") + 1
}

/// Where one line and those after it stand.
fn place(bytes: &[u8], first: usize, count: usize) -> std::ops::Range<usize> {
    let lines = lines(bytes);
    let length = |lines: &[&[u8]]| lines.iter().map(|line| line.len()).sum::<usize>();
    length(&lines[..first - 1])..length(&lines[..first - 1 + count])
}

/// A cue found by a line of its text, mended in place: `cmp` and `diff` show that its own lines differ, and nothing else.
#[test]
fn cmp_and_diff_show_only_the_cue() {
    if !found("cmp") || !found("diff") {
        return;
    }
    let folder = Folder::new("episode");
    let old = episode();
    assert!((60_000..80_000).contains(&old.len()), "{}", old.len());
    folder.write("old.vtt", &old);
    folder.write("new.vtt", &old);
    let line = line_with(&old, "caption 301,");
    // The written form has LF where the old cue has CR LF, twice: with two letters more both files are of one length.
    let text = "- Line one OF caption 301!!\nand its second line!!";
    let done = folder.vtt(["mend", "new.vtt", "--line", &line.to_string(), "--text", text, "--in-place"]);
    assert_eq!(
        (done.status, done.err.as_str()),
        (0, format!("new.vtt: cue 301 is replaced, now lines {} to {}\n", line - 1, line + 1).as_str())
    );
    let new = folder.read("new.vtt");
    assert_eq!(new.len(), old.len());
    let own = place(&old, line - 1, 3);

    let output = output_of(folder.program("cmp", ["-l", "old.vtt", "new.vtt"]), b"");
    let differing: Vec<usize> = String::from_utf8_lossy(&output.stdout)
        .lines()
        .map(|line| line.split_whitespace().next().and_then(|place| place.parse().ok()).expect("a place"))
        .collect();
    assert!(!differing.is_empty());
    for at in differing {
        assert!(own.contains(&(at - 1)), "byte {at} is outside the cue's own, {own:?}");
    }

    let output = output_of(folder.program("diff", ["-a", "old.vtt", "new.vtt"]), b"");
    let changes: Vec<&[u8]> = lines(&output.stdout).into_iter().filter(|line| line[0].is_ascii_digit()).collect();
    let range = format!("{},{}", line - 1, line + 1);
    assert_eq!(changes, [format!("{range}c{range}\n").as_bytes()]);
}

/// What is told of the listing: every other cue is read as before.
#[test]
fn the_other_cues_are_listed_as_before() {
    let folder = Folder::new("episode-listed");
    let old = episode();
    folder.write("a.vtt", &old);
    let before = folder.vtt(["list", "a.vtt"]).text();
    let line = line_with(&old, "caption 100,").to_string();
    folder.vtt(["mend", "a.vtt", "--line", &line, "--text", "One line.", "--in-place", "--quiet"]).printed();
    let after = folder.vtt(["list", "a.vtt"]).text();
    let differing: Vec<&str> =
        before.lines().zip(after.lines()).filter(|(one, other)| unplaced(one) != unplaced(other)).map(|(_, new)| new).collect();
    assert_eq!(before.lines().count(), after.lines().count());
    assert!(differing.len() == 1 && differing[0].contains("\tOne line.\t"), "{differing:?}");
}

/// A cue's line without its first line, which moves where a cue before it has fewer lines.
fn unplaced(line: &str) -> String {
    let fields: Vec<&str> = line.split('\t').collect();
    fields.iter().enumerate().filter(|(index, _)| *index != 14).map(|(_, field)| *field).collect::<Vec<_>>().join("\t")
}

/// The range of lines that a hunk's head names: how many come before it, and how many it has.
fn range(word: &str) -> (usize, usize) {
    let numbers: Vec<usize> = word[1..].split(',').map(|number| number.parse().expect("a number")).collect();
    let count = numbers.get(1).copied().unwrap_or(1);
    (if count == 0 { numbers[0] } else { numbers[0] - 1 }, count)
}

/// The file that a unified diff of one hunk makes of an old one, by the rules of such a diff and nothing else.
fn applied(old: &[u8], diff: &[u8]) -> Vec<u8> {
    let mut rest = lines(diff).into_iter();
    assert!(rest.next().is_some_and(|line| line.starts_with(b"--- ")) && rest.next().is_some_and(|line| line.starts_with(b"+++ ")));
    let head = String::from_utf8_lossy(rest.next().expect("a hunk")).into_owned();
    let words: Vec<&str> = head.split_whitespace().collect();
    assert_eq!((words[0], words[3], words.len()), ("@@", "@@", 4), "{head}");
    let ((old_before, old_count), (new_before, new_count)) = (range(words[1]), range(words[2]));
    assert_eq!(old_before, new_before);
    let mut hunk: Vec<(u8, Vec<u8>)> = vec![];
    for line in rest {
        match line[0] {
            b'\\' => assert_eq!(hunk.last_mut().expect("a line before it").1.pop(), Some(b'\n')),
            mark => hunk.push((mark, line[1..].to_vec())),
        }
    }
    let side =
        |mark: u8| hunk.iter().filter(|(other, _)| [mark, b' '].contains(other)).map(|(_, line)| line.as_slice()).collect::<Vec<_>>();
    let old_lines = lines(old);
    assert_eq!((side(b'-').len(), side(b'+').len()), (old_count, new_count));
    assert!(side(b'-') == old_lines[old_before..old_before + old_count], "the old lines are not those of the file");
    [&old_lines[..old_before], &side(b'+'), &old_lines[old_before + old_count..]].concat().concat()
}

/// The files and changes of which a diff is looked at: in the middle, at both ends, with all line ends, longer and shorter.
fn cases() -> Vec<(Vec<u8>, Vec<String>)> {
    let words = |line: &[&str]| line.iter().map(|word| word.to_string()).collect::<Vec<_>>();
    let episode = episode();
    let line = line_with(&episode, "caption 301,").to_string();
    let short = b"WEBVTT\n\n00:01.000 --> 00:02.000\nOne.\n".to_vec();
    vec![
        (episode.clone(), words(&["--line", &line, "--text", "One line."])),
        (episode.clone(), words(&["--line", &line, "--text", "1\n2\n3\n4\n5"])),
        (episode.clone(), words(&["--line", &line, "--end", "01:00:00.000"])),
        (episode.clone(), words(&["--line", &line, "--start", "0", "--quiet"])),
        (episode.clone(), words(&["0", "--text", "x"])),
        (episode, words(&["659", "--text", "x"])),
        (short.clone(), words(&["0", "--text", ""])),
        (short.clone(), words(&["0", "--id", "a"])),
        (short[..short.len() - 1].to_vec(), words(&["0", "--text", "Two."])),
        (short[..short.len() - 1].to_vec(), words(&["0", "--end", "2001"])),
        (b"WEBVTT\n\n00:00:01.000 --> 00:00:02.000".to_vec(), words(&["0", "--text", "One."])),
        (b"WEBVTT\r\r00:01.000 --> 00:02.000\rOne.\r\r00:02.000 --> 00:03.000".to_vec(), words(&["0", "--text", "Two."])),
    ]
}

/// `--diff` writes nothing; applied to the old file it makes the new one, by hand and by `patch`.
#[test]
fn a_diff_makes_the_new_file_of_the_old() {
    let folder = Folder::new("diff");
    let patch = found("patch");
    for (old, words) in cases() {
        folder.write("a.vtt", &old);
        let words: Vec<&str> = ["mend", "a.vtt"].into_iter().chain(words.iter().map(String::as_str)).collect();
        let new = folder.vtt(&words).out;
        let diff = folder.vtt([&words[..], &["--diff"]].concat());
        assert_eq!(diff.status, 0, "{words:?}");
        assert!(diff.out.starts_with(b"--- a.vtt\n+++ a.vtt\n@@ "), "{words:?}");
        assert!(folder.read("a.vtt") == old && applied(&old, &diff.out) == new, "{words:?}");
        if patch {
            let output = output_of(folder.program("patch", ["--binary", "-s", "-o", "patched.vtt", "a.vtt"]), &diff.out);
            assert!(output.status.success(), "{words:?}: {}", String::from_utf8_lossy(&output.stdout));
            assert!(folder.read("patched.vtt") == new, "{words:?}: patch makes another file");
        }
    }
}

/// `--diff` prints what `diff -u` prints, but for the two lines with the names.
#[test]
fn a_diff_is_that_of_diff() {
    if !found("diff") {
        return;
    }
    let folder = Folder::new("diff-u");
    for (old, words) in cases() {
        folder.write("a.vtt", &old);
        let words: Vec<&str> = ["mend", "a.vtt"].into_iter().chain(words.iter().map(String::as_str)).collect();
        folder.write("b.vtt", folder.vtt(&words).out);
        let diff = folder.vtt([&words[..], &["--diff"]].concat()).out;
        let theirs = output_of(folder.program("diff", ["-a", "-u", "a.vtt", "b.vtt"]), b"").stdout;
        let hunks = lines(&theirs).into_iter().filter(|line| line.starts_with(b"@@ ")).count();
        assert_eq!(hunks, 1, "{words:?}");
        assert!(
            lines(&diff)[2..] == lines(&theirs)[2..],
            "{words:?}: {}\n{}",
            String::from_utf8_lossy(&diff),
            String::from_utf8_lossy(&theirs)
        );
    }
}

/// Texts of few different lines, made others: the diff makes the new file of the old, and marks no more lines than `diff` does.
#[test]
fn diffs_of_random_texts() {
    let folder = Folder::new("diff-random");
    let theirs = found("diff");
    let mut random = Random::new(1);
    for _ in 0..40 {
        let mut text = || (0..1 + random.below(9)).map(|_| ["a", "b", "c", "d"][random.below(4)]).collect::<Vec<_>>().join("\n");
        let (old, new) = (text(), text());
        let file = |text: &str| format!("WEBVTT\n\n00:00:01.000 --> 00:00:02.000\n{text}\n\nNOTE\nbehind\n").into_bytes();
        folder.write("a.vtt", file(&old));
        folder.write("b.vtt", file(&new));
        let diff = folder.vtt(["mend", "a.vtt", "0", "--text", &new, "--diff"]).printed();
        let marked = |diff: &[u8]| lines(diff).iter().skip(2).filter(|line| b"+-".contains(&line[0])).count();
        if old == new {
            assert!(diff.is_empty());
            continue;
        }
        assert!(applied(&file(&old), &diff) == file(&new), "{old:?} {new:?}");
        if theirs {
            let theirs = output_of(folder.program("diff", ["-d", "-u", "a.vtt", "b.vtt"]), b"").stdout;
            assert_eq!(marked(&diff), marked(&theirs), "{old:?} {new:?}");
        }
    }
}

/// A change that changes nothing has an empty diff.
#[test]
fn no_change_has_no_diff() {
    let folder = Folder::new("diff-none");
    folder.write("a.vtt", "WEBVTT\n\n00:00:01.000 --> 00:00:02.000\nOne.\n");
    assert_eq!(folder.vtt(["mend", "a.vtt", "0", "--text", "One.", "--diff"]).text(), "");
}

/// A name with a space: `patch` finds the file all the same.
#[test]
fn a_diff_of_a_name_with_a_space() {
    if !found("patch") {
        return;
    }
    let folder = Folder::new("diff-name");
    folder.write("episode 12.vtt", "WEBVTT\n\n00:01.000 --> 00:02.000\nOne.\n");
    let diff = folder.vtt(["mend", "episode 12.vtt", "0", "--text", "Two.", "--diff"]).printed();
    let output = output_of(folder.program("patch", ["-s", "-f", "-p0"]), &diff);
    assert!(output.status.success(), "{}", String::from_utf8_lossy(&output.stdout));
    assert!(folder.read("episode 12.vtt").ends_with(b"Two.\n"));
}

/// Only lines that change are marked: a timing line between a new identifier and a new text stays, and is shown so.
#[test]
fn a_diff_marks_only_lines_that_change() {
    let folder = Folder::new("diff-marks");
    folder.write("a.vtt", "WEBVTT\n\na\n00:00:01.000 --> 00:00:02.000\nOne.\n");
    let diff = folder.vtt(["mend", "a.vtt", "0", "--id", "b", "--text", "Two.", "--diff"]).text();
    assert!(diff.ends_with("-a\n+b\n 00:00:01.000 --> 00:00:02.000\n-One.\n+Two.\n"), "{diff}");
    folder.write("a.vtt", "WEBVTT\n\n00:00:01.000 --> 00:00:02.000\n1\n2\n3\n4\n");
    let diff = folder.vtt(["mend", "a.vtt", "0", "--text", "0\n2\n3\n5\n4", "--diff"]).text();
    assert!(diff.ends_with("@@ -1,7 +1,8 @@\n WEBVTT\n \n 00:00:01.000 --> 00:00:02.000\n-1\n+0\n 2\n 3\n+5\n 4\n"), "{diff}");
}
