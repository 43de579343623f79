//! Where the reading of a time fails: the examples of request Q-5 with the answers that stand there, times and lines that are damaged in every way
//! against the papers, what holds of every place, and the longest texts.
use crate::compare::{first_seed, number_from, Case};
use crate::generate::{damage, file, time_or_line, timed_file};
use crate::limits::filled;
use crate::papers;
use spatzenherd::{lent, tag_time, time, timing_line, Failed, File, Kind, NoTime, Refusal, Time, TimingLine, Tree, MAX_FILE, MAX_TEXT};
use std::collections::BTreeMap;
use std::time::{Duration, Instant};

/// The request's first table: a time, and its milliseconds and where it ends.
const TIMES: &str = r"
| (empty) | step 1 (digit missing), place 0 |
| `x` | step 1 (digit missing), place 0 |
| `00` | step 3 (colon missing), place 2 |
| `00:` | step 2 (wrong digit count), place 3 |
| `00:1` | step 2 (wrong digit count), place 4 |
| `00:001` | step 2 (wrong digit count), place 6 |
| `00:01` | step 4 (full stop missing), place 5 |
| `00:01,000` | step 4 (full stop missing), place 5 |
| `00:01.` | step 2 (wrong digit count), place 6 |
| `00:01.00` | step 2 (wrong digit count), place 8 |
| `00:01.0000` | step 2 (wrong digit count), place 10 |
| `00:60.000` | step 5 (value over 59), place 9 |
| `60:00.000` | step 3 (colon missing), place 5 |
| `1:00.000` | step 3 (colon missing), place 4 |
| `00:00:60.000` | step 5 (value over 59), place 12 |
| `00:60:00.000` | step 5 (value over 59), place 12 |
| `00:00:0.000` | step 2 (wrong digit count), place 7 |
| `00:00:` | step 2 (wrong digit count), place 6 |
| `000:00:00` | step 4 (full stop missing), place 9 |
| `00 :01.000` | step 3 (colon missing), place 2 |
| `00:01.000` | ok: 1000, 9 |
| `00:01.000x` | ok: 1000, 9 |
| `60:60:00` | step 4 (full stop missing), place 8 |
| `60:60.000` | step 3 (colon missing), place 5 |
| `100000:00:00.000` | ok: above the limit, 16 |
| `99999:59:59.999` | ok: 359999999999, 15 |
";

/// The second: a line, and start, end and where the end time ends.
const LINES: &str = r"
| `-->` | step 1 (digit missing), place 0 |
| `x-->` | step 1 (digit missing), place 0 |
| ` 00:01.000-->` | step 1 (digit missing), place 13 |
| `00:01.000 x--> 00:02.000` | step 6 (arrow missing), place 10 |
| `00:01.000 - --> 00:02.000` | step 6 (arrow missing), place 11 |
| `00:01.000 -- > 00:02.000` | step 6 (arrow missing), place 12 |
| `00:01.000--->00:02.000` | step 6 (arrow missing), place 11 |
| `00:01.000 -->\t00:02,000` | step 4 (full stop missing), place 19 |
| `00:01.000 --> 00:02.00` | step 2 (wrong digit count), place 22 |
| `00:01,000 --> 00:02,000` | step 4 (full stop missing), place 5 |
| `00:01.000 --> 00:60.000 line:0` | step 5 (value over 59), place 23 |
| `00:01.000 --> x` | step 1 (digit missing), place 14 |
| `00:01.0000 --> 00:02.000` | step 2 (wrong digit count), place 10 |
| `100000:00:00.000 --> x` | step 1 (digit missing), place 21 |
| `00:01.000-->00:02.000x` | ok: 1000, 2000, 21 |
| `00:01.000` | step 6 (arrow missing), place 9 |
";

/// The third: a tag, and its milliseconds. Places are inside the tag.
const TAGS: &str = r"
| `<00:01.000>` | ok: 1000 |
| `<00:01.000 >` | step 7 (something after the time), place 9 |
| `<00:01.000.>` | step 7 (something after the time), place 9 |
| `<00:01>` | step 4 (full stop missing), place 5 |
| `<00>` | step 3 (colon missing), place 2 |
| `<1>` | step 3 (colon missing), place 1 |
| `<00:61.000>` | step 5 (value over 59), place 9 |
| `<100000:00:00.000>` | ok: above the limit |
| `<100000:00:00.000x>` | step 7 (something after the time), place 16 |
| `<00:01.0001>` | step 2 (wrong digit count), place 10 |
| `<00:01.000\xE5\xAD\x97>` | step 7 (something after the time), place 9 |
";

/// What a table's cell stands for: `\t` and `\xHH` are escapes.
fn unescaped(cell: &str) -> Vec<u8> {
    let mut bytes = vec![];
    let mut rest = if cell == "(empty)" { "" } else { cell.trim_matches('`') };
    while let Some(byte) = rest.bytes().next() {
        let (byte, length) = match rest.strip_prefix('\\').map(|escape| escape.split_at(1)) {
            Some(("t", _)) => (b'\t', 2),
            Some(("x", digits)) => (u8::from_str_radix(&digits[..2], 16).expect("two digits"), 4),
            _ => (byte, 1),
        };
        bytes.push(byte);
        rest = &rest[length..];
    }
    bytes
}

/// The rows of a table: what is asked about, and the answer.
fn rows(table: &str) -> Vec<(Vec<u8>, &str)> {
    let cells = table.lines().filter_map(|line| line.strip_prefix("| ")?.strip_suffix(" |")?.split_once(" | "));
    cells.map(|(asked, answer)| (unescaped(asked), answer)).collect()
}

const ABOVE: &str = "ok: above the limit";

/// An answer in the words of the tables.
fn in_words(answer: Result<String, NoTime>) -> String {
    match answer {
        Ok(numbers) => format!("ok: {numbers}"),
        Err(NoTime::Failed(Failed { fault, place })) => format!("step {} ({fault}), place {place}", fault.number()),
        Err(NoTime::Refused(refusal)) => {
            assert_eq!(refusal, Refusal::OverLimit);
            ABOVE.into()
        }
    }
}

/// Each row's answer is the library's and that of the papers. A refusal has no values: where a time above the limit ends is not told.
fn answers(rows: &[(Vec<u8>, &str)], answer: impl Fn(&[u8]) -> Result<String, NoTime>) {
    for (asked, expected) in rows {
        let told = in_words(answer(asked));
        let same = told == *expected || told == ABOVE && expected.starts_with(ABOVE);
        assert!(same, "{:?}: {told} for {expected}", String::from_utf8_lossy(asked));
        Case::new(0).times(asked);
    }
}

#[test]
fn examples_of_times() {
    let rows = rows(TIMES);
    assert_eq!(rows.len(), 26);
    answers(&rows, |text| time(text).map(|time| format!("{}, {}", time.milliseconds, time.ends_at)));
}

#[test]
fn examples_of_lines() {
    let rows = rows(LINES);
    assert_eq!(rows.len(), 16);
    answers(&rows, |line| timing_line(line).map(|line| format!("{}, {}, {}", line.start, line.end, line.ends_at)));
}

#[test]
fn examples_of_tags() {
    let inside = |(tag, answer): (Vec<u8>, _)| (tag[1..tag.len() - 1].to_vec(), answer);
    let rows: Vec<_> = rows(TAGS).into_iter().map(inside).collect();
    assert_eq!(rows.len(), 11);
    answers(&rows, |tag| tag_time(tag).map(|milliseconds| milliseconds.to_string()));
}

/// The step that fails and the place, or 0 and the numbers that are read, as the papers tell them; an error is the refusal's number.
type Told = Result<Vec<u64>, u64>;

fn told(read: Result<Vec<u64>, NoTime>) -> Told {
    match read {
        Ok(numbers) => Ok([vec![0], numbers].concat()),
        Err(NoTime::Failed(failed)) => Ok(vec![failed.fault.number(), failed.place as u64]),
        Err(NoTime::Refused(refusal)) => Err(refusal.number()),
    }
}

/// What the safe functions tell of a text as a time, as a tag's time and as a timing line.
fn all_told(text: &[u8]) -> [Told; 3] {
    [
        told(time(text).map(|Time { milliseconds, ends_at }| vec![ends_at as u64, milliseconds])),
        told(tag_time(text).map(|milliseconds| vec![text.len() as u64, milliseconds])),
        told(timing_line(text).map(|TimingLine { start, end, ends_at }| vec![ends_at as u64, start, end])),
    ]
}

/// The functions, and the steps at which each can fail. A text that begins with a digit fails at no step 1, but for a line's end time.
const STEPS: [(&str, &[u64]); 3] = [("time", &[1, 2, 3, 4, 5]), ("tag_time", &[1, 2, 3, 4, 5, 7]), ("timing_line", &[1, 2, 3, 4, 5, 6])];

/// How often each function came to each step: 0 where all reads, none where it is refused.
type Steps = BTreeMap<(&'static str, Option<u64>), usize>;

/// The functions over lent memory and the safe ones tell what the papers tell. Of every failure the place is inside the text, all before it is
/// ASCII, and the step is one of the function's.
fn compare(case: &mut Case, text: &[u8], steps: &mut Steps) {
    case.times(text);
    let papers = [papers::time(text), papers::tag_time(text), papers::timing_line(text)];
    for (((function, possible), told), expected) in STEPS.into_iter().zip(all_told(text)).zip(papers) {
        let shown = || format!("seed {}: {function} of {:?}", case.seed, String::from_utf8_lossy(text));
        assert_eq!(told, expected.map_err(|refusal| refusal.number), "{}", shown());
        *steps.entry((function, told.as_ref().ok().map(|values| values[0]))).or_default() += 1;
        // Where all reads there are more than two values.
        let Ok([step, place]) = told.as_deref() else { continue };
        let before = text.get(..*place as usize).unwrap_or_else(|| panic!("{}: place {place}", shown()));
        assert!(before.is_ascii() && possible.contains(step), "{}: step {step}, place {place}", shown());
        let begun = text.first().is_some_and(u8::is_ascii_digit);
        assert!(!begun || function == "timing_line" || *step != 1, "{}: step 1", shown());
    }
}

fn print(name: &str, steps: &Steps) {
    let counts: Vec<String> = steps.iter().map(|((function, step), count)| format!("{function} {step:?}: {count}")).collect();
    println!("{name}: {}", counts.join(", "));
    println!("{name}: {} calls compared, over lent memory and safe, 0 differences", 2 * steps.values().sum::<usize>());
}

/// Times, tags and lines with up to three changes.
#[test]
fn damaged_times() {
    let (seed, texts) = (first_seed(), 5 * number_from("SPATZENHERD_FILES", 20_000));
    println!("damaged times: {texts} texts, seeds {seed} to {}", seed + texts - 1);
    let mut steps = Steps::new();
    for seed in seed..seed + texts {
        let mut case = Case::new(seed);
        let text = time_or_line(&mut case.random).into_boxed_slice();
        compare(&mut case, &text, &mut steps);
    }
    print("damaged times", &steps);
    for (function, possible) in STEPS {
        for step in [None, Some(0)].into_iter().chain(possible.iter().copied().map(Some)) {
            assert!(texts < 10_000 || steps.contains_key(&(function, step)), "{function}: {step:?} was never met");
        }
    }
}

/// Every start of a good text.
#[test]
fn cut_anywhere() {
    let mut steps = Steps::new();
    for text in ["12:34:56.789", "99999:00:00.000", "100000:59:59.999x", " \t00:01.000\t --> \x0C00:00:02.500 line:1000000 align:left"] {
        for length in 0..=text.len() {
            compare(&mut Case::new(0), &text.as_bytes()[..length], &mut steps);
        }
    }
    assert!(steps.contains_key(&("timing_line", None)));
}

/// Every byte in the place of every byte of a good line, and before it. The second line is of the usual form, for which the library has a way of its
/// own.
#[test]
fn every_byte_everywhere() {
    let mut steps = Steps::new();
    for line in [&b"00:01.000 --> 00:00:02.000 x"[..], b"00:00:01.000 --> 00:00:02.000"] {
        for byte in 0..=255 {
            for at in 0..line.len() {
                let mut changed = line.to_vec();
                changed[at] = byte;
                compare(&mut Case::new(0), &changed, &mut steps);
                changed.insert(at + 1, line[at]);
                compare(&mut Case::new(0), &changed, &mut steps);
            }
        }
    }
    print("every byte everywhere", &steps);
}

/// A block gives no cue exactly where its timing line fails, and a file without regions is refused by 5 exactly where one is refused.
#[test]
fn blocks_without_a_cue() {
    let (seed, files) = (first_seed(), number_from("SPATZENHERD_FILES", 20_000));
    println!("blocks without a cue: {files} files, seeds {seed} to {}", seed + files - 1);
    let [mut cues, mut failed, mut refused] = [0; 3];
    for seed in seed..seed + files {
        let mut random = Case::new(seed).random;
        let blocks = random.below(7);
        let mut raw = if random.once_in(2) { file(&mut random, blocks) } else { timed_file(&mut random, blocks) };
        if random.once_in(4) {
            damage(&mut random, &mut raw);
        }
        let text = papers::plain_text(&raw);
        // Every line with an arrow after the first is the timing line of a block.
        let numbered = text.split(|byte| *byte == b'\n').zip(1..).skip(1).filter(|(line, _)| papers::contains_arrow(line));
        let lines: Vec<(u64, Result<TimingLine, NoTime>)> = numbered.map(|(line, number)| (number, timing_line(line))).collect();
        let over = lines.iter().any(|(_, line)| matches!(line, Err(NoTime::Refused(_))));
        let file = match File::read(&raw) {
            Ok(file) => file,
            Err(refusal) => {
                let (by_5, regions) = (refusal == Refusal::OverLimit, text.windows(6).any(|word| word == b"REGION"));
                assert!(!by_5 || over || regions, "seed {seed}: refused by 5");
                refused += usize::from(by_5 && over);
                continue;
            }
        };
        let read = lines.iter().filter_map(|(number, line)| line.ok().map(|line| (*number, line.start, line.end)));
        let of_cues = file.cues().map(|cue| (cue.lines.first + u64::from(!cue.identifier.is_empty()), cue.start, cue.end));
        assert!(!over && read.eq(of_cues), "seed {seed}: other cues than lines that read");
        cues += file.cues().len();
        failed += lines.len() - file.cues().len();
    }
    println!("blocks without a cue: {cues} cues, {failed} lines that fail, {refused} files refused by a line");
}

/// A tag that begins with a digit is a timestamp exactly where it reads, and its text is refused by 5 exactly where it is.
#[test]
fn tags_without_a_timestamp() {
    let (seed, texts, mut tags) = (first_seed(), number_from("SPATZENHERD_FILES", 20_000), 0);
    for seed in seed..seed + texts {
        let Ok(tag) = String::from_utf8(time_or_line(&mut Case::new(seed).random)) else { continue };
        if tag.contains(['>', '\r', '\0']) || !tag.starts_with(|c: char| c.is_ascii_digit()) {
            continue;
        }
        tags += 1;
        let kinds = Tree::read(&format!("<{tag}>")).map(|tree| tree.nodes().map(|node| node.kind).collect::<Vec<Kind>>());
        let expected = match tag_time(tag.as_bytes()) {
            Ok(milliseconds) => Ok(vec![Kind::Timestamp(milliseconds)]),
            Err(NoTime::Failed(_)) => Ok(vec![]),
            Err(NoTime::Refused(refusal)) => Err(refusal),
        };
        assert_eq!(kinds, expected, "seed {seed}: <{tag}>");
    }
    println!("tags without a timestamp: {tags} tags, seeds {seed} to {}", seed + texts - 1);
}

/// A text as long as the longest file: a start, one byte over and over, and an end.
fn long(start: &str, byte: u8, end: &str) -> Vec<u8> {
    [filled(start.as_bytes(), byte, MAX_FILE - end.len()).as_slice(), end.as_bytes()].concat()
}

/// No length is refused, and a text takes time by its bytes alone.
#[test]
fn long_texts() {
    let most = MAX_FILE as u64;
    for (byte, expected) in [(b'7', [[3, most], [3, most], [3, most]]), (b':', [[1, 0]; 3]), (b' ', [[1, 0], [1, 0], [1, most]])] {
        assert_eq!(all_told(&long("", byte, "")), expected.map(|values| Ok(values.to_vec())), "{byte}");
    }
    let longer = filled(b"", b'0', MAX_TEXT + 1);
    assert_eq!(all_told(&longer), [(); 3].map(|()| Ok(vec![3, longer.len() as u64])));
    let (mut case, mut slowest) = (Case::new(5), Duration::ZERO);
    for text in [
        long("", b'7', ""),
        long("", b':', ""),
        long("", b' ', ""),
        long("", b'0', ":00:00.000"),
        long("", b'7', ":00:00.000"),
        long("00:", b'0', ""),
        long("00:01.", b'0', ""),
        long("00:01.000", b' ', ""),
        long("00:01.000", b'-', ""),
        long("", b' ', "00:01.000 --> 00:02.000"),
        long("00:01.000", b' ', "-->00:02.000"),
        long("00:01.000 -->", b' ', "00:02.000"),
        long("00:01.000 --> ", b'0', ":00:02.000"),
        long("00:01.000 --> ", b'7', ":00:02.000"),
        long("00:01.000 --> 00:02.000", b' ', ""),
        long("00:01.000 --> 00:02.000 line:", b'7', ""),
        b"00:01.000 --> 00:02.000 ".iter().chain(b"line:0 ".iter().cycle()).copied().take(MAX_FILE).collect(),
    ] {
        for call in [lent::time, lent::tag_time, lent::timing_line] {
            let (start, mut values) = (Instant::now(), [0; 8]);
            call(&text, &mut values);
            slowest = slowest.max(start.elapsed());
        }
        case.times(&text);
    }
    println!("long texts: the slowest call took {slowest:?}");
    // A tenth of a second on an idle machine; time by the square of the bytes would be hours.
    assert!(slowest < Duration::from_secs(10), "{slowest:?}");
}

/// A failure and a refusal each have a sentence, and are errors like others.
#[test]
fn sentences() {
    let sentence = |error: NoTime| Box::<dyn std::error::Error>::from(error).to_string();
    assert_eq!(sentence(time(b"00:01,000").expect_err("it fails")), "full stop missing at place 5");
    assert_eq!(sentence(tag_time(b"00:01.000 ").expect_err("it fails")), "something after the time at place 9");
    assert_eq!(sentence(timing_line(b"00:01.000 -> 00:02.000").expect_err("it fails")), "arrow missing at place 11");
    let over = timing_line(b"00:01.000 --> 00:02.000 line:1000000").expect_err("it is refused");
    assert_eq!(sentence(over), "a time, a line number or a region's count of lines is above its limit");
}
