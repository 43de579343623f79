//! Every function over lent memory against the papers, on generated files and damaged public files: the number, the values, and all of the
//! memory lent, with rooms and tables of the exact length, one short, empty and longer.
use crate::generate::{any_lines, any_regions, cue_text, damage, damage_row, file, long_file, named_file, new_cue};
use crate::lent::Lent;
use crate::line_numbers::{lines, moved, written_lines};
use crate::papers::{self, CueRow, Lists, Refusal, RegionRow, StyleRow};
use crate::random::Random;
use spatzenherd::lent::{self, Values};
use std::collections::BTreeMap;
use std::sync::Mutex;

/// One file's comparison: a difference is told with its seed.
pub struct Case {
    pub seed: u64,
    pub random: Random,
    /// How often each function gave each number.
    pub answers: Answers,
}

pub type Answers = BTreeMap<(String, u64), usize>;

impl Case {
    pub fn new(seed: u64) -> Case {
        Case { seed, random: Random::new(seed), answers: Answers::new() }
    }

    fn check(&self, what: &str, holds: bool, input: &[u8]) {
        assert!(holds, "seed {}: {what} differs on {:?}", self.seed, String::from_utf8_lossy(&input[..input.len().min(3000)]));
    }

    /// The number and the values of an answer.
    fn answer(&mut self, what: &str, input: &[u8], number: u64, values: &Lent<u64>, expected: Result<Vec<u64>, &Refusal>) {
        let function = what.split(' ').next().unwrap_or_default().to_string();
        *self.answers.entry((function, number)).or_default() += 1;
        let (expected_number, expected_values) = match expected {
            Ok(values) => (0, values),
            Err(refusal) => (refusal.number, refusal.values.clone()),
        };
        let holds = number == expected_number && values.holds(&expected_values);
        self.check(&format!("{what}: {number} for {expected_number}, values {expected_values:?}, answer"), holds, input);
    }

    pub fn convert(&mut self, raw: &[u8], room_length: usize) {
        let expected = papers::convert(raw, room_length);
        let (mut room, mut values) = (Lent::new(room_length, &mut self.random), Lent::values(&mut self.random));
        let number = lent::convert(raw, room.slice(), values.eight());
        self.answer("convert", raw, number, &values, expected.as_ref().map(|text| vec![text.len() as u64]));
        self.check("convert: room", room.holds(&expected.unwrap_or_default()), raw);
    }

    pub fn first_not_plain(&mut self, text: &[u8]) {
        let expected = papers::first_not_plain(text).map(|place| Refusal { number: 3, values: vec![place as u64] });
        let mut values = Lent::values(&mut self.random);
        let number = lent::first_not_plain(text, values.eight());
        self.answer("first_not_plain", text, number, &values, expected.as_ref().map_or(Ok(vec![]), Err));
    }

    pub fn read(&mut self, text: &[u8], sizes: [usize; 3]) {
        let expected = papers::read(text, sizes[0], sizes[1], sizes[2]);
        let random = &mut self.random;
        let (mut cues, mut regions, mut styles) = (Lent::new(sizes[0], random), Lent::new(sizes[1], random), Lent::new(sizes[2], random));
        let mut values = Lent::values(random);
        let number = lent::read(text, cues.slice(), regions.slice(), styles.slice(), values.eight());
        let counts = |lists: &Lists| vec![lists.cues.len() as u64, lists.regions.len() as u64, lists.styles.len() as u64];
        self.answer("read", text, number, &values, expected.as_ref().map(counts));
        let lists = expected.unwrap_or(Lists { cues: vec![], regions: vec![], styles: vec![] });
        self.check("read: cues", cues.holds(&lists.cues), text);
        self.check("read: regions", regions.holds(&lists.regions), text);
        self.check("read: styles", styles.holds(&lists.styles), text);
    }

    /// The text is left in its room after every refusal but 1 and 2.
    pub fn read_file(&mut self, raw: &[u8], sizes: [usize; 4]) {
        let text = papers::convert(raw, sizes[0]);
        let expected = text.clone().and_then(|text| papers::read(&text, sizes[1], sizes[2], sizes[3]));
        let random = &mut self.random;
        let (mut room, mut cues) = (Lent::new(sizes[0], random), Lent::new(sizes[1], random));
        let (mut regions, mut styles, mut values) = (Lent::new(sizes[2], random), Lent::new(sizes[3], random), Lent::values(random));
        let number = lent::read_file(raw, room.slice(), cues.slice(), regions.slice(), styles.slice(), values.eight());
        let text = text.unwrap_or_default();
        let told = |lists: &Lists| [lists.cues.len(), lists.regions.len(), lists.styles.len(), text.len()].map(|n| n as u64).to_vec();
        self.answer("read_file", raw, number, &values, expected.as_ref().map(told));
        let lists = expected.unwrap_or(Lists { cues: vec![], regions: vec![], styles: vec![] });
        self.check("read_file: text", room.holds(&text), raw);
        self.check("read_file: cues", cues.holds(&lists.cues), raw);
        self.check("read_file: regions", regions.holds(&lists.regions), raw);
        self.check("read_file: styles", styles.holds(&lists.styles), raw);
    }

    pub fn tree(&mut self, text: &[u8], room_length: usize, rows: usize) {
        let expected = papers::tree(text, room_length, rows);
        let (mut room, mut nodes) = (Lent::new(room_length, &mut self.random), Lent::new(rows, &mut self.random));
        let mut values = Lent::values(&mut self.random);
        let number = lent::tree(text, room.slice(), nodes.slice(), values.eight());
        let used = |nodes: &papers::Nodes| vec![nodes.rows.len() as u64, nodes.room.len() as u64];
        self.answer("tree", text, number, &values, expected.as_ref().map(used));
        let expected = expected.unwrap_or(papers::Nodes { rows: vec![], room: vec![] });
        self.check("tree: room", room.holds(&expected.room), text);
        self.check("tree: nodes", nodes.holds(&expected.rows), text);
    }

    fn parts(&mut self, text: &[u8], cues: &[CueRow], number: usize) {
        let mut values = Lent::values(&mut self.random);
        let told = lent::identifier(text, cues, number, values.eight());
        let expected = papers::identifier(text, cues, number);
        self.answer("identifier", text, told, &values, expected.as_ref().map(|&(from, to)| vec![from, to]));
        let mut values = Lent::values(&mut self.random);
        let told = lent::text(text, cues, number, values.eight());
        let expected = papers::text(text, cues, number);
        self.answer("text", text, told, &values, expected.as_ref().map(|&(from, to)| vec![from, to]));
    }

    fn find_region(&mut self, text: &[u8], regions: &[RegionRow], name: &[u8]) {
        let expected = papers::find_region(text, regions, name);
        let mut values = Lent::values(&mut self.random);
        let number = lent::find_region(text, regions, name, values.eight());
        let told = [usize::from(expected.index.is_some()), expected.index.unwrap_or(0), expected.seen].map(|n| n as u64);
        let what = format!("find_region {:?}", String::from_utf8_lossy(&name[..name.len().min(40)]));
        self.answer(&what, text, number, &values, Ok(told.to_vec()));
    }

    /// Names that are there or nearly there, those that cues ask for, and two more, among all of these regions and among the first few.
    fn finding(&mut self, text: &[u8], regions: &[RegionRow]) {
        let mut names: Vec<&[u8]> = vec![b"", b"\xFF"];
        names.extend(text.split(u8::is_ascii_whitespace).filter_map(|word| word.strip_prefix(b"region:")).take(20));
        for row in regions.iter().take(20) {
            let (name, longer) = (papers::between(text, row[0], row[1]), papers::between(text, row[0], row[1].saturating_add(1)));
            names.extend([name, longer, &name[..name.len().saturating_sub(1)]]);
        }
        let fewer = self.random.below(regions.len() + 1);
        for name in names {
            self.find_region(text, regions, name);
            self.find_region(text, &regions[..fewer], &name.to_vec());
        }
    }

    /// A text as a time, as a tag's time and as a timing line, whatever it is.
    pub fn times(&mut self, text: &[u8]) {
        self.one_of_times("time", lent::time, text, papers::time(text));
        self.one_of_times("tag_time", lent::tag_time, text, papers::tag_time(text));
        self.one_of_times("timing_line", lent::timing_line, text, papers::timing_line(text));
    }

    fn one_of_times(&mut self, what: &str, call: fn(&[u8], &mut Values) -> u64, text: &[u8], expected: Result<Vec<u64>, Refusal>) {
        let mut values = Lent::values(&mut self.random);
        let number = call(text, values.eight());
        self.answer(what, text, number, &values, expected.as_ref().cloned());
    }

    fn write(&mut self, text: &[u8], styles: &[StyleRow], regions: &[RegionRow], cues: &[CueRow], out_length: usize) {
        let expected = papers::write(text, styles, regions, cues, out_length);
        let (mut out, mut values) = (Lent::new(out_length, &mut self.random), Lent::values(&mut self.random));
        let number = lent::write(text, styles, regions, cues, out.slice(), values.eight());
        self.answer("write", text, number, &values, expected.as_ref().map(|file| vec![file.len() as u64]));
        self.check("write: out", out.holds(&expected.unwrap_or_default()), text);
    }

    pub fn replace(&mut self, raw: &[u8], number: usize, row: &[u64], text: &[u8], rooms: [usize; 2]) {
        let expected = papers::replace(raw, number, row, text, rooms[0], rooms[1]);
        let (mut scratch, mut out) = (Lent::new(rooms[0], &mut self.random), Lent::new(rooms[1], &mut self.random));
        let mut values = Lent::values(&mut self.random);
        let told = lent::replace(raw, number, row, text, scratch.slice(), out.slice(), values.eight());
        let what = format!("replace cue {number} by {row:?} over {:?}", String::from_utf8_lossy(text));
        self.answer(&what, raw, told, &values, expected.answer.as_ref().map(|file| vec![file.len() as u64]));
        self.check(&format!("{what}: out"), out.holds(&expected.answer.unwrap_or_default()), raw);
        self.check(&format!("{what}: scratch"), scratch.holds(&expected.scratch.unwrap_or_default()), raw);
    }

    /// Text room and tables hold what the steps before a refusal made.
    fn rewrite(&mut self, raw: &[u8], sizes: [usize; 5]) {
        let expected = papers::rewrite(raw, sizes[0], sizes[1], sizes[2], sizes[3], sizes[4]);
        let random = &mut self.random;
        let (mut room, mut cues) = (Lent::new(sizes[0], random), Lent::new(sizes[1], random));
        let (mut regions, mut styles) = (Lent::new(sizes[2], random), Lent::new(sizes[3], random));
        let (mut out, mut values) = (Lent::new(sizes[4], random), Lent::values(random));
        let number = lent::rewrite(raw, room.slice(), cues.slice(), regions.slice(), styles.slice(), out.slice(), values.eight());
        self.answer("rewrite", raw, number, &values, expected.as_ref().map(|file| vec![file.len() as u64]));
        self.check("rewrite: out", out.holds(&expected.unwrap_or_default()), raw);
        let text = papers::convert(raw, sizes[0]).unwrap_or_default();
        let lists = papers::read(&text, sizes[1], sizes[2], sizes[3]).unwrap_or(Lists { cues: vec![], regions: vec![], styles: vec![] });
        self.check("rewrite: text", room.holds(&text), raw);
        self.check("rewrite: cues", cues.holds(&lists.cues), raw);
        self.check("rewrite: regions", regions.holds(&lists.regions), raw);
        self.check("rewrite: styles", styles.holds(&lists.styles), raw);
    }

    /// A length, one less, none, and one that is longer.
    fn lengths(&mut self, exact: usize) -> [usize; 4] {
        [exact, exact.saturating_sub(1), 0, exact + 1 + self.random.below(40)]
    }

    fn tree_in_rooms(&mut self, text: &[u8]) {
        let (room, rows) = papers::tree(text, usize::MAX, usize::MAX).map_or((text.len(), 3), |nodes| (nodes.room.len(), nodes.rows.len()));
        for (room, rows) in
            [(room, rows), (room.saturating_sub(1), rows), (room, rows.saturating_sub(1)), (0, 0), (text.len() + 3, rows + 2)]
        {
            self.tree(text, room, rows);
        }
        for tag in text.split(|byte| *byte == b'<').skip(1).take(20) {
            self.times(tag.split(|byte| *byte == b'>').next().unwrap_or_default());
        }
    }

    /// Everything that can be done with one file.
    pub fn file(&mut self, raw: &[u8]) {
        let text = papers::plain_text(raw);
        for length in self.lengths(text.len()) {
            self.convert(raw, length);
        }
        self.first_not_plain(raw);
        self.first_not_plain(&text);
        self.read(raw, [3, 1, 1]);
        let lists =
            papers::read(&text, usize::MAX, usize::MAX, usize::MAX).unwrap_or(Lists { cues: vec![], regions: vec![], styles: vec![] });
        let [cues, regions, styles] = [lists.cues.len(), lists.regions.len(), lists.styles.len()];
        self.read(&text, [cues, regions, styles]);
        self.read(&text, [0, 0, 0]);
        self.read(&text, [cues.saturating_sub(1), regions + 1, styles]);
        self.read(&text, [cues + 2, regions.saturating_sub(1), styles + 1]);
        self.read(&text, [cues, regions, styles.saturating_sub(1)]);
        for length in self.lengths(text.len()) {
            self.read_file(raw, [length, cues, regions, styles]);
        }
        self.read_file(raw, [text.len(), cues / 2, regions, styles]);
        self.read_file(raw, [text.len() + 1, cues + 1, regions.saturating_sub(1), styles + 1]);
        for row in lists.cues.iter().take(20) {
            self.tree_in_rooms(&text[row[4] as usize..row[5] as usize]);
        }
        self.times(raw);
        for line in text.split(|byte| *byte == b'\n').filter(|line| papers::contains_arrow(line)).take(20) {
            self.times(line);
        }
        self.finding(&text, &lists.regions);
        self.finding(&text, &[lists.regions.as_slice(), &lists.regions].concat());
        let anyones = any_regions(&mut self.random, raw.len());
        self.finding(raw, &anyones);
        self.rows(&text, lists, raw.len());
        for _ in 0..3 {
            self.replacing(raw, text.len(), cues);
        }
        let out = papers::rewrite(raw, text.len(), cues, regions, styles, usize::MAX).map_or(0, |file| file.len());
        for out in self.lengths(out) {
            self.rewrite(raw, [text.len(), cues, regions, styles, out]);
        }
        let short = self.random.below(text.len() + 1);
        self.rewrite(raw, [short, cues, regions, styles, out]);
        self.rewrite(raw, [text.len(), cues / 2, regions, styles, out]);
    }

    /// The lists as they were read, and then with words that nobody read.
    fn rows(&mut self, text: &[u8], lists: Lists, raw_length: usize) {
        let Lists { mut cues, mut regions, mut styles } = lists;
        let out = papers::write(text, &styles, &regions, &cues, usize::MAX).map_or(raw_length, |file| file.len());
        for out in self.lengths(out) {
            self.write(text, &styles, &regions, &cues, out);
        }
        for row in &mut cues {
            row[17..].copy_from_slice(&any_lines(&mut self.random));
        }
        self.write(text, &styles, &regions, &cues, out);
        for number in [0, cues.len() / 2] {
            self.parts(text, &cues, number);
        }
        for _ in 0..3 {
            match self.random.below(4) {
                0 if !regions.is_empty() => {
                    let at = self.random.below(regions.len());
                    damage_row(&mut self.random, &mut regions[at]);
                }
                1 if !styles.is_empty() => {
                    let at = self.random.below(styles.len());
                    damage_row(&mut self.random, &mut styles[at]);
                }
                _ if !cues.is_empty() => {
                    let at = self.random.below(cues.len());
                    damage_row(&mut self.random, &mut cues[at]);
                }
                _ => cues.push(std::array::from_fn(|_| self.random.below(9) as u64)),
            }
            self.write(text, &styles, &regions, &cues, out + 500);
            let number = self.random.below(cues.len() + 2);
            self.parts(text, &cues, number);
        }
    }

    fn replacing(&mut self, raw: &[u8], text_length: usize, cues: usize) {
        let (row, text) = new_cue(&mut self.random);
        let number = if self.random.once_in(12) { self.random.word() as usize } else { self.random.below(cues + 1) };
        let expected = papers::replace(raw, number, &row, &text, text_length, usize::MAX).answer;
        let out = expected.as_ref().map_or(raw.len(), |file| file.len());
        for rooms in [
            [text_length, out],
            [text_length, out.saturating_sub(1)],
            [text_length.saturating_sub(1), out],
            [text_length + 9, out + 70],
            [0, 0],
        ] {
            self.replace(raw, number, &row, &text, rooms);
        }
        if let Ok(new) = expected {
            let part = |from: usize| &text[row[from] as usize..row[from + 1] as usize];
            let written = written_lines(part(0), part(4));
            self.check(&format!("replace {number}: lines"), lines(&new) == moved(&lines(raw), number, written), raw);
        }
    }
}

/// The public test files, as they stand in this repository.
fn public_files() -> Vec<Vec<u8>> {
    let folder = concat!(env!("CARGO_MANIFEST_DIR"), "/../crates/runs/data/lists");
    let mut paths: Vec<_> = std::fs::read_dir(folder).expect("the public files").map(|entry| entry.expect("a file").path()).collect();
    paths.sort();
    paths.iter().filter(|path| path.extension().is_some_and(|e| e == "vtt")).map(|path| std::fs::read(path).expect("a file")).collect()
}

pub fn number_from(name: &str, otherwise: u64) -> u64 {
    std::env::var(name).ok().map_or(otherwise, |word| word.parse().unwrap_or_else(|_| panic!("{name} is not a number")))
}

pub fn first_seed() -> u64 {
    let time = std::time::SystemTime::now().duration_since(std::time::UNIX_EPOCH).map_or(1, |time| time.as_secs() << 24);
    number_from("SPATZENHERD_SEED", time)
}

/// Compares so many files, two at a time; every second one is a damaged public file.
fn compare(files: u64, name: &str, make: impl Fn(&mut Random, u64) -> Vec<u8> + Sync) {
    let seed = first_seed();
    println!("{name}: {files} files, seeds {seed} to {}", seed + files - 1);
    let answers = Mutex::new(Answers::new());
    std::thread::scope(|scope| {
        for half in 0..2 {
            let (make, answers) = (&make, &answers);
            scope.spawn(move || {
                for index in (half..files).step_by(2) {
                    let mut case = Case::new(seed + index);
                    let raw = make(&mut case.random, index / 2).into_boxed_slice();
                    case.file(&raw);
                    let mut answers = answers.lock().expect("no test has failed");
                    case.answers.into_iter().for_each(|(answer, count)| *answers.entry(answer).or_default() += count);
                }
            });
        }
    });
    let answers = answers.into_inner().expect("no test has failed");
    let told: Vec<String> = answers.iter().map(|((function, number), count)| format!("{function} {number}: {count}")).collect();
    println!("{name}: {}", told.join(", "));
    println!("{name}: {} calls compared, 0 differences", answers.values().sum::<usize>());
}

#[test]
fn small_files() {
    let public = public_files();
    assert!(public.len() > 40, "the public files are missing");
    compare(number_from("SPATZENHERD_FILES", 20_000), "small files", |random, index| {
        if index % 2 == 0 {
            let blocks = random.below(7);
            return file(random, blocks);
        }
        let mut raw = public[index as usize / 2 % public.len()].clone();
        for _ in 0..=random.below(6) {
            damage(random, &mut raw);
        }
        raw
    });
}

/// More names than a call remembers, some of which take each other's place.
#[test]
fn named_files() {
    compare((number_from("SPATZENHERD_FILES", 20_000) / 1000).max(1), "files of names", |random, _| named_file(random));
}

#[test]
fn long_files() {
    let files = number_from("SPATZENHERD_FILES", 20_000) / 1000;
    compare(files.max(1), "long files, to 1 MB", |random, index| {
        let mut raw = long_file(random, 30_000 << (index % 6));
        if random.once_in(2) {
            raw.extend_from_slice(&[b'\xF0', b'\x9F']);
        }
        raw
    });
}

#[test]
fn cue_texts() {
    let files = number_from("SPATZENHERD_FILES", 20_000);
    let seed = first_seed();
    println!("cue texts: {files} texts, seeds {seed} to {}", seed + files - 1);
    for index in 0..files {
        let mut case = Case::new(seed + index);
        let pieces = if case.random.once_in(50) { 2000 } else { 20 };
        let mut text = cue_text(&mut case.random, pieces).into_bytes();
        if case.random.once_in(3) {
            damage(&mut case.random, &mut text);
        }
        case.tree_in_rooms(&text);
    }
}
