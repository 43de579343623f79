//! The safe functions against the papers: what they own and hand out says what the rows of the papers say, refused or not.
use crate::compare::{first_seed, number_from};
use crate::generate::{any_lines, damage, file};
use crate::papers::{self, CueRow, Lists};
use crate::random::Random;
use spatzenherd::{
    replace, rewrite, write, Align, Cue, File, Kind, Line, LineAlign, LineSpan, List, NewCue, PositionAlign, Refusal, Region, Scroll,
    Settings, Tree, Vertical,
};

fn same<T>(seed: u64, found: &Result<T, Refusal>, expected: &Result<impl Sized, papers::Refusal>) {
    let found = found.as_ref().err().map(|refusal| (refusal.number(), refusal.values()));
    let expected = expected.as_ref().err().map(|refusal| (refusal.number, refusal.values.clone()));
    assert_eq!(found, expected, "seed {seed}");
}

/// The settings of a row, word by word as docs/LIBRARY.md has them.
fn settings(row: &CueRow) -> Settings {
    Settings {
        vertical: [Vertical::Horizontal, Vertical::GrowingLeft, Vertical::GrowingRight][row[6] as usize],
        line: match (row[7], row[9]) {
            (0, 0) => Line::Auto,
            (1, 0) => Line::Number(row[8] as i64),
            (2, 0) => Line::Number(-(row[8] as i64)),
            (1, 1) => Line::Percentage(row[8]),
            other => panic!("line {other:?}"),
        },
        line_align: [LineAlign::Start, LineAlign::Center, LineAlign::End][row[10] as usize],
        position: [None, Some(row[12])][row[11] as usize],
        position_align: [PositionAlign::Auto, PositionAlign::LineLeft, PositionAlign::Center, PositionAlign::LineRight][row[13] as usize],
        size: row[14],
        align: [Align::Start, Align::Center, Align::End, Align::Left, Align::Right][row[15] as usize],
    }
}

fn compare_lists(seed: u64, text: &str, file: &File, lists: &Lists) {
    let part = |from: u64, to: u64| &text[from as usize..to as usize];
    assert_eq!(file.plain_text(), text, "seed {seed}");
    let counts = (file.cues().len(), file.regions().len(), file.styles().len());
    assert_eq!(counts, (lists.cues.len(), lists.regions.len(), lists.styles.len()), "seed {seed}");
    for (found, row) in file.cues().zip(&lists.cues) {
        let region = if row[16] == 0 { None } else { Some(row[16] as usize - 1) };
        let (identifier, text) = (part(row[0], row[1]), part(row[4], row[5]));
        let lines = LineSpan { first: row[17], count: row[18] };
        assert_eq!(found, Cue { identifier, start: row[2], end: row[3], text, settings: settings(row), region, lines }, "seed {seed}");
    }
    for (found, row) in file.regions().zip(&lists.regions) {
        let area = found.area;
        let words = [area.width, area.lines, area.region_anchor.0, area.region_anchor.1, area.viewport_anchor.0, area.viewport_anchor.1];
        assert_eq!(
            (found.identifier, words.as_slice(), area.scroll == Scroll::Up),
            (part(row[0], row[1]), &row[2..8], row[8] == 1),
            "seed {seed}"
        );
    }
    for name in lists.regions.iter().map(|row| part(row[0], row[1])).chain(["", "fred"]) {
        let (found, expected) = (file.find_region(name), papers::find_region(text.as_bytes(), &lists.regions, name.as_bytes()));
        assert_eq!((found.index, found.seen), (expected.index, expected.seen), "seed {seed}");
    }
    for (found, row) in file.styles().zip(&lists.styles) {
        assert_eq!(found, part(row[0], row[1]), "seed {seed}");
    }
}

/// Lists that own their strings, written: as the rows are, whatever lines their cues have.
fn compare_written(seed: u64, random: &mut Random, text: &str, file: &File, lists: &Lists) {
    let expected = papers::write(text.as_bytes(), &lists.styles, &lists.regions, &lists.cues, usize::MAX);
    let styles: Vec<String> = file.styles().map(str::to_string).collect();
    let regions: Vec<Region> = file.regions().map(|region| region.to_owned()).collect();
    let cues: Vec<Cue> = file.cues().map(|cue| cue.to_owned()).collect();
    assert!(cues.iter().map(|cue| cue.lines).eq(file.cues().map(|cue| cue.lines)), "seed {seed}");
    let mut any_lines = || {
        let [first, count] = any_lines(random);
        LineSpan { first, count }
    };
    let elsewhere: Vec<Cue> = cues.iter().map(|cue| Cue { lines: any_lines(), ..cue.clone() }).collect();
    for found in [file.write(), write(&styles, &regions, &cues), write(&styles, &regions, &elsewhere)] {
        same(seed, &found, &expected);
        assert_eq!(found.ok(), expected.as_ref().ok().cloned(), "seed {seed}");
    }
}

fn compare_tree(seed: u64, text: &str) {
    let (found, expected) = (Tree::read(text), papers::tree(text.as_bytes(), usize::MAX, usize::MAX));
    same(seed, &found, &expected);
    let (Ok(found), Ok(expected)) = (found, expected) else { return };
    assert_eq!(found.nodes().len(), expected.rows.len(), "seed {seed}");
    for (node, row) in found.nodes().zip(&expected.rows) {
        let part = |from: u64, to: u64| &expected.room[from as usize..to as usize];
        let kind = [
            Kind::Class,
            Kind::Italic,
            Kind::Bold,
            Kind::Underline,
            Kind::Ruby,
            Kind::RubyText,
            Kind::Voice,
            Kind::Language,
            Kind::String,
            Kind::Timestamp(row[6]),
        ][row[1] as usize];
        assert_eq!((node.parent.map_or(0, |index| index as u64 + 1), node.kind), (row[0], kind), "seed {seed}");
        assert_eq!((node.classes.as_bytes(), node.value.as_bytes()), (part(row[2], row[3]), part(row[4], row[5])), "seed {seed}");
        assert_eq!(node.to_owned().value, node.value, "seed {seed}");
    }
}

fn compare_replaced(seed: u64, random: &mut Random, raw: &[u8], cues: usize) {
    let cue = NewCue {
        identifier: random.of(&["", "", "id", "a-->b", "\u{8A9E}"]),
        start: 1000,
        end: 1000 + random.below(3) as u64 * 700,
        text: random.of(&["The last tram.", "", "a\nb", "a\n\nb", "x\r", "\u{1F600}"]),
        settings: Settings { size: random.below(102) as u64 * 1_000_000, line: Line::Number(-2_500_000), ..Settings::default() },
        region: random.of(&["", "", "low", "fred"]),
    };
    let (identifier, text) = (cue.identifier.len() as u64, cue.text.len() as u64);
    let joined = [cue.identifier, cue.text, cue.region].concat();
    let end = joined.len() as u64;
    let mut row = vec![0, identifier, cue.start, cue.end, identifier, identifier + text];
    row.extend_from_slice(&[0, 2, 2_500_000, 0, 0, 0, 0, 0, cue.settings.size, 1, identifier + text, end]);
    row.extend_from_slice(&any_lines(random));
    let number = random.below(cues + 1);
    let expected = papers::replace(raw, number, &row, joined.as_bytes(), usize::MAX, usize::MAX).answer;
    let found = replace(raw, number, &cue);
    same(seed, &found, &expected);
    assert_eq!(found.ok(), expected.ok(), "seed {seed}");
}

#[test]
fn owned_results() {
    let (seed, files) = (first_seed(), number_from("SPATZENHERD_FILES", 20_000) / 4);
    println!("owned results: {files} files, seeds {seed} to {}", seed + files - 1);
    for seed in seed..seed + files {
        let mut random = Random::new(seed);
        let blocks = random.below(9);
        let mut raw = file(&mut random, blocks);
        if random.once_in(4) {
            damage(&mut random, &mut raw);
        }
        let text = String::from_utf8(papers::plain_text(&raw)).expect("plain text is well-formed");
        let expected = papers::read(text.as_bytes(), usize::MAX, usize::MAX, usize::MAX);
        let found = File::read(&raw);
        same(seed, &found, &expected);
        let cues = expected.as_ref().map_or(0, |lists| lists.cues.len());
        compare_replaced(seed, &mut random, &raw, cues);
        let whole = papers::rewrite(&raw, usize::MAX, usize::MAX, usize::MAX, usize::MAX, usize::MAX);
        same(seed, &rewrite(&raw), &whole);
        assert_eq!(rewrite(&raw).ok(), whole.ok(), "seed {seed}");
        let (Ok(found), Ok(lists)) = (found, expected) else { continue };
        compare_lists(seed, &text, &found, &lists);
        compare_written(seed, &mut random, &text, &found, &lists);
        for number in 0..found.cues().len() {
            compare_tree(seed, found.cue(number).expect("a cue").text);
            assert_eq!(found.tree(number), Tree::read(found.cue(number).expect("a cue").text));
        }
        assert_eq!(found.cue(cues), Err(Refusal::NoSuchCue { count: cues as u64 }), "seed {seed}");
    }
}

/// A refusal has its number, its values and a sentence.
#[test]
fn refusals() {
    let late = File::read(b"WEBVTT\n\n00:02.000 --> 00:01.000\n").expect("it is read").write().expect_err("it cannot be written");
    assert_eq!((late, late.number(), late.values()), (Refusal::NotWritable { list: List::Cues, index: 0, test: 4 }, 8, vec![2, 0, 4]));
    assert_eq!(late.to_string(), "cue 0 cannot be written: it fails test 4");
    let error: Box<dyn std::error::Error> = Box::new(File::read(b"WEBVT").expect_err("it is refused"));
    assert_eq!(error.to_string(), "the file does not begin with WEBVTT");
    assert_eq!(File::of_text("WEBVTT\r".into()), Err(Refusal::NotPlain { place: 6 }));
    assert_eq!(Tree::read("<100000:00:00.000>"), Err(Refusal::OverLimit));
}
