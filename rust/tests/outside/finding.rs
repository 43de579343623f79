//! Looking up a region by its name: the examples of request Q-3 with the answers that stand there, and parts outside the text.
use crate::papers::{self, between, Found, RegionRow};
use spatzenherd::lent;

/// The row of a region whose identifier stands from a place up to another.
fn row(from: u64, to: u64) -> RegionRow {
    [from, to, 7, 7, 7, 7, 7, 7, 7]
}

/// Both the library and the papers find this; the words of `values` after the third stay as they were.
fn finds(text: &[u8], regions: &[RegionRow], name: &[u8], index: Option<usize>, seen: usize) {
    let mut values = [99; 8];
    assert_eq!(lent::find_region(text, regions, name, &mut values), 0);
    let [found, at] = index.map_or([0, 0], |index| [1, index as u64]);
    assert_eq!(values, [found, at, seen as u64, 99, 99, 99, 99, 99], "{name:?} among {regions:?} over {text:?}");
    assert_eq!(papers::find_region(text, regions, name), Found { index, seen }, "{name:?} among {regions:?} over {text:?}");
}

/// The first table: the identifiers stand in the text one after the other.
#[test]
fn examples_of_identifiers() {
    let cases: [(&[&str], &str, Option<usize>, usize); 11] = [
        (&["a", "b", "a"], "a", Some(2), 1),
        (&["a", "b", "a"], "b", Some(1), 2),
        (&["a", "b", "c"], "a", Some(0), 3),
        (&["a", "b"], "x", None, 2),
        (&[], "a", None, 0),
        (&["a"], "a", Some(0), 1),
        (&["a", "a", "a"], "a", Some(2), 1),
        (&["A", "a"], "A", Some(0), 2),
        (&["", "a"], "", Some(0), 2),
        (&["ab", "a"], "ab", Some(0), 2),
        (&["a", "ab"], "a", Some(0), 2),
    ];
    for (identifiers, name, index, seen) in cases {
        let mut end = 0;
        let rows = identifiers.iter().map(|identifier| {
            end += identifier.len() as u64;
            row(end - identifier.len() as u64, end)
        });
        let rows: Vec<RegionRow> = rows.collect();
        finds(identifiers.concat().as_bytes(), &rows, name.as_bytes(), index, seen);
    }
}

/// The second table: a count of the rows, and a name that is a part of the text. The caller lends no more rows and no more of a name than there
/// are.
#[test]
fn examples_of_counts() {
    let (text, rows) = (b"aab", [row(0, 1), row(1, 2), row(2, 3)]);
    let cases: [(usize, u64, u64, Option<usize>, usize); 7] = [
        (3, 0, 1, Some(1), 2),
        (2, 0, 1, Some(1), 1),
        (1, 0, 1, Some(0), 1),
        (0, 0, 1, None, 0),
        (9, 2, 3, Some(2), 1),
        (3, 2, 99, Some(2), 1),
        (3, 5, 9, None, 3),
    ];
    for (count, from, to, index, seen) in cases {
        finds(text, &rows[..count.min(rows.len())], between(text, from, to), index, seen);
    }
}

/// Spans may be any two numbers: they are held to the text.
#[test]
fn spans_outside_the_text() {
    let text = b"aab";
    for (from, to, name) in [
        (2, 99, "b"),
        (1, u64::MAX, "ab"),
        (0, u64::MAX, "aab"),
        (3, 4, ""),
        (4, 9, ""),
        (2, 1, ""),
        (u64::MAX, 0, ""),
        (u64::MAX, u64::MAX, ""),
        (1, 1 << 32, "ab"),
        (1 << 32, 3, ""),
        (1 << 32, (1 << 32) + 1, ""),
    ] {
        finds(text, &[row(from, to), row(0, 1)], name.as_bytes(), Some(0), 2);
        finds(text, &[row(0, 1), row(from, to)], name.as_bytes(), Some(1), 1);
        finds(text, &[row(from, to)], b"a", None, 1);
        finds(b"", &[row(from, to)], b"", Some(0), 1);
    }
}
