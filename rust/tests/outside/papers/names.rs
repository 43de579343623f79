//! Looking up a region by its name: the last of those that have it (000 section 6.3), and how many are seen on the way (request Q-3).

use super::model::Region;
use super::RegionRow;

/// The index of the region found, and how many are looked at from the last one down, the one found among them.
#[derive(Debug, Clone, Copy, PartialEq, Eq)]
pub struct Found {
    pub index: Option<usize>,
    pub seen: usize,
}

/// Goes from the first to the last: each that has the name takes the place of those before it, and counting begins again with it.
fn look_up<'a>(name: &[u8], identifiers: impl Iterator<Item = &'a [u8]>) -> Found {
    let mut found = Found { index: None, seen: 0 };
    for (index, identifier) in identifiers.enumerate() {
        if identifier == name {
            found = Found { index: Some(index), seen: 0 };
        }
        found.seen += 1;
    }
    found
}

/// The last region whose identifier is this name, or none.
pub fn last_region(name: &[u8], text: &[u8], regions: &[Region]) -> Option<u64> {
    look_up(name, regions.iter().map(|region| region.identifier.of(text))).index.map(|index| index as u64)
}

/// What a text has from a place up to another: any two numbers give a part, an empty one where nothing stands between them.
pub fn between(text: &[u8], from: u64, to: u64) -> &[u8] {
    let begun = usize::try_from(to).ok().and_then(|to| text.get(..to)).unwrap_or(text);
    usize::try_from(from).ok().and_then(|from| begun.get(from..)).unwrap_or_default()
}

/// The look-up among rows that anyone may have written.
pub fn find_region(text: &[u8], regions: &[RegionRow], name: &[u8]) -> Found {
    look_up(name, regions.iter().map(|row| between(text, row[0], row[1])))
}
