//! A slow and simple reference implementation of WebVTT, written from documents 01 and 02 and the papers that they name.
//! This file has the types of the interface, the limits of document 01 and the numbers of its refusals.

mod blocks;
mod cue_text;
mod lines;
mod model;
mod names;
mod numbers;
mod parts;
mod plain;
mod reading;
mod regions;
mod replacing;
mod settings;
mod times;
mod tree;
mod writable;
mod written;

pub use blocks::contains_arrow;
pub use names::{between, find_region, Found};
pub use parts::{identifier, text};
pub use plain::{convert, first_not_plain, plain_text};
pub use reading::read;
pub use replacing::{replace, rewrite};
pub use settings::timing_line;
pub use times::{tag_time, time};
pub use tree::tree;
pub use written::write;

/// A refusal: document 01's number and the values that it returns (column "Returns with it").
#[derive(Debug, Clone, PartialEq, Eq)]
pub struct Refusal {
    pub number: u64,
    pub values: Vec<u64>,
}

pub type CueRow = [u64; 19];
pub type RegionRow = [u64; 9];
pub type StyleRow = [u64; 2];
pub type NodeRow = [u64; 7];
/// How many words the row of a new cue has.
pub const NEW_CUE_WORDS: usize = 20;

/// The lists that reading gives, as rows.
#[derive(Debug, Clone, PartialEq, Eq)]
pub struct Lists {
    pub cues: Vec<CueRow>,
    pub regions: Vec<RegionRow>,
    pub styles: Vec<StyleRow>,
}

/// The nodes of one cue's text, and their strings one after the other: node by node, classes, then value.
#[derive(Debug, Clone, PartialEq, Eq)]
pub struct Nodes {
    pub rows: Vec<NodeRow>,
    pub room: Vec<u8>,
}

/// What replacing leaves: the plain text at the start of scratch (None: scratch as it was), and the new file or the refusal.
#[derive(Debug, Clone, PartialEq, Eq)]
pub struct Replaced {
    pub scratch: Option<Vec<u8>>,
    pub answer: Result<Vec<u8>, Refusal>,
}

/// Refusal 1: the greatest length of a raw file, read or made.
const GREATEST_FILE: usize = 16_777_216;
/// Refusal 1: the greatest length of a plain text or a cue text to be read.
const GREATEST_TEXT: usize = 50_331_648;

fn refusal(number: u64, values: &[u64]) -> Refusal {
    Refusal { number, values: values.to_vec() }
}

fn too_long() -> Refusal {
    refusal(1, &[])
}

fn room_too_short(needed: usize) -> Refusal {
    refusal(2, &[needed as u64])
}

fn not_plain(place: usize) -> Refusal {
    refusal(3, &[place as u64])
}

fn no_signature() -> Refusal {
    refusal(4, &[])
}

fn over_limit() -> Refusal {
    refusal(5, &[])
}

fn table_too_short(counts: &[u64]) -> Refusal {
    refusal(6, counts)
}

fn no_such_cue(count: usize) -> Refusal {
    refusal(7, &[count as u64])
}

/// Which list: 0 styles, 1 regions, 2 cues.
fn not_writable(list: u64, index: usize, test: u64) -> Refusal {
    refusal(8, &[list, index as u64, test])
}

fn no_gap() -> Refusal {
    refusal(9, &[])
}

fn out_too_short(needed: usize) -> Refusal {
    refusal(10, &[needed as u64])
}
