//! WebVTT read, written and mended by functions that are proved to meet their contracts.
//!
//! [`File::read`] reads a file as players read it, [`write()`] and [`File::write`] give the one written form, [`replace`] replaces one cue and
//! touches no other byte, [`Tree::read`] reads a cue's text into its tags, [`time`], [`tag_time`] and [`timing_line`] read times by themselves and
//! tell where one fails. Every function takes any bytes and any numbers; what it does not accept it refuses with a [`Refusal`], which has
//! document 01's number and values.
//!
//! The functions here are thin: they ask how much memory is needed, lend it to the proved functions ([`lent`]), and hand back what those left
//! there. What is proved ends at [`lent`]; this package is compared with an implementation of its own (`tests/`). All of it works from any
//! thread.

mod file;
pub mod lent;
mod refusal;
mod replacing;
mod settings;
mod stack;
mod times;
mod tree;

pub use file::{convert, rewrite, write, Cue, File, Found, LineSpan, Region};
pub use refusal::{List, Refusal};
pub use replacing::{replace, NewCue};
pub use settings::{Align, Area, Line, LineAlign, PositionAlign, Scroll, Settings, Vertical, ALL, ONE};
pub use stack::LONG_TEXT;
pub use times::{tag_time, time, timing_line, Failed, NoTime, Time, TimeFault, TimingLine};
pub use tree::{Kind, Node, Tree};

/// The greatest length of a raw file, in bytes.
pub const MAX_FILE: usize = 16_777_216;
/// The greatest length of a text to be read, in bytes.
pub const MAX_TEXT: usize = 50_331_648;
