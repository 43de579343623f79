//! The proved functions themselves, over memory that the caller lends: nothing is allocated here. Each hands back document 01's number, 0
//! where it accepts, and puts the values that go with the answer at the start of `values`, whose other words stay as they were. What C has to
//! owe (pointers that are not null, lengths that are true, no overlap) holds of every slice, so the functions are safe.
//!
//! `include/spatzenherd.h` says of each function what lent memory holds afterwards, `docs/LIBRARY.md` what the words of a row mean.

/// How many words a cue's row has.
pub const CUE_WORDS: usize = 19;
/// How many words a region's row has.
pub const REGION_WORDS: usize = 9;
/// How many words a style's row has.
pub const STYLE_WORDS: usize = 2;
/// How many words a node's row has.
pub const NODE_WORDS: usize = 7;
/// How many words a new cue's row has.
pub const NEW_CUE_WORDS: usize = 20;

/// The words of a cue's row. The last two are its lines in the file: reading stores them, and every other function takes any numbers there.
pub type CueRow = [u64; CUE_WORDS];
/// The words of a region's row.
pub type RegionRow = [u64; REGION_WORDS];
/// The words of a style's row.
pub type StyleRow = [u64; STYLE_WORDS];
/// The words of a node's row.
pub type NodeRow = [u64; NODE_WORDS];
/// The words of a new cue's row. No function looks at the last two.
pub type NewCueRow = [u64; NEW_CUE_WORDS];
/// The words that an answer's values are put into.
pub type Values = [u64; 8];

mod boundary {
    use super::{CueRow, NodeRow, RegionRow, StyleRow, Values};

    extern "C" {
        pub fn spatz_convert(raw: *const u8, raw_length: usize, room: *mut u8, room_length: usize, values: *mut Values) -> u64;
        pub fn spatz_first_not_plain(text: *const u8, text_length: usize, values: *mut Values) -> u64;
        pub fn spatz_read(
            text: *const u8,
            text_length: usize,
            cues: *mut CueRow,
            cue_rows: usize,
            regions: *mut RegionRow,
            region_rows: usize,
            styles: *mut StyleRow,
            style_rows: usize,
            values: *mut Values,
        ) -> u64;
        pub fn spatz_read_file(
            raw: *const u8,
            raw_length: usize,
            text: *mut u8,
            text_length: usize,
            cues: *mut CueRow,
            cue_rows: usize,
            regions: *mut RegionRow,
            region_rows: usize,
            styles: *mut StyleRow,
            style_rows: usize,
            values: *mut Values,
        ) -> u64;
        pub fn spatz_identifier(
            text: *const u8,
            text_length: usize,
            cues: *const CueRow,
            cue_rows: usize,
            number: usize,
            values: *mut Values,
        ) -> u64;
        pub fn spatz_text(
            text: *const u8,
            text_length: usize,
            cues: *const CueRow,
            cue_rows: usize,
            number: usize,
            values: *mut Values,
        ) -> u64;
        pub fn spatz_find_region(
            text: *const u8,
            text_length: usize,
            regions: *const RegionRow,
            region_rows: usize,
            name: *const u8,
            name_length: usize,
            values: *mut Values,
        ) -> u64;
        pub fn spatz_time(text: *const u8, text_length: usize, values: *mut Values) -> u64;
        pub fn spatz_tag_time(text: *const u8, text_length: usize, values: *mut Values) -> u64;
        pub fn spatz_timing_line(line: *const u8, line_length: usize, values: *mut Values) -> u64;
        pub fn spatz_tree(
            text: *const u8,
            text_length: usize,
            room: *mut u8,
            room_length: usize,
            nodes: *mut NodeRow,
            node_rows: usize,
            values: *mut Values,
        ) -> u64;
        pub fn spatz_write(
            text: *const u8,
            text_length: usize,
            styles: *const StyleRow,
            style_rows: usize,
            regions: *const RegionRow,
            region_rows: usize,
            cues: *const CueRow,
            cue_rows: usize,
            out: *mut u8,
            out_length: usize,
            values: *mut Values,
        ) -> u64;
        pub fn spatz_replace(
            raw: *const u8,
            raw_length: usize,
            number: usize,
            row: *const u64,
            row_words: usize,
            text: *const u8,
            text_length: usize,
            scratch: *mut u8,
            scratch_length: usize,
            out: *mut u8,
            out_length: usize,
            values: *mut Values,
        ) -> u64;
        pub fn spatz_rewrite(
            raw: *const u8,
            raw_length: usize,
            text: *mut u8,
            text_length: usize,
            cues: *mut CueRow,
            cue_rows: usize,
            regions: *mut RegionRow,
            region_rows: usize,
            styles: *mut StyleRow,
            style_rows: usize,
            out: *mut u8,
            out_length: usize,
            values: *mut Values,
        ) -> u64;
    }
}

// Safety, of every call below: a slice's pointer is not null and holds as many entries as its length says, and an exclusive borrow overlaps
// no other.

/// The plain text of a raw file goes to the start of `room`; three times the file's length is always enough. Value: its length.
pub fn convert(raw: &[u8], room: &mut [u8], values: &mut Values) -> u64 {
    unsafe { boundary::spatz_convert(raw.as_ptr(), raw.len(), room.as_mut_ptr(), room.len(), values) }
}

/// Is a text plain: 0, or 3 with the first place that is not.
pub fn first_not_plain(text: &[u8], values: &mut Values) -> u64 {
    unsafe { boundary::spatz_first_not_plain(text.as_ptr(), text.len(), values) }
}

/// The lists of a plain text go to the starts of the tables. Values: the counts of cues, regions and styles, also for refusal 6.
pub fn read(text: &[u8], cues: &mut [CueRow], regions: &mut [RegionRow], styles: &mut [StyleRow], values: &mut Values) -> u64 {
    unsafe {
        boundary::spatz_read(
            text.as_ptr(),
            text.len(),
            cues.as_mut_ptr(),
            cues.len(),
            regions.as_mut_ptr(),
            regions.len(),
            styles.as_mut_ptr(),
            styles.len(),
            values,
        )
    }
}

/// Converting and reading in one call: a raw file's plain text goes to the start of `text`, its lists to the starts of the tables. Values: the
/// counts of cues, regions and styles, and the text's length.
pub fn read_file(
    raw: &[u8],
    text: &mut [u8],
    cues: &mut [CueRow],
    regions: &mut [RegionRow],
    styles: &mut [StyleRow],
    values: &mut Values,
) -> u64 {
    unsafe {
        boundary::spatz_read_file(
            raw.as_ptr(),
            raw.len(),
            text.as_mut_ptr(),
            text.len(),
            cues.as_mut_ptr(),
            cues.len(),
            regions.as_mut_ptr(),
            regions.len(),
            styles.as_mut_ptr(),
            styles.len(),
            values,
        )
    }
}

/// Where the identifier of a cue stands in the text. Values: from, to.
pub fn identifier(text: &[u8], cues: &[CueRow], number: usize, values: &mut Values) -> u64 {
    unsafe { boundary::spatz_identifier(text.as_ptr(), text.len(), cues.as_ptr(), cues.len(), number, values) }
}

/// Where the text of a cue stands in the text. Values: from, to.
pub fn text(text: &[u8], cues: &[CueRow], number: usize, values: &mut Values) -> u64 {
    unsafe { boundary::spatz_text(text.as_ptr(), text.len(), cues.as_ptr(), cues.len(), number, values) }
}

/// The last of these regions whose identifier is this name, looked for from the last to the first. Values: 1 where one is found and 0 where none
/// is; its index, 0 where none is; how many regions were looked at. It never refuses: any rows are taken, over any text. An identifier ends at
/// the text's end at the latest and begins at its own end at the latest, and an empty name finds an empty identifier.
pub fn find_region(text: &[u8], regions: &[RegionRow], name: &[u8], values: &mut Values) -> u64 {
    unsafe { boundary::spatz_find_region(text.as_ptr(), text.len(), regions.as_ptr(), regions.len(), name.as_ptr(), name.len(), values) }
}

/// The timestamp that a text begins with. Values where it reads: 0, the place where it ends, its milliseconds; where it does not: the number of
/// the step that fails, as [`crate::TimeFault::number`] has it, and the place where the reading then stands. It is refused only by 5.
pub fn time(text: &[u8], values: &mut Values) -> u64 {
    unsafe { boundary::spatz_time(text.as_ptr(), text.len(), values) }
}

/// A time that is all of a text, as what stands between `<` and `>` has to be. Values and refusal as of [`time`].
pub fn tag_time(text: &[u8], values: &mut Values) -> u64 {
    unsafe { boundary::spatz_tag_time(text.as_ptr(), text.len(), values) }
}

/// A line without its line end as a cue's timing line. Values where it reads: 0, the place where the end time ends, start, end; where it does
/// not: the number of the step that fails and the place where the reading then stands. It is refused only by 5.
pub fn timing_line(line: &[u8], values: &mut Values) -> u64 {
    unsafe { boundary::spatz_timing_line(line.as_ptr(), line.len(), values) }
}

/// The nodes of one cue's text go to the start of the table, their strings to the start of `room`. Values: rows and bytes used.
///
/// A text of more than [`crate::LONG_TEXT`] bytes takes some 7 MB of stack; [`crate::Tree::read`] sees to that.
pub fn tree(text: &[u8], room: &mut [u8], nodes: &mut [NodeRow], values: &mut Values) -> u64 {
    unsafe { boundary::spatz_tree(text.as_ptr(), text.len(), room.as_mut_ptr(), room.len(), nodes.as_mut_ptr(), nodes.len(), values) }
}

/// The file that has the lists of these rows over a text goes to the start of `out`. Value: its length.
pub fn write(text: &[u8], styles: &[StyleRow], regions: &[RegionRow], cues: &[CueRow], out: &mut [u8], values: &mut Values) -> u64 {
    unsafe {
        boundary::spatz_write(
            text.as_ptr(),
            text.len(),
            styles.as_ptr(),
            styles.len(),
            regions.as_ptr(),
            regions.len(),
            cues.as_ptr(),
            cues.len(),
            out.as_mut_ptr(),
            out.len(),
            values,
        )
    }
}

/// The raw file with one cue replaced goes to the start of `out`. Value: its length. The new cue is a row over a text; a row of another count
/// than [`NEW_CUE_WORDS`] is refused by 8, test 1.
pub fn replace(raw: &[u8], number: usize, row: &[u64], text: &[u8], scratch: &mut [u8], out: &mut [u8], values: &mut Values) -> u64 {
    unsafe {
        boundary::spatz_replace(
            raw.as_ptr(),
            raw.len(),
            number,
            row.as_ptr(),
            row.len(),
            text.as_ptr(),
            text.len(),
            scratch.as_mut_ptr(),
            scratch.len(),
            out.as_mut_ptr(),
            out.len(),
            values,
        )
    }
}

/// A raw file converted, read and written again goes to the start of `out`; text room and tables are scratch. Value: its length.
pub fn rewrite(
    raw: &[u8],
    text: &mut [u8],
    cues: &mut [CueRow],
    regions: &mut [RegionRow],
    styles: &mut [StyleRow],
    out: &mut [u8],
    values: &mut Values,
) -> u64 {
    unsafe {
        boundary::spatz_rewrite(
            raw.as_ptr(),
            raw.len(),
            text.as_mut_ptr(),
            text.len(),
            cues.as_mut_ptr(),
            cues.len(),
            regions.as_mut_ptr(),
            regions.len(),
            styles.as_mut_ptr(),
            styles.len(),
            out.as_mut_ptr(),
            out.len(),
            values,
        )
    }
}
