//! The lines of a cue (request Q-8 of document 02): "its first line's number, from 1, and its count of lines". Line n of the raw file is line n of
//! the plain text, so the plain text's are counted.

use super::model::Part;

/// The number of a cue's first line, from 1, and how many lines it has.
pub struct Lines {
    pub first: usize,
    pub count: usize,
}

/// Where each line of a plain text begins: at its start and after every LF.
pub struct Beginnings(Vec<usize>);

impl Beginnings {
    pub fn of(text: &[u8]) -> Beginnings {
        let after_line_feeds = (1..=text.len()).filter(|&place| text[place - 1] == b'\n');
        Beginnings(std::iter::once(0).chain(after_line_feeds).collect())
    }

    /// The number, from 1, of the line that a place stands in: so many lines begin up to there. An LF stands in the line that it ends.
    fn line(&self, place: usize) -> usize {
        self.0.partition_point(|&beginning| beginning <= place)
    }

    /// The lines of a cue's own part of the text, which begins with its first line and ends where its last line ends.
    pub fn lines(&self, own: &Part) -> Lines {
        let (first, last) = (self.line(own.from), self.line(own.to));
        Lines { first, count: last - first + 1 }
    }
}
