//! What can go wrong, and the exit status of each.
use super::screen;

/// All was done.
pub const DONE: u8 = 0;
/// The library refused; with `check --strict`, something was warned of.
pub const REFUSED: u8 = 1;
/// The command line is not understood.
pub const MISUSED: u8 = 2;
/// A file could not be read or written.
pub const UNREACHED: u8 = 3;

/// Why a command ends before it is done: its exit status, and what standard error says.
#[derive(Debug)]
pub struct Failure {
    pub status: u8,
    /// Empty where nothing is to be said.
    pub message: String,
}

impl Failure {
    /// A refusal by document 01's number: where it is (a file, or a file and a line), and a sentence.
    pub fn refused(place: impl std::fmt::Display, number: u64, sentence: impl std::fmt::Display) -> Failure {
        Failure { status: REFUSED, message: format!("{place}: refused {number}: {sentence}") }
    }

    /// A file that could not be read or written.
    pub fn unreached(name: impl std::fmt::Display, sentence: impl std::fmt::Display) -> Failure {
        Failure { status: UNREACHED, message: format!("{name}: {sentence}") }
    }

    /// A value of the command line that says nothing.
    pub fn misused(sentence: impl std::fmt::Display) -> Failure {
        Failure { status: MISUSED, message: format!("vtt mend: {sentence}") }
    }

    pub fn tell(&self) {
        if !self.message.is_empty() {
            screen::tell(&self.message);
        }
    }
}
