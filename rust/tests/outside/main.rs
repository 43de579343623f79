//! Tests from outside: the library is compared with a slow implementation of the papers that shares no code with it (`papers`), through the
//! functions over lent memory and through the safe ones, and called from C and Python.
//!
//! `SPATZENHERD_FILES` sets how many files are compared (20,000 where it is not set), `SPATZENHERD_SEED` the first file's seed (else the time
//! gives it). A difference names its file's seed.
mod callers;
mod compare;
mod decoding;
mod failed_times;
mod finding;
mod generate;
mod lent;
mod limits;
mod line_numbers;
mod owned;
mod papers;
mod random;
