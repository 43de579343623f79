//! The command `vtt`, run as a person runs it: the built program, in a folder of its own, with what it prints, what it leaves behind and how it
//! ends. Where python3, `patch` or `cmp` is not on a machine, the tests that need it say so and do not fail.
#![forbid(unsafe_code)]

mod checking;
mod commands;
mod completion;
mod diffs;
mod documents;
mod errors;
mod help;
mod in_place;
mod killed;
mod mending;
mod odd_files;
mod published;
// The numbers of the other tests; not all that they draw is drawn here.
#[allow(dead_code)]
#[path = "../outside/random.rs"]
mod random;
mod readme;
mod refusals;
mod standard_input;
mod terminal;
mod timing_lines;
mod tools;
