//! `vtt tree`: the nodes of one cue's text. To a pipe one line for each node, to a terminal indented.
use super::arguments::Which;
use super::failure::Failure;
use super::list::{field, time};
use super::screen::{self, harmless, painted, Colour};
use super::{files, mend, refusals};
use spatzenherd::{File, Kind, Tree};
use std::fmt::Write;

pub fn print(name: &str, file: &File, which: &Which) -> Result<u8, Failure> {
    let number = mend::find(name, file, which)?;
    let tree = file.tree(number).map_err(|refusal| refusals::of_tree(name, file.cue(number).map_or(0, |cue| cue.lines.first), &refusal))?;
    let output = if screen::is_terminal() { indented(&tree) } else { as_lines(&tree) };
    files::print(output.as_bytes())
}

fn word(kind: Kind) -> &'static str {
    match kind {
        Kind::Class => "class",
        Kind::Italic => "italic",
        Kind::Bold => "bold",
        Kind::Underline => "underline",
        Kind::Ruby => "ruby",
        Kind::RubyText => "ruby-text",
        Kind::Voice => "voice",
        Kind::Language => "language",
        Kind::String => "string",
        Kind::Timestamp(_) => "timestamp",
    }
}

fn as_lines(tree: &Tree) -> String {
    let mut out = String::new();
    for (index, node) in tree.nodes().enumerate() {
        let parent = node.parent.map_or("-".into(), |parent| parent.to_string());
        let value = match node.kind {
            Kind::Timestamp(time) => time.to_string(),
            _ => field(node.value),
        };
        let _ = writeln!(out, "{index}\t{}\t{parent}\t{}\t{value}", word(node.kind), field(node.classes));
    }
    out
}

/// The deepest nodes are set in no further than this, so that a text of nothing but tags is still printed in time by its length.
const DEEPEST: usize = 40;

fn indented(tree: &Tree) -> String {
    let mut out = String::new();
    let mut depths: Vec<usize> = vec![];
    for node in tree.nodes() {
        let depth = node.parent.map_or(0, |parent| depths[parent] + 1);
        depths.push(depth);
        let value = match node.kind {
            Kind::Timestamp(milliseconds) => format!(" {}", time(milliseconds)),
            Kind::String => format!(" \"{}\"", harmless(node.value).replace('\n', "\\n")),
            _ if node.value.is_empty() => String::new(),
            _ => format!(" {}", harmless(node.value).replace('\n', "\\n")),
        };
        let classes = if node.classes.is_empty() { String::new() } else { format!(" .{}", harmless(node.classes)) };
        let _ = writeln!(out, "{}{}{classes}{value}", "  ".repeat(depth.min(DEEPEST)), painted(Colour::Cyan, word(node.kind)));
    }
    out
}
