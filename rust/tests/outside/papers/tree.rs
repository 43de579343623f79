//! The WebVTT cue text parsing rules (000 section 6.4): the nodes of one cue's text as rows, with the checks of a tree.

use super::cue_text::{next_token, Token};
use super::plain::first_not_plain;
use super::times::{whole_timestamp, Time};
use super::{not_plain, over_limit, room_too_short, table_too_short, too_long, NodeRow, Nodes, Refusal, GREATEST_TEXT};

// The kinds of nodes, by the words of their rows.
const CLASS: u64 = 0;
const ITALIC: u64 = 1;
const BOLD: u64 = 2;
const UNDERLINE: u64 = 3;
const RUBY: u64 = 4;
const RUBY_TEXT: u64 = 5;
const VOICE: u64 = 6;
const LANGUAGE: u64 = 7;
const STRING: u64 = 8;
const TIMESTAMP: u64 = 9;

/// A node. Its parent is an index in the list of nodes, None the root.
struct Node {
    parent: Option<usize>,
    kind: u64,
    classes: Vec<u8>,
    value: Vec<u8>,
    time: u64,
}

/// The kind of node that a tag name stands for.
fn kind_of(name: &[u8]) -> Option<u64> {
    match name {
        b"c" => Some(CLASS),
        b"i" => Some(ITALIC),
        b"b" => Some(BOLD),
        b"u" => Some(UNDERLINE),
        b"ruby" => Some(RUBY),
        b"rt" => Some(RUBY_TEXT),
        b"v" => Some(VOICE),
        b"lang" => Some(LANGUAGE),
        _ => None,
    }
}

/// The nodes of a cue's text in order of appearance, and whether the hours of a timestamp tag are above the limit.
fn parse(input: &[u8]) -> (Vec<Node>, bool) {
    let mut nodes: Vec<Node> = Vec::new();
    let mut over = false;
    let mut current: Option<usize> = None;
    let mut position = 0;
    while position < input.len() {
        let kind_of_current = current.map(|index| nodes[index].kind);
        match next_token(input, &mut position) {
            Token::String(value) => nodes.push(Node { parent: current, kind: STRING, classes: Vec::new(), value, time: 0 }),
            Token::Start { name, classes, annotation } => {
                let Some(kind) = kind_of(&name) else {
                    continue;
                };
                // A ruby text object only where current is a ruby object.
                if kind == RUBY_TEXT && kind_of_current != Some(RUBY) {
                    continue;
                }
                // The annotation is the value of voices and languages only.
                let value = if kind == VOICE || kind == LANGUAGE { annotation } else { Vec::new() };
                // The classes of the token, excluding empty ones, parted by full stops.
                let classes: Vec<Vec<u8>> = classes.into_iter().filter(|class| !class.is_empty()).collect();
                nodes.push(Node { parent: current, kind, classes: classes.join(&b'.'), value, time: 0 });
                current = Some(nodes.len() - 1);
            }
            Token::End(name) => {
                let (Some(kind), Some(index)) = (kind_of(&name), current) else {
                    continue;
                };
                if kind_of_current == Some(kind) {
                    current = nodes[index].parent;
                } else if kind == RUBY && kind_of_current == Some(RUBY_TEXT) {
                    // The parent of a ruby text object is a ruby object.
                    current = nodes[index].parent.and_then(|parent| nodes[parent].parent);
                }
            }
            Token::Timestamp(value) => match whole_timestamp(&value) {
                Ok(Time::At(time)) => nodes.push(Node { parent: current, kind: TIMESTAMP, classes: Vec::new(), value: Vec::new(), time }),
                Ok(Time::OverLimit) => over = true,
                Err(_) => {}
            },
        }
    }
    (nodes, over)
}

/// Puts a string after those in the room, and hands back where it stands; 0, 0 for an empty one.
fn put(string: &[u8], room: &mut Vec<u8>) -> [u64; 2] {
    if string.is_empty() {
        return [0, 0];
    }
    let from = room.len() as u64;
    room.extend_from_slice(string);
    [from, room.len() as u64]
}

/// A tree: checks 1, 3, 5, 2, 6.
pub fn tree(text: &[u8], room: usize, rows: usize) -> Result<Nodes, Refusal> {
    if text.len() > GREATEST_TEXT {
        return Err(too_long());
    }
    if let Some(place) = first_not_plain(text) {
        return Err(not_plain(place));
    }
    let (nodes, over) = parse(text);
    if over {
        return Err(over_limit());
    }
    let mut strings = Vec::new();
    let mut table: Vec<NodeRow> = Vec::new();
    for node in &nodes {
        let parent = node.parent.map_or(0, |index| index as u64 + 1);
        let [classes_from, classes_to] = put(&node.classes, &mut strings);
        let [value_from, value_to] = put(&node.value, &mut strings);
        table.push([parent, node.kind, classes_from, classes_to, value_from, value_to, node.time]);
    }
    if strings.len() > room {
        return Err(room_too_short(strings.len()));
    }
    if table.len() > rows {
        return Err(table_too_short(&[table.len() as u64]));
    }
    Ok(Nodes { rows: table, room: strings })
}
