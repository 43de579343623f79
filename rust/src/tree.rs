//! One cue's text read into its nodes.
use crate::lent::{self, NodeRow, NODE_WORDS};
use crate::refusal::Refusal;
use crate::stack;

/// The nodes of one cue's text, in order of appearance.
#[derive(Clone, Debug, PartialEq, Eq)]
pub struct Tree {
    strings: String,
    rows: Vec<NodeRow>,
}

/// What a node is.
#[derive(Clone, Copy, Debug, PartialEq, Eq)]
pub enum Kind {
    Class,
    Italic,
    Bold,
    Underline,
    Ruby,
    RubyText,
    Voice,
    Language,
    String,
    /// With its milliseconds.
    Timestamp(u64),
}

/// A node: `Node<&str>` is a view of a tree's strings, `Node` owns its strings.
#[derive(Clone, Copy, Debug, PartialEq, Eq)]
pub struct Node<S = String> {
    /// The index of the node that it stands in, always below its own; none where it stands in no other.
    pub parent: Option<usize>,
    pub kind: Kind,
    /// Parted by full stops; empty for none.
    pub classes: S,
    /// Of a string its text, of a voice its name, of a language its tag; else empty.
    pub value: S,
}

impl Node<&str> {
    /// The node with strings of its own.
    pub fn to_owned(&self) -> Node {
        Node { parent: self.parent, kind: self.kind, classes: self.classes.to_string(), value: self.value.to_string() }
    }
}

impl Tree {
    /// Reads one cue's text. It is refused by 3 where it holds CR or NUL, by 5 where the hours of a timestamp tag are above 99,999.
    ///
    /// ```
    /// use spatzenherd::{Kind, Tree};
    /// let tree = Tree::read("<v Anna>The <i>last</i> tram")?;
    /// let nodes: Vec<_> = tree.nodes().collect();
    /// assert_eq!((nodes[0].kind, nodes[0].value), (Kind::Voice, "Anna"));
    /// assert_eq!((nodes[3].kind, nodes[3].parent, nodes[3].value), (Kind::String, Some(2), "last"));
    /// # Ok::<(), spatzenherd::Refusal>(())
    /// ```
    pub fn read(text: &str) -> Result<Tree, Refusal> {
        stack::sufficient_for(text.len(), || read_here(text.as_bytes()))
    }

    /// The nodes.
    pub fn nodes(&self) -> impl ExactSizeIterator<Item = Node<&str>> {
        self.rows.iter().map(|row| Node {
            parent: row[0].checked_sub(1).map(|index| index as usize),
            kind: kind_of(row),
            classes: self.part(row[2], row[3]),
            value: self.part(row[4], row[5]),
        })
    }

    fn part(&self, from: u64, to: u64) -> &str {
        &self.strings[from as usize..to as usize]
    }
}

/// The strings are never longer than the text, so the room is; how many nodes there are is asked first.
fn read_here(text: &[u8]) -> Result<Tree, Refusal> {
    let mut values = [0; 8];
    let mut room = vec![0; text.len().min(crate::MAX_TEXT)];
    let mut rows = vec![];
    let mut number = lent::tree(text, &mut room, &mut rows, &mut values);
    if number == 6 {
        rows = vec![[0; NODE_WORDS]; values[0] as usize];
        number = lent::tree(text, &mut room, &mut rows, &mut values);
    }
    if number != 0 {
        return Err(Refusal::told(number, &values, true));
    }
    room.truncate(values[1] as usize);
    Ok(Tree { strings: crate::file::plain_string(room), rows })
}

fn kind_of(row: &NodeRow) -> Kind {
    const KINDS: [Kind; 9] =
        [Kind::Class, Kind::Italic, Kind::Bold, Kind::Underline, Kind::Ruby, Kind::RubyText, Kind::Voice, Kind::Language, Kind::String];
    KINDS.get(row[1] as usize).copied().unwrap_or(Kind::Timestamp(row[6]))
}
