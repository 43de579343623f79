//! What `--help` and `--version` print.
use super::arguments::Name;

/// The help of one command, or of all.
pub fn of(name: Option<Name>) -> &'static str {
    match name {
        None => GENERAL,
        Some(Name::List) => LIST,
        Some(Name::Tree) => TREE,
        Some(Name::Mend) => MEND,
        Some(Name::Rewrite) => REWRITE,
        Some(Name::Check) => CHECK,
        Some(Name::Plain) => PLAIN,
    }
}

/// This package's version, and the kit's that proved the library in it.
pub fn version() -> String {
    format!("vtt {}, its library proved with {}\n", env!("CARGO_PKG_VERSION"), env!("SPATZENHERD_KIT"))
}

const GENERAL: &str = "\
vtt reads, checks and mends WebVTT files of up to 16,777,216 bytes.

usage: vtt list [--json] FILE
       vtt tree FILE CUE
       vtt mend FILE CUE CHANGES [-o OUT | --in-place [--backup] | --diff]
       vtt rewrite FILE [-o OUT]
       vtt rewrite --in-place [--backup] FILE...
       vtt check [--strict] [--all] FILE...
       vtt plain FILE [-o OUT]
       vtt help [COMMAND]
       vtt --version

  list      what a player reads of a file: styles, regions, cues
  tree      the tags of one cue's text
  mend      replace one cue, and touch no other byte of the file
  rewrite   the file in one written form, without comments
  check     is a file accepted, can its cues be written, where do players differ
  plain     the file's text as it is read: UTF-8, lines ended by LF

FILE is a file's name, or - for standard input. CUE is a cue's number, counted
from 0 as list prints them; or --line N for the cue that has line N of the
file; or --identifier X for the only cue with that identifier.

-q, --quiet says nothing of what went well. vtt COMMAND --help says more of a
command, with an example.

Exit status: 0 done; 1 refused; 2 the command line is not understood; 3 a file
could not be read or written.
";

const LIST: &str = "\
usage: vtt list [--json] FILE

Prints what a player reads of a file. To a terminal: a table. To a pipe: one
line for each style, region and cue, the fields parted by tabs:

  style   index text
  region  index id width lines anchor-x anchor-y viewport-x viewport-y scroll
  cue     index start end id text vertical line line-align position
          position-align size align region first-line line-count

Indices count from 0, lines from 1, times are in milliseconds. In an id and a
text, backslash, tab and LF are printed as \\\\, \\t, \\n.

  --json   one JSON document: file, styles, regions and cues, the settings by
           their names, times in milliseconds

example: vtt list episode-12.vtt
";

const TREE: &str = "\
usage: vtt tree FILE CUE

Prints the nodes of one cue's text: which tags it has, and what stands in them.
To a terminal: indented. To a pipe: one line for each node, the fields index,
kind, parent (or -), classes, value parted by tabs. In classes and values,
backslash, tab and LF are printed as \\\\, \\t, \\n.

CUE is a number counted from 0, --line N or --identifier X.

example: vtt tree episode-12.vtt --line 210
";

const MEND: &str = "\
usage: vtt mend FILE CUE CHANGES [-o OUT | --in-place [--backup] | --diff]

Replaces one cue. What is not named stays as the cue has it, and every byte
outside the cue's own lines stays as it is: comments, line ends, odd bytes.

CUE is a number counted from 0, --line N (the cue that has line N of the file)
or --identifier X (the only cue with that identifier).

CHANGES, at least one:
  --start T, --end T   a time, as HH:MM:SS.mmm or in milliseconds
  --id ID              the identifier; --id '' takes it away
  --text TEXT          the text; it may have several lines, none of them empty
  --text-file F        the text from a file; - is standard input
  --settings S         all settings, as in a timing line: 'line:5 region:low';
                       --settings '' takes them away

Where the new file goes:
  (default)            to standard output
  -o, --output OUT     to a file
  --in-place           in the old one's place: written beside it, read again and
                       checked, then renamed; on any failure the old file stays
  --backup             with --in-place: keeps the old file as FILE.bak
  --diff               nowhere; prints the changed lines as a unified diff

example: vtt mend episode-12.vtt --line 210 --end 00:14:03.500 --in-place
";

const REWRITE: &str = "\
usage: vtt rewrite FILE [-o OUT]
       vtt rewrite --in-place [--backup] FILE...

Prints a file in one written form: styles, regions, cues, each block after an
empty line, times with hours, settings in one order, those at their opening
value left out, lines ended by LF. Comments are not part of what a player
reads, and a rewritten file has none; to mend a cue and keep them, use mend.

  -o, --output OUT   to a file
  --in-place         in the old one's place, checked before it is renamed
  --backup           with --in-place: keeps the old file as FILE.bak

example: vtt rewrite episode-12.vtt -o clean.vtt
";

const CHECK: &str = "\
usage: vtt check [--strict] [--all] FILE...

Prints one line for each file: accepted, with its counts, or the refusal. Then
every cue that can be read and not be written, with its line; then a warning
wherever the standard reads one thing and players another, or where something
has no effect, as FILE:LINE:COLUMN: warning: KIND: what, what the standard
says, what was seen. docs/PLAYERS.md has each kind, and which player and version
it was seen in. A block whose timing line fails is told as FILE:LINE:COLUMN: no
cue here: why; the column is where the reading of its times stops. With several
files, the last line is a summary.

  --strict   exit status 1 also for a warning or a cue that cannot be written
  --all      every warning; else 20 of a kind in a file, and how many more
  --quiet    only what is wrong

example: vtt check --strict season-2/*.vtt
";

const PLAIN: &str = "\
usage: vtt plain FILE [-o OUT]

Prints the text that is read of a file: a byte order mark left out, lines ended
by LF, NUL and broken bytes as U+FFFD. A file need not be WebVTT for this.

  -o, --output OUT   to a file

example: vtt plain episode-12.vtt | less
";
