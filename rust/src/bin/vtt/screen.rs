//! What differs between a terminal and a pipe: colours, and characters that would move the cursor. A pipe gets every byte as it is.
use std::borrow::Cow;
use std::io::{IsTerminal, Write};

/// The colours that are used.
#[derive(Clone, Copy)]
pub enum Colour {
    Red = 31,
    Green = 32,
    Yellow = 33,
    Cyan = 36,
}

/// Is standard output a terminal.
pub fn is_terminal() -> bool {
    std::io::stdout().is_terminal()
}

/// Are colours wanted: on a terminal, where `NO_COLOR` is not set to anything and the terminal is not a dumb one.
pub fn coloured() -> bool {
    let set = |name| std::env::var_os(name).is_some_and(|value| !value.is_empty());
    is_terminal() && !set("NO_COLOR") && std::env::var_os("TERM").is_some_and(|term| term != "dumb")
}

/// A text in a colour, where colours are wanted.
pub fn painted(colour: Colour, text: &str) -> String {
    if coloured() {
        format!("\x1b[{}m{text}\x1b[0m", colour as u8)
    } else {
        text.into()
    }
}

/// A text whose control characters are shown as `^M` and the like, so that a file cannot speak to the terminal. LF is left alone.
pub fn harmless(text: &str) -> Cow<'_, str> {
    let speaks = |c: char| c.is_control() && c != '\n';
    if !text.contains(speaks) {
        return text.into();
    }
    let mut shown = String::with_capacity(text.len() + 8);
    for c in text.chars() {
        match c {
            _ if !speaks(c) => shown.push(c),
            '\x7f' => shown.push_str("^?"),
            c if (c as u32) < 32 => shown.extend(['^', (c as u8 + 64) as char]),
            c => shown.push_str(&format!("<{:02X}>", c as u32)),
        }
    }
    shown.into()
}

/// A sentence on standard error. There is nobody to tell where that fails.
pub fn tell(sentence: &str) {
    let shown = if std::io::stderr().is_terminal() { harmless(sentence) } else { sentence.into() };
    let _ = writeln!(std::io::stderr(), "{shown}");
}

#[cfg(test)]
mod tests {
    use super::harmless;

    #[test]
    fn control_characters_are_shown() {
        assert_eq!(harmless("a\tb\r\x1b[31m\x7f\u{9b}\nä"), "a^Ib^M^[[31m^?<9B>\nä");
        assert_eq!(harmless("äöü"), "äöü");
    }
}
