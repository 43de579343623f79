//! The WebVTT cue text tokenizer (000 section 6.4), with the escape state of 004 in place of HTML character references.

use super::numbers::{is_digit, is_space};

/// A token. A start tag without an annotation has an empty one.
#[derive(Debug, Clone, PartialEq, Eq)]
pub enum Token {
    String(Vec<u8>),
    Start { name: Vec<u8>, classes: Vec<Vec<u8>>, annotation: Vec<u8> },
    End(Vec<u8>),
    Timestamp(Vec<u8>),
}

enum State {
    Data,
    Escape,
    Tag,
    StartTag,
    StartTagClass,
    StartTagAnnotation,
    EndTag,
    TimestampTag,
}

/// What the six escapes stand for. The buffer holds an escape without its semicolon.
fn escaped(buffer: &[u8]) -> Option<&'static str> {
    match buffer {
        b"&amp" => Some("&"),
        b"&lt" => Some("<"),
        b"&gt" => Some(">"),
        b"&lrm" => Some("\u{200E}"),
        b"&rlm" => Some("\u{200F}"),
        b"&nbsp" => Some("\u{00A0}"),
        _ => None,
    }
}

/// Leading and trailing ASCII whitespace removed, and each run of it within replaced by one space.
fn collapsed(buffer: &[u8]) -> Vec<u8> {
    let words: Vec<&[u8]> = buffer.split(|&c| is_space(c)).filter(|word| !word.is_empty()).collect();
    words.join(&b' ')
}

/// One token from this position on. The position is before the end of input.
pub fn next_token(input: &[u8], position: &mut usize) -> Token {
    let mut state = State::Data;
    let mut result: Vec<u8> = Vec::new();
    let mut buffer: Vec<u8> = Vec::new();
    let mut classes: Vec<Vec<u8>> = Vec::new();
    loop {
        // None is the end-of-file marker.
        let c = input.get(*position).copied();
        match state {
            State::Data => match c {
                Some(b'&') => {
                    buffer = vec![b'&'];
                    state = State::Escape;
                }
                Some(b'<') if result.is_empty() => state = State::Tag,
                Some(b'<') | None => return Token::String(result),
                Some(c) => result.push(c),
            },
            State::Escape => match c {
                Some(b'&') => {
                    result.append(&mut buffer);
                    buffer = vec![b'&'];
                }
                Some(c) if c.is_ascii_alphanumeric() => buffer.push(c),
                Some(b';') => {
                    match escaped(&buffer) {
                        Some(characters) => result.extend_from_slice(characters.as_bytes()),
                        None => {
                            result.append(&mut buffer);
                            result.push(b';');
                        }
                    }
                    buffer.clear();
                    state = State::Data;
                }
                Some(b'<') | None => {
                    result.append(&mut buffer);
                    return Token::String(result);
                }
                Some(c) => {
                    result.append(&mut buffer);
                    result.push(c);
                    state = State::Data;
                }
            },
            State::Tag => match c {
                Some(b'\t' | b'\n' | 0x0C | b' ') => state = State::StartTagAnnotation,
                Some(b'.') => state = State::StartTagClass,
                Some(b'/') => state = State::EndTag,
                Some(c) if is_digit(c) => {
                    result = vec![c];
                    state = State::TimestampTag;
                }
                Some(b'>') | None => {
                    move_over(c, position);
                    return Token::Start { name: Vec::new(), classes: Vec::new(), annotation: Vec::new() };
                }
                Some(c) => {
                    result = vec![c];
                    state = State::StartTag;
                }
            },
            State::StartTag => match c {
                Some(b'\t' | 0x0C | b' ') => state = State::StartTagAnnotation,
                Some(b'\n') => {
                    buffer = vec![b'\n'];
                    state = State::StartTagAnnotation;
                }
                Some(b'.') => state = State::StartTagClass,
                Some(b'>') | None => {
                    move_over(c, position);
                    return Token::Start { name: result, classes: Vec::new(), annotation: Vec::new() };
                }
                Some(c) => result.push(c),
            },
            State::StartTagClass => match c {
                Some(b'\t' | 0x0C | b' ') => {
                    classes.push(std::mem::take(&mut buffer));
                    state = State::StartTagAnnotation;
                }
                Some(b'\n') => {
                    classes.push(std::mem::replace(&mut buffer, vec![b'\n']));
                    state = State::StartTagAnnotation;
                }
                Some(b'.') => classes.push(std::mem::take(&mut buffer)),
                Some(b'>') | None => {
                    move_over(c, position);
                    classes.push(buffer);
                    return Token::Start { name: result, classes, annotation: Vec::new() };
                }
                Some(c) => buffer.push(c),
            },
            // No escapes inside an annotation (document 01).
            State::StartTagAnnotation => match c {
                Some(b'>') | None => {
                    move_over(c, position);
                    return Token::Start { name: result, classes, annotation: collapsed(&buffer) };
                }
                Some(c) => buffer.push(c),
            },
            State::EndTag => match c {
                Some(b'>') | None => {
                    move_over(c, position);
                    return Token::End(result);
                }
                Some(c) => result.push(c),
            },
            State::TimestampTag => match c {
                Some(b'>') | None => {
                    move_over(c, position);
                    return Token::Timestamp(result);
                }
                Some(c) => result.push(c),
            },
        }
        // Next: to the next character.
        *position += 1;
    }
}

/// "Advance position to the next character", at a greater-than sign and not at the end.
fn move_over(c: Option<u8>, position: &mut usize) {
    if c.is_some() {
        *position += 1;
    }
}
