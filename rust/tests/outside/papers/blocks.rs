//! The WebVTT parser algorithm and "collect a WebVTT block" (000 section 6.1), over a plain text.

use super::model::{Cue, Part, Region};
use super::numbers::is_space;
use super::regions::collect_region_settings;
use super::settings::collect_timings_and_settings;

/// A cue that was read, and its own lines: from its first line up to the end of its last line, that line's LF excluded.
pub struct ReadCue {
    pub cue: Cue,
    pub own: Part,
}

/// The lists of a file, and whether a number was above its limit (refusal 5).
pub struct File {
    pub cues: Vec<ReadCue>,
    pub regions: Vec<Region>,
    pub styles: Vec<Part>,
    pub over: bool,
}

enum Block {
    Cue(ReadCue),
    Style(Part),
    Region(Region),
}

struct Parser<'a> {
    input: &'a [u8],
    position: usize,
    seen_cue: bool,
    regions: Vec<Region>,
    over: bool,
}

pub fn contains_arrow(line: &[u8]) -> bool {
    line.windows(3).any(|three| three == b"-->")
}

/// The lists of a plain text, None without a WebVTT signature.
pub fn parse(input: &[u8]) -> Option<File> {
    // 2, 3, 13.
    let mut parser = Parser { input, position: 0, seen_cue: false, regions: Vec::new(), over: false };
    let mut cues = Vec::new();
    let mut styles = Vec::new();
    // 4, 5, 6. The signature.
    if !input.starts_with(b"WEBVTT") {
        return None;
    }
    if input.len() > 6 && !matches!(input[6], b' ' | b'\t' | b'\n') {
        return None;
    }
    // 7. Collect a sequence of characters that are not LF.
    parser.collect_line();
    // 8, 9. Past the end, or move over the LF.
    if !parser.is_past_end() {
        parser.position += 1;
    }
    // 8, 10, 11, 12. Header.
    if !parser.is_past_end() {
        if parser.input[parser.position] != b'\n' {
            parser.collect_block(true);
        } else {
            parser.position += 1;
        }
        parser.collect_line_feeds();
    }
    // 14. Block loop.
    while !parser.is_past_end() {
        match parser.collect_block(false) {
            Some(Block::Cue(cue)) => cues.push(cue),
            Some(Block::Style(style)) => styles.push(style),
            Some(Block::Region(region)) => parser.regions.push(region),
            None => {}
        }
        parser.collect_line_feeds();
    }
    Some(File { cues, regions: parser.regions, styles, over: parser.over })
}

/// Is a line this word, with only ASCII whitespace after it.
fn is_word(line: &[u8], word: &[u8]) -> bool {
    line.starts_with(word) && line[word.len()..].iter().all(|&c| is_space(c))
}

/// The lines of a buffer joined by LF: one unbroken part of the text.
fn joined(buffer: &[Part]) -> Part {
    match (buffer.first(), buffer.last()) {
        (Some(first), Some(last)) => Part { from: first.from, to: last.to },
        _ => Part::NONE,
    }
}

impl Parser<'_> {
    fn is_past_end(&self) -> bool {
        self.position >= self.input.len()
    }

    fn collect_line(&mut self) -> Part {
        let from = self.position;
        while !self.is_past_end() && self.input[self.position] != b'\n' {
            self.position += 1;
        }
        Part { from, to: self.position }
    }

    fn collect_line_feeds(&mut self) {
        while !self.is_past_end() && self.input[self.position] == b'\n' {
            self.position += 1;
        }
    }

    fn collect_block(&mut self, in_header: bool) -> Option<Block> {
        // 2 to 10. The buffer is held as the lines that were appended to it.
        let first_place = self.position;
        let mut line_count = 0;
        let mut previous_position = self.position;
        let mut buffer: Vec<Part> = Vec::new();
        let mut seen_eof = false;
        let mut seen_arrow = false;
        let mut cue: Option<Cue> = None;
        let mut timing_line_end = self.position;
        let mut style = false;
        let mut region = false;
        // 11. Loop.
        loop {
            // 1, 2.
            let line = self.collect_line();
            line_count += 1;
            // 3.
            if self.is_past_end() {
                seen_eof = true;
            } else {
                self.position += 1;
            }
            let characters = line.of(self.input);
            if contains_arrow(characters) {
                // 4.
                if !in_header && (line_count == 1 || (line_count == 2 && !seen_arrow)) {
                    seen_arrow = true;
                    previous_position = self.position;
                    let identifier = joined(&buffer);
                    match collect_timings_and_settings(characters, self.input, &self.regions) {
                        Ok(timing) => {
                            if timing.over {
                                self.over = true;
                            }
                            let (start, end, settings) = (timing.start, timing.end, timing.settings);
                            cue = Some(Cue { identifier, start, end, text: Part::NONE, settings });
                            timing_line_end = line.to;
                            buffer.clear();
                            self.seen_cue = true;
                        }
                        Err(_) => cue = None,
                    }
                } else {
                    self.position = previous_position;
                    break;
                }
            } else if characters.is_empty() {
                // 5.
                break;
            } else {
                // 6.
                if !in_header && line_count == 2 && !self.seen_cue {
                    let line1 = joined(&buffer).of(self.input);
                    if is_word(line1, b"STYLE") {
                        style = true;
                        buffer.clear();
                    } else if is_word(line1, b"REGION") {
                        region = true;
                        buffer.clear();
                    }
                }
                buffer.push(line);
                previous_position = self.position;
            }
            // 7.
            if seen_eof {
                break;
            }
        }
        // 12. The cue's text is the buffer.
        if let Some(mut cue) = cue {
            cue.text = joined(&buffer);
            let last_place = if buffer.is_empty() { timing_line_end } else { cue.text.to };
            return Some(Block::Cue(ReadCue { cue, own: Part { from: first_place, to: last_place } }));
        }
        // 13. Style text is kept unparsed.
        if style {
            return Some(Block::Style(joined(&buffer)));
        }
        // 14.
        if region {
            let settings = joined(&buffer);
            return Some(Block::Region(collect_region_settings(self.input, settings, &mut self.over)));
        }
        // 15.
        None
    }
}
