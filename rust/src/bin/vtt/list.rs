//! `vtt list`: what a player reads of a file. To a pipe one line for each style, region and cue, or one JSON document; to a terminal a table.
use super::failure::Failure;
use super::files;
use super::screen::{self, harmless, painted, Colour};
use spatzenherd::{Align, Area, Cue, File, Line, LineAlign, PositionAlign, Scroll, Settings, Vertical, ONE};
use std::fmt::Write;

pub fn print(name: &str, file: &File, json: bool) -> Result<u8, Failure> {
    let output = if json {
        as_json(name, file)
    } else if screen::is_terminal() {
        as_table(file)
    } else {
        as_lines(file)
    };
    files::print(output.as_bytes())
}

/// A time as it is written: hours in at least two digits.
pub fn time(milliseconds: u64) -> String {
    let seconds = milliseconds / 1000;
    format!("{:02}:{:02}:{:02}.{:03}", seconds / 3600, seconds / 60 % 60, seconds % 60, milliseconds % 1000)
}

/// A number of millionths as a decimal without trailing zeros.
fn decimal(millionths: u64) -> String {
    let fraction = format!("{:06}", millionths % ONE);
    let fraction = fraction.trim_end_matches('0');
    let point = if fraction.is_empty() { "" } else { "." };
    format!("{}{point}{fraction}", millionths / ONE)
}

fn percentage(millionths: u64) -> String {
    format!("{}%", decimal(millionths))
}

/// A cue's settings but for its region: each with its name and its value, in the order of the lines and of the documents.
fn settings(s: &Settings) -> [(&'static str, String); 7] {
    let vertical = match s.vertical {
        Vertical::Horizontal => "horizontal",
        Vertical::GrowingLeft => "rl",
        Vertical::GrowingRight => "lr",
    };
    let line = match s.line {
        Line::Auto => "auto".into(),
        Line::Number(n) => format!("{}{}", if n < 0 { "-" } else { "" }, decimal(n.unsigned_abs())),
        Line::Percentage(p) => percentage(p),
    };
    let line_align = match s.line_align {
        LineAlign::Start => "start",
        LineAlign::Center => "center",
        LineAlign::End => "end",
    };
    let position_align = match s.position_align {
        PositionAlign::Auto => "auto",
        PositionAlign::LineLeft => "line-left",
        PositionAlign::Center => "center",
        PositionAlign::LineRight => "line-right",
    };
    let align = match s.align {
        Align::Start => "start",
        Align::Center => "center",
        Align::End => "end",
        Align::Left => "left",
        Align::Right => "right",
    };
    [
        ("vertical", vertical.into()),
        ("line", line),
        ("line-align", line_align.into()),
        ("position", s.position.map_or("auto".into(), percentage)),
        ("position-align", position_align.into()),
        ("size", percentage(s.size)),
        ("align", align.into()),
    ]
}

fn scroll(area: &Area) -> &'static str {
    match area.scroll {
        Scroll::None => "none",
        Scroll::Up => "up",
    }
}

/// A string in one field of a line: backslash, tab and LF as `\\`, `\t`, `\n`.
pub fn field(string: &str) -> String {
    string.replace('\\', "\\\\").replace('\t', "\\t").replace('\n', "\\n")
}

fn as_lines(file: &File) -> String {
    let mut out = String::new();
    for (index, style) in file.styles().enumerate() {
        let _ = writeln!(out, "style\t{index}\t{}", field(style));
    }
    for (index, region) in file.regions().enumerate() {
        let area = &region.area;
        let numbers =
            [area.region_anchor.0, area.region_anchor.1, area.viewport_anchor.0, area.viewport_anchor.1].map(percentage).join("\t");
        let (width, lines) = (percentage(area.width), area.lines);
        let _ = writeln!(out, "region\t{index}\t{}\t{width}\t{lines}\t{numbers}\t{}", field(region.identifier), scroll(area));
    }
    for (index, cue) in file.cues().enumerate() {
        let (identifier, text) = (field(cue.identifier), field(cue.text));
        let values = settings(&cue.settings).map(|(_, value)| value).join("\t");
        let region = cue.region.map_or("none".into(), |region| region.to_string());
        let (start, end, first, count) = (cue.start, cue.end, cue.lines.first, cue.lines.count);
        let _ = writeln!(out, "cue\t{index}\t{start}\t{end}\t{identifier}\t{text}\t{values}\t{region}\t{first}\t{count}");
    }
    out
}

/// A JSON string.
fn quoted(string: &str) -> String {
    let mut out = String::from('"');
    for c in string.chars() {
        match c {
            '"' | '\\' => out.extend(['\\', c]),
            '\n' => out.push_str("\\n"),
            '\t' => out.push_str("\\t"),
            c if c.is_control() => {
                let _ = write!(out, "\\u{:04x}", c as u32);
            }
            c => out.push(c),
        }
    }
    out.push('"');
    out
}

/// Entries as a JSON list, one to a line.
fn entries(entries: impl Iterator<Item = String>) -> String {
    let entries: Vec<String> = entries.map(|entry| format!("\n    {entry}")).collect();
    format!("[{}{}]", entries.join(","), if entries.is_empty() { "" } else { "\n  " })
}

fn as_json(name: &str, file: &File) -> String {
    let names: Vec<&str> = file.regions().map(|region| region.identifier).collect();
    let styles = entries(file.styles().map(quoted));
    let regions = entries(file.regions().map(|region| {
        let area = &region.area;
        let anchor = |(x, y)| format!("[\"{}\", \"{}\"]", percentage(x), percentage(y));
        format!(
            "{{\"id\": {}, \"width\": \"{}\", \"lines\": {}, \"regionanchor\": {}, \"viewportanchor\": {}, \"scroll\": \"{}\"}}",
            quoted(region.identifier),
            percentage(area.width),
            area.lines,
            anchor(area.region_anchor),
            anchor(area.viewport_anchor),
            scroll(area)
        )
    }));
    let cues = entries(file.cues().enumerate().map(|(index, cue)| {
        let values: Vec<String> = settings(&cue.settings).iter().map(|(name, value)| format!("\"{name}\": \"{value}\"")).collect();
        let region = cue.region.map_or("null".into(), |region| quoted(names[region]));
        format!(
            "{{\"number\": {index}, \"id\": {}, \"start\": {}, \"end\": {}, \"text\": {}, \"settings\": {{{}, \"region\": {region}}}, \
             \"region_index\": {}, \"first_line\": {}, \"line_count\": {}}}",
            quoted(cue.identifier),
            cue.start,
            cue.end,
            quoted(cue.text),
            values.join(", "),
            cue.region.map_or("null".into(), |region| region.to_string()),
            cue.lines.first,
            cue.lines.count
        )
    }));
    format!("{{\n  \"file\": {},\n  \"styles\": {styles},\n  \"regions\": {regions},\n  \"cues\": {cues}\n}}\n", quoted(name))
}

/// Settings as a timing line has them, those at their opening value left out.
fn shown_settings(cue: &Cue<&str>, names: &[&str]) -> String {
    let opening = settings(&Settings::default());
    let mut shown: Vec<String> = vec![];
    for ((name, value), (_, open)) in settings(&cue.settings).into_iter().zip(opening) {
        let of_the_last = matches!(name, "line-align" | "position-align");
        match shown.last_mut() {
            _ if value == open => {}
            Some(last) if of_the_last => *last = format!("{last},{value}"),
            _ => shown.push(format!("{name}:{value}")),
        }
    }
    shown.extend(cue.region.map(|region| format!("region:{}", names[region])));
    shown.join(" ")
}

/// Rows in columns, all but the last as wide as their widest entry. An entry of several lines goes on below its own start.
fn columns(out: &mut String, head: &[&str], right: &[bool], rows: &[Vec<String>]) {
    let width = |column: usize| {
        rows.iter().flat_map(|row| row[column].lines()).chain([head[column]]).map(|line| line.chars().count()).max().unwrap_or(0)
    };
    let widths: Vec<usize> = (0..head.len()).map(width).collect();
    let put = |out: &mut String, cells: &[&str]| {
        let mut line = String::new();
        for (column, cell) in cells.iter().enumerate() {
            let gap = " ".repeat(widths[column].saturating_sub(cell.chars().count()));
            let _ = if right[column] { write!(line, "{gap}{cell}  ") } else { write!(line, "{cell}{gap}  ") };
        }
        out.push_str(line.trim_end());
        out.push('\n');
    };
    let mut line = String::new();
    put(&mut line, head);
    out.push_str(&painted(Colour::Cyan, line.trim_end()));
    out.push('\n');
    for row in rows {
        let cells: Vec<Vec<&str>> = row.iter().map(|cell| cell.lines().collect()).collect();
        for index in 0..cells.iter().map(Vec::len).max().unwrap_or(0) {
            put(out, &cells.iter().map(|lines| lines.get(index).copied().unwrap_or("")).collect::<Vec<_>>());
        }
    }
}

fn as_table(file: &File) -> String {
    let safe = |string: &str| harmless(string).into_owned();
    let mut out = String::new();
    let styles: Vec<Vec<String>> = file.styles().enumerate().map(|(index, style)| vec![index.to_string(), safe(style)]).collect();
    if !styles.is_empty() {
        columns(&mut out, &["style", "text"], &[true, false], &styles);
        out.push('\n');
    }
    let names: Vec<&str> = file.regions().map(|region| region.identifier).collect();
    let pair = |(x, y)| format!("{},{}", percentage(x), percentage(y));
    let regions: Vec<Vec<String>> = file
        .regions()
        .enumerate()
        .map(|(index, region)| {
            let area = &region.area;
            let (width, lines) = (percentage(area.width), area.lines.to_string());
            vec![
                index.to_string(),
                width,
                lines,
                pair(area.region_anchor),
                pair(area.viewport_anchor),
                scroll(area).into(),
                safe(region.identifier),
            ]
        })
        .collect();
    if !regions.is_empty() {
        let head = ["region", "width", "lines", "anchor", "viewport", "scroll", "id"];
        columns(&mut out, &head, &[true, true, true, false, false, false, false], &regions);
        out.push('\n');
    }
    let cues: Vec<Vec<String>> = file
        .cues()
        .enumerate()
        .map(|(index, cue)| {
            let (line, start, end) = (cue.lines.first.to_string(), time(cue.start), time(cue.end));
            vec![index.to_string(), line, start, end, safe(cue.identifier), safe(&shown_settings(&cue, &names)), safe(cue.text)]
        })
        .collect();
    let head = ["cue", "line", "start", "end", "id", "settings", "text"];
    columns(&mut out, &head, &[true, true, true, true, false, false, false], &cues);
    out
}

#[cfg(test)]
mod tests {
    use super::*;

    #[test]
    fn numbers_are_as_they_are_written() {
        assert_eq!([0, 1, 12_500_000, 100_000_000, 10].map(decimal), ["0", "0.000001", "12.5", "100", "0.00001"]);
        assert_eq!([0, 359_999_999_999, 3_600_000].map(time), ["00:00:00.000", "99999:59:59.999", "01:00:00.000"]);
    }

    #[test]
    fn a_table_shows_settings_as_a_timing_line_has_them() {
        let raw = b"WEBVTT\n\nREGION\nid:low\n\n00:01.000 --> 00:02.000 position:10%,line-left line:5,end size:50% region:low\na\nb\n";
        let file = File::read(raw).expect("it is accepted");
        let table = as_table(&file);
        assert!(table.contains("line:5,end position:10%,line-left size:50% region:low  a\n"), "{table}");
        assert!(table.ends_with(" b\n"), "{table}");
    }
}
