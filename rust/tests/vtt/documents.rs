//! `vtt list --json`: read by Python's own reader of JSON, and compared with the lines.
use crate::published::runs;
use crate::tools::{found, output_of, Folder};

/// Prints, for each document named, the lines that `vtt list` prints to a pipe, and then the name that the document has.
const LINES_OF_DOCUMENTS: &str = r#"
import json, sys

def field(string):
    return string.replace("\\", "\\\\").replace("\t", "\\t").replace("\n", "\\n")

for path in sys.argv[1:]:
    with open(path, encoding="utf-8", newline="") as file:
        document = json.load(file, parse_float=str, parse_int=str)
    assert list(document) == ["file", "styles", "regions", "cues"], list(document)
    lines = []
    for index, style in enumerate(document["styles"]):
        lines.append(["style", str(index), field(style)])
    for index, region in enumerate(document["regions"]):
        anchors = region["regionanchor"] + region["viewportanchor"]
        lines.append(["region", str(index), field(region["id"]), region["width"], region["lines"], *anchors, region["scroll"]])
    for cue in document["cues"]:
        settings = dict(cue["settings"])
        name, index = settings.pop("region"), cue["region_index"]
        assert name == (None if index is None else document["regions"][int(index)]["id"]), name
        assert list(settings) == ["vertical", "line", "line-align", "position", "position-align", "size", "align"]
        head = ["cue", cue["number"], cue["start"], cue["end"], field(cue["id"]), field(cue["text"])]
        lines.append([*head, *settings.values(), "none" if index is None else index, cue["first_line"], cue["line_count"]])
    text = "".join("\t".join(line) + "\n" for line in lines)
    sys.stdout.buffer.write((text + "file\t" + document["file"] + "\n").encode())
"#;

/// What Python reads of documents, as lines.
pub fn lines_of(folder: &Folder, documents: &[String]) -> String {
    let words = [&["-c".to_string(), LINES_OF_DOCUMENTS.into()], documents].concat();
    let output = output_of(folder.program("python3", words), b"");
    assert!(output.status.success(), "{}", String::from_utf8_lossy(&output.stderr));
    String::from_utf8(output.stdout).expect("UTF-8")
}

/// A file with every character in it that a JSON string must not hold as it is, and with those that old readers stumble over.
fn odd_strings() -> String {
    let controls: String = (1..32).chain([127, 0x85, 0x9B]).filter_map(char::from_u32).filter(|c| !"\n\r".contains(*c)).collect();
    let odd = format!("\"quoted\" \\ \\n / </script> {controls} \u{2028}\u{2029} \u{FEFF} \u{FFFE} \u{10FFFF} \u{1F68B} e\u{301}");
    format!("WEBVTT\n\nSTYLE\n{odd}\n\nREGION\nid:a\"\\\u{1}\u{2028}\n\n{odd}\n00:01.000 --> 00:02.000 region:a\"\\\u{1}\u{2028} line:-0.5 size:33.25%\n{odd}\n{odd}\n\n\\\n00:03.000 --> 00:04.000\n\"\n")
}

/// Every public file's document has what its lines have, strings with odd characters too; a refused file gives no document.
#[test]
fn a_document_has_what_the_lines_have() {
    if !found("python3") {
        return;
    }
    let folder = Folder::new("documents");
    let mut expected = String::new();
    let mut documents = vec![];
    let odd = [("odd.vtt".to_string(), odd_strings().into_bytes()), ("a \"b\"\\c\u{1F68B}.vtt".to_string(), b"WEBVTT".to_vec())];
    for (name, input) in runs("lists").into_iter().map(|run| (run.name, run.input)).chain(odd) {
        folder.write(&name, &input);
        let (lines, document) = (folder.vtt(["list", &name]), folder.vtt(["list", "--json", &name]));
        if lines.status != 0 {
            assert_eq!((lines.status, &lines.out, &lines.err), (document.status, &document.out, &document.err));
            continue;
        }
        expected.push_str(&format!("{}file\t{name}\n", lines.text()));
        documents.push(format!("{name}.json"));
        folder.write(&format!("{name}.json"), document.printed());
    }
    assert!(documents.len() > 60 && documents.iter().any(|name| name.starts_with("odd")), "{}", documents.len());
    assert_eq!(lines_of(&folder, &documents), expected);
}

/// A document stands in one form: one entry to a line, the settings by their names, times in milliseconds.
#[test]
fn a_document_as_it_is_printed() {
    let folder = Folder::new("document");
    folder.write("a.vtt", "WEBVTT\n\nREGION\nid:low\nwidth:40.5%\n\na\n00:01.000 --> 00:02.500 region:low line:5,end\n\"Tram\"\\\n");
    let expected = r#"{
  "file": "a.vtt",
  "styles": [],
  "regions": [
    {"id": "low", "width": "40.5%", "lines": 3, "regionanchor": ["0%", "100%"], "viewportanchor": ["0%", "100%"], "scroll": "none"}
  ],
  "cues": [
    {"number": 0, "id": "a", "start": 1000, "end": 2500, "text": "\"Tram\"\\", "settings": {"vertical": "horizontal", "line": "5", "line-align": "end", "position": "auto", "position-align": "auto", "size": "100%", "align": "center", "region": null}, "region_index": null, "first_line": 7, "line_count": 3}
  ]
}
"#;
    assert_eq!(folder.vtt(["list", "a.vtt", "--json"]).text(), expected);
    let empty = "{\n  \"file\": \"standard input\",\n  \"styles\": [],\n  \"regions\": [],\n  \"cues\": []\n}\n";
    assert_eq!(folder.vtt_given(["list", "--json", "-"], b"WEBVTT").text(), empty);
}

/// A name that is not UTF-8 still gives a document.
#[test]
fn a_document_of_an_odd_name() {
    use std::os::unix::ffi::OsStringExt;
    let folder = Folder::new("document-name");
    let name = std::ffi::OsString::from_vec(b"\xFF.vtt".to_vec());
    std::fs::write(folder.path("").join(&name), "WEBVTT").expect("the file is written");
    let document = folder.vtt([std::ffi::OsStr::new("list"), "--json".as_ref(), &name]).text();
    assert!(document.contains("\"file\": \"\u{FFFD}.vtt\""), "{document}");
}
