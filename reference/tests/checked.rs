//! Scripts whose transcripts were written by hand, and images whose statements were.

use reference::entering::statement;
use reference::image::Module;
use reference::script::{accepted, hex};
use std::fs;

fn checked(file: &str) -> String {
    fs::read_to_string(format!("{}/checked/{file}", env!("CARGO_MANIFEST_DIR"))).unwrap()
}

#[test]
fn scripts_answer_what_was_written_by_hand() {
    for name in ["calls", "stops", "images"] {
        let file = |end| format!("{}/checked/{name}.{end}", env!("CARGO_MANIFEST_DIR"));
        let script = fs::read(file("script")).unwrap();
        let transcript = fs::read_to_string(file("transcript")).unwrap();
        let answered = String::from_utf8(reference::script::transcript(&script)).unwrap();
        for (number, (ours, theirs)) in (1..).zip(answered.lines().zip(transcript.lines())) {
            assert_eq!(ours, theirs, "{name}, line {number} of the transcript");
        }
        assert_eq!(answered, transcript, "{name}");
    }
}

#[test]
fn states_what_was_written_by_hand() {
    let stated = checked("states.stated");
    let images = accepted(checked("states.script").as_bytes());
    assert_eq!(images.len(), 4, "of six lines one is refused, and one is there twice");
    let text: String =
        images.iter().map(|bytes| statement(&Module::read(bytes).unwrap())).collect();
    for (number, (ours, theirs)) in (1..).zip(text.lines().zip(stated.lines())) {
        assert_eq!(ours, theirs, "line {number}");
    }
    assert_eq!(text, stated);
}

/// The image of the firing's module, as tools/kiln.py writes it into a program.
#[test]
fn the_last_image_stated_is_that_of_the_firing() {
    let kiln = format!("{}/../crates/firing/src/kiln.rt", env!("CARGO_MANIFEST_DIR"));
    let text = fs::read_to_string(kiln).unwrap().replace("\\0", "\\x00");
    let written = text.split('"').nth(1).unwrap();
    let bytes: String = written.split("\\x").map(|digits| digits.get(..2).unwrap_or("")).collect();
    let images = accepted(checked("states.script").as_bytes());
    assert_eq!(hex(images.last().unwrap()), bytes);
}
