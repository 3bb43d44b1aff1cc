//! tally SCRIPT TRANSCRIPT: counts what a script meets, a name and a number on each line; says
//! where the transcript parts from that of the reference, if it does.

use reference::script::Replay;
use std::collections::BTreeMap;
use std::process::ExitCode;

fn main() -> ExitCode {
    let files: Vec<String> = std::env::args().skip(1).collect();
    let [script, transcript] = files.as_slice() else {
        eprintln!("tally SCRIPT TRANSCRIPT");
        return ExitCode::FAILURE;
    };
    match (std::fs::read(script), std::fs::read(transcript)) {
        (Ok(script), Ok(transcript)) => tally(&script, &transcript),
        _ => {
            eprintln!("{script} or {transcript} can't be read");
            ExitCode::FAILURE
        }
    }
}

fn tally(script: &[u8], transcript: &[u8]) -> ExitCode {
    let mut replay = Replay::new();
    let mut counts = BTreeMap::from([("scripts".to_string(), 1u64)]);
    let mut theirs = transcript.split_inclusive(|byte| *byte == b'\n');
    let mut alike = true;
    for (number, line) in (1..).zip(script.split(|byte| *byte == b'\n')) {
        let ours = replay.line(number, line);
        if !ours.is_empty() {
            *counts.entry("lines that were answered".to_string()).or_default() += 1;
        }
        for answer in ours.split_inclusive('\n') {
            for name in names(answer.trim_end()) {
                *counts.entry(name).or_default() += 1;
            }
            if !alike {
                continue;
            }
            let other = theirs.next().unwrap_or(b"(nothing)\n");
            if other != answer.as_bytes() {
                alike = false;
                eprintln!("line {number}:   {}", short(line));
                eprintln!("reference: {}", short(answer.as_bytes()));
                eprintln!("other:     {}", short(other));
            }
        }
    }
    for (name, count) in counts {
        println!("{name} {count}");
    }
    match theirs.next() {
        Some(left) if alike => {
            eprintln!("behind the last line");
            eprintln!("other:     {}", short(left));
            ExitCode::FAILURE
        }
        _ if alike => ExitCode::SUCCESS,
        _ => ExitCode::FAILURE,
    }
}

/// Under which names a line of a transcript is counted.
fn names(answer: &str) -> Vec<String> {
    let words: Vec<&str> = answer.split(' ').collect();
    match words.as_slice() {
        ["event", kind, _] => vec![format!("event {kind}")],
        ["stopped", number] => vec![format!("stop {number}")],
        ["made", _, "stopped", number] => vec!["go stopped".to_string(), format!("stop {number}")],
        ["made", _, came] => vec![format!("go {came}")],
        ["refused", number, ..] => vec![format!("refusal {number}")],
        ["accepted"] => vec!["images that were accepted".to_string()],
        ["begun"] => vec!["runs".to_string()],
        ["error", "line", _, ..] => vec![format!("bad line: {}", words[3..].join(" "))],
        _ => vec![],
    }
}

/// A line, cut if it is long.
fn short(line: &[u8]) -> String {
    let text = String::from_utf8_lossy(line);
    let text = text.trim_end_matches('\n');
    match text.char_indices().nth(160) {
        Some((end, _)) => format!("{} ...", &text[..end]),
        None => text.to_string(),
    }
}
