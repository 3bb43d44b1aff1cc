//! Which functions a run can enter, and by what (INTEGRITY.md): a search along edges from
//! function to function.

use crate::image::{Instruction, Module};
use std::fmt::Write;

const PROMISE: &str = "Promised of every run of this module, whatever the panel writes into the \
    memory between two calls, on every store, and for all sequences of calls of step and go: it \
    enters no function but those that can be entered, and through a pointer none but those told \
    so. Not promised is anything of time, of heat, of what the panel shows, of what is written \
    while a call is under way, or of a module that is refused; nor that a run goes on: it may \
    stop, and says why.\n";

/// An instruction by which a function leads to another.
struct Edge {
    from: u32,
    place: u32,
    to: u32,
    taken: bool,
}

/// A function and a place in it.
pub type Site = (u32, u32);

/// What is known of a function.
#[derive(Clone, Copy, Default, PartialEq, Eq, Debug)]
pub struct Entry {
    pub enterable: bool,
    /// Where it is first called.
    pub called: Option<Site>,
    /// Where its address is first taken; so a run can enter it through a pointer.
    pub taken: Option<Site>,
}

/// Of every function of the module.
pub fn entries(module: &Module) -> Vec<Entry> {
    let edges = edges(module);
    let mut entries = vec![Entry::default(); module.functions.len()];
    entries[0].enterable = true;
    let mut waiting = vec![0];
    while let Some(from) = waiting.pop() {
        for edge in of(&edges, from) {
            let entry = &mut entries[edge.to as usize];
            let site = (from, edge.place);
            let first = if edge.taken { &mut entry.taken } else { &mut entry.called };
            *first = Some(first.map_or(site, |earlier| earlier.min(site)));
            if !entry.enterable {
                entry.enterable = true;
                waiting.push(edge.to);
            }
        }
    }
    entries
}

/// Each call and each address taken, with rising functions and places.
fn edges(module: &Module) -> Vec<Edge> {
    let mut edges = Vec::new();
    for (from, function) in (0..).zip(&module.functions) {
        for (place, instruction) in (0..).zip(module.code_of(function)) {
            match *instruction {
                Instruction::Call { f } => edges.push(Edge { from, place, to: f, taken: false }),
                Instruction::Function { f, .. } => {
                    edges.push(Edge { from, place, to: f, taken: true });
                }
                _ => {}
            }
        }
    }
    edges
}

/// The edges that leave a function.
fn of(edges: &[Edge], from: u32) -> &[Edge] {
    let first = edges.partition_point(|edge| edge.from < from);
    let end = edges.partition_point(|edge| edge.from <= from);
    &edges[first..end]
}

/// What `k4 state` writes of the module.
pub fn statement(module: &Module) -> String {
    let mut text = String::new();
    for (number, entry) in entries(module).iter().enumerate() {
        if !entry.enterable {
            writeln!(text, "function {number} can't be entered").unwrap();
            continue;
        }
        let begun = (number == 0).then(|| "every run begins in it".to_string());
        let called =
            entry.called.map(|(from, place)| format!("function {from} calls it at place {place}"));
        let taken = entry.taken.map(|(from, place)| {
            format!("through a pointer, as function {from} takes its address at place {place}")
        });
        let reasons: Vec<String> = [begun, called, taken].into_iter().flatten().collect();
        writeln!(text, "function {number} can be entered: {}", reasons.join("; ")).unwrap();
    }
    text + PROMISE
}
