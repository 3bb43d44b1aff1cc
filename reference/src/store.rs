//! Safe stores (STORES.md), told by their meaning: what is held and what is taken.

use crate::value::Value;
use std::collections::BTreeMap;

/// Slots beyond these don't count.
const MOST_SLOTS: u32 = 65_536;

#[derive(Clone, Copy, PartialEq, Eq, Debug)]
pub enum Make {
    Array,
    Hash,
}

#[derive(Clone, Copy, Debug)]
struct Window {
    base: u32,
    len: u32,
}

#[derive(Clone, Debug)]
pub struct Store {
    make: Make,
    slots: u32,
    window: Option<Window>,
    /// What is held, by the address below the window.
    held: BTreeMap<u32, Value>,
}

impl Store {
    pub fn new(make: Make, slots: u32) -> Store {
        Store { make, slots: slots.min(MOST_SLOTS), window: None, held: BTreeMap::new() }
    }

    pub fn behind_window(self, base: u32, len: u32) -> Store {
        Store { window: Some(Window { base, len }), ..self }
    }

    /// The address below the window, if the window shows it.
    fn below(&self, address: u32) -> Option<u32> {
        match self.window {
            None => Some(address),
            Some(window) if address < window.len => window.base.checked_add(address),
            Some(_) => None,
        }
    }

    pub fn get(&self, address: u32) -> Option<Value> {
        self.held.get(&self.below(address)?).copied()
    }

    pub fn takes(&self, address: u32) -> bool {
        let Some(below) = self.below(address) else { return false };
        match self.make {
            Make::Array => below < self.slots,
            Make::Hash => self.held.contains_key(&below) || self.held.len() < self.slots as usize,
        }
    }

    /// Whether the value was put.
    pub fn put(&mut self, address: u32, value: Value) -> bool {
        if !self.takes(address) {
            return false;
        }
        if let Some(below) = self.below(address) {
            self.held.insert(below, value);
        }
        true
    }

    pub fn drop(&mut self, address: u32) {
        if let Some(below) = self.below(address) {
            self.held.remove(&below);
        }
    }
}
