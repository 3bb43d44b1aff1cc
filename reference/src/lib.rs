//! A second program for the replay script, written from docs/ alone.

pub mod entering;
pub mod image;
pub mod lines;
pub mod machine;
pub mod maker;
pub mod rules;
pub mod script;
pub mod store;
pub mod value;
