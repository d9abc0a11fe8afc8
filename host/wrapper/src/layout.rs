//! The layout of a state's words: the constants of `crates/layout`, by their names there. docs/STATE.md explains them. No call needs
//! them but `STATE_WORDS`; tests and tools that look into a state do.
include!(concat!(env!("OUT_DIR"), "/layout.rs"));
