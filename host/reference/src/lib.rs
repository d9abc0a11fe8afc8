//! A second implementation of documents 01 and 02, written from them and not from the proved code: syntax trees, maps and sets,
//! recursion over parents. It is what the proved library and programs are compared with, so it is clear before it is fast.

pub mod course;
pub mod image;
pub mod lines;
pub mod machine;
pub mod rehearsal;
pub mod stored;
pub mod syntax;
pub mod text;
pub mod vectors;
pub mod waiting;

pub use text::{read, Fault, Library};
