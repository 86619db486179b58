//! The crate over the proved library, on the repository's fixed lists of files.
mod answers;
mod files;
mod limits;
mod listing;
mod readers;
mod stack;
mod trees;

#[allow(dead_code)]
#[path = "../../examples/offsets.rs"]
mod offsets;
