//! The adapter: node files in, document 01's listings out, with the original's resolver
//! in between. It is no judge: of a file that judging refuses it says `answer ?`, or
//! whatever comes of it.

mod listing;
mod nodefile;
mod tree;

use std::panic::AssertUnwindSafe;
use std::panic::catch_unwind;

use starlark::FrozenHeap;
use starlark::door;
use starlark::door::Module;

use crate::listing::Listing;
use crate::nodefile::NodeFile;

/// The text that answers a file. `full` adds lines for Names and for slots in order of making.
pub fn answer(heap: &FrozenHeap, bytes: &[u8], full: bool) -> String {
    let listing = || {
        let file = NodeFile::read(bytes)?;
        let answer = door::resolve(heap, module(&file)?);
        Some(Listing::new(&file, &answer)?.text(full))
    };
    match catch_unwind(AssertUnwindSafe(listing)) {
        Ok(Some(text)) => text,
        _ => "answer ?\n".to_owned(),
    }
}

/// The nanoseconds of the shortest of some runs of `check_module`; none if the file can't be read.
pub fn best_nanoseconds(bytes: &[u8], runs: usize) -> Option<u128> {
    let module = module(&NodeFile::read(bytes)?)?;
    let best = door::best_time(&FrozenHeap::new(), &module, runs)?;
    Some(best.as_nanos())
}

/// The module that a file describes.
fn module(file: &NodeFile) -> Option<Module> {
    let name = |number: usize| file.names.get(number).cloned();
    let entry = |entry: &nodefile::Entry| {
        Some(door::Entry {
            name: name(entry.name)?,
            public: entry.public,
            slot: entry.slot,
        })
    };
    Some(Module {
        load_reexport: file.reexport,
        entries: file.entries.iter().map(entry).collect::<Option<_>>()?,
        globals: file
            .globals
            .iter()
            .map(|&global| name(global))
            .collect::<Option<_>>()?,
        stmt: tree::stmt(file)?,
    })
}
