//! What resolving answers.
use crate::ffi::{self, Buffers};
use crate::file::File;
use crate::ids::{LocalSlotId, Name, ScopeId};
use crate::records::{Home, NodeAnswer, Resolved, Slot};
use crate::refusal::Refusal;
use std::fmt;

/// How many records each list of an answer has.
#[derive(Clone, Copy, Debug, Default, PartialEq, Eq)]
pub struct Counts {
    /// Variables.
    pub bindings: usize,
    /// Entries of the module list afterwards.
    pub module: usize,
    /// Slots of all scopes.
    pub slots: usize,
    /// Copies.
    pub copies: usize,
    /// Idents without an answer.
    pub errors: usize,
}

/// The buffers of an answer as they are: packed records, then zeros.
#[derive(Clone, Copy, Debug)]
#[allow(missing_docs)]
pub struct Raw<'a> {
    pub nodes: &'a [u32],
    pub bindings: &'a [u64],
    pub module: &'a [u32],
    pub scopes: &'a [u32],
    pub slots: &'a [u32],
    pub copies: &'a [u32],
    pub errors: &'a [u32],
}

/// Room for the answer about one file, to be used again for the next: [`resolve`] fills it.
/// It keeps a copy of the file that it tells of, so that names can be read; after a refusal it is empty.
#[derive(Clone)]
pub struct Answers {
    pub(crate) buffers: Box<Buffers>,
    pub(crate) counts: Counts,
    file: Vec<u8>,
}

/// Which variable each name of a file means, and in which slot it lives.
///
/// ```
/// use vaibmusan::{resolve, Answers, Refusal};
/// let mut answers = Answers::new();
/// assert_eq!(resolve(b"too short", &mut answers), Err(Refusal::Header));
/// assert_eq!(answers.bindings().count(), 0);
/// ```
///
/// # Errors
/// The smallest of document 01's numbers whose condition holds; `answers` is empty then. An Ident that means nothing is no refusal:
/// [`Answers::errors`] has it.
pub fn resolve(file: &[u8], answers: &mut Answers) -> Result<Counts, Refusal> {
    let a = ffi::resolve(file, &mut answers.buffers);
    keep(file, a, answers)
}

/// What was answered of a file: the counts and a copy of it, or nothing.
pub(crate) fn keep(file: &[u8], a: ffi::Answer, answers: &mut Answers) -> Result<Counts, Refusal> {
    answers.counts = Counts::default();
    answers.file.clear();
    Refusal::check(a.number)?;
    answers.counts = Counts { bindings: a.bindings, module: a.module, slots: a.slots, copies: a.copies, errors: a.errors };
    answers.file.extend_from_slice(file);
    Ok(answers.counts)
}

/// The lists, record by record.
impl fmt::Debug for Answers {
    fn fmt(&self, f: &mut fmt::Formatter<'_>) -> fmt::Result {
        fn list<T>(records: impl Iterator<Item = T>) -> Vec<T> {
            records.collect()
        }
        f.debug_struct("Answers")
            .field("bindings", &list(self.bindings()))
            .field("module", &list(self.module()))
            .field("scopes", &list(self.scopes()))
            .field("slots", &list(self.slots()))
            .field("copies", &list(self.copies()))
            .field("idents", &list(self.idents()))
            .field("names", &list(self.names()))
            .field("errors", &list(self.errors()))
            .finish()
    }
}

impl Default for Answers {
    fn default() -> Self {
        Self::new()
    }
}

impl Answers {
    /// Room, with nothing in it.
    #[must_use]
    pub fn new() -> Self {
        Answers { buffers: Buffers::new(), counts: Counts::default(), file: Vec::new() }
    }

    /// How many records each list has.
    #[must_use]
    pub fn counts(&self) -> Counts {
        self.counts
    }

    /// The packed records.
    #[must_use]
    pub fn raw(&self) -> Raw<'_> {
        let b = &self.buffers;
        Raw { nodes: &b.nodes, bindings: &b.bindings, module: &b.module, scopes: &b.scopes, slots: &b.slots, copies: &b.copies, errors: &b.errors }
    }

    pub(crate) fn file(&self) -> File<'_> {
        File(&self.file)
    }

    pub(crate) fn name(&self, number: u32) -> Name<'_> {
        self.file().name(number as usize)
    }

    /// The scopes around a node, outermost first; none where there is no such node.
    #[must_use]
    pub fn scopes_around(&self, node: usize) -> Vec<ScopeId> {
        ffi::scopes_around(&self.file, node).into_iter().map(|s| ScopeId(s as usize)).collect()
    }

    /// Where a slot of the last of these scopes, given outermost first, has its value from: its copies are followed outward.
    #[must_use]
    pub fn follow(&self, around: &[ScopeId], slot: LocalSlotId) -> Home {
        let around: Vec<u32> = around.iter().map(|s| s.0 as u32).collect();
        let (scope, slot) = ffi::follow(&self.buffers.copies[..self.counts.copies], &around, slot.0 as usize);
        Home { scope: ScopeId(scope), slot: LocalSlotId(slot as u32) }
    }

    /// The variable's own place, of an Ident that means a local.
    #[must_use]
    pub fn home(&self, ident: &NodeAnswer<'_>) -> Option<Home> {
        match ident.resolved {
            Resolved::Slot(Slot::Local(slot), _) => Some(self.follow(&self.scopes_around(ident.node), slot)),
            _ => None,
        }
    }

    /// The listing of the file.
    #[must_use]
    pub fn listing(&self) -> crate::Listing<'_> {
        crate::listing(&self.file)
    }
}
