//! What an answer holds, record by record, with document 01's fields by name.
use crate::ids::{BindingId, LocalSlotId, ModuleSlotId, Name, ScopeId};

/// Whether a module gives a variable to others.
#[derive(Clone, Copy, Debug, PartialEq, Eq, Hash)]
pub enum Visibility {
    /// It does not.
    Private,
    /// It does.
    Public,
}

/// How often a variable is bound.
#[derive(Clone, Copy, Debug, PartialEq, Eq, Hash)]
pub enum AssignCount {
    /// At one place, outside of any loop.
    AtMostOnce,
    /// More often, or in a loop.
    Any,
}

/// Where a variable lives.
#[derive(Clone, Copy, Debug, PartialEq, Eq, Hash)]
pub enum Slot {
    /// In the module.
    Module(ModuleSlotId),
    /// In a scope.
    Local(LocalSlotId),
}

/// A variable.
#[derive(Clone, Copy, Debug, PartialEq, Eq)]
pub struct Binding<'a> {
    /// Its number.
    pub id: BindingId,
    /// Its name.
    pub name: Name<'a>,
    /// The Name node that declares it; none if it is from the module list.
    pub source: Option<usize>,
    /// Public or private.
    pub visibility: Visibility,
    /// Once or any.
    pub assigned: AssignCount,
    /// Read from another scope; a variable of the module: read inside a function.
    pub captured: bool,
    /// Where it lives.
    pub slot: Slot,
}

/// An entry of the module list as it is afterwards.
#[derive(Clone, Copy, Debug, PartialEq, Eq)]
pub struct ModuleEntry<'a> {
    /// Its name.
    pub name: Name<'a>,
    /// Public or private.
    pub visibility: Visibility,
    /// Its slot.
    pub slot: ModuleSlotId,
}

/// A scope.
#[derive(Clone, Copy, Debug, PartialEq, Eq)]
pub struct Scope {
    /// Its number.
    pub id: ScopeId,
    /// How many parameter variables it has; they have its first slots.
    pub parameters: u32,
    /// How many slots it has.
    pub slots: u32,
}

/// A slot of a scope, with the name that it was made for.
#[derive(Clone, Copy, Debug, PartialEq, Eq)]
pub struct NamedSlot<'a> {
    /// The scope.
    pub scope: ScopeId,
    /// The slot.
    pub slot: LocalSlotId,
    /// The name.
    pub name: Name<'a>,
}

/// On entry of a scope, a slot is filled from a slot of the scope directly around it.
#[derive(Clone, Copy, Debug, PartialEq, Eq)]
pub struct CopySlotFromParent {
    /// The scope that is entered.
    pub scope: ScopeId,
    /// The slot of the scope around it.
    pub parent: LocalSlotId,
    /// The slot that is filled.
    pub child: LocalSlotId,
}

/// What a name means.
#[derive(Clone, Copy, Debug, PartialEq, Eq)]
pub enum Resolved {
    /// A variable: where it is found from here, and which it is.
    Slot(Slot, BindingId),
    /// A global, by its number in the file's list.
    Global(u32),
}

/// An Ident with an answer, or a Name with its binding.
#[derive(Clone, Copy, Debug, PartialEq, Eq)]
pub struct NodeAnswer<'a> {
    /// The node.
    pub node: usize,
    /// Its name.
    pub name: Name<'a>,
    /// The node's place in the source text.
    pub source_offset: u32,
    /// What it means.
    pub resolved: Resolved,
}

/// Why an Ident has no answer.
#[derive(Clone, Copy, Debug, PartialEq, Eq, Hash)]
#[non_exhaustive]
pub enum ErrorKind {
    /// 1: nothing of that name.
    NotFound,
    /// 2: a local stands directly in a type.
    LocalInType,
    /// A code that this crate does not know: the library is newer.
    Unknown(u32),
}

impl ErrorKind {
    pub(crate) fn of(code: u32) -> ErrorKind {
        match code {
            1 => ErrorKind::NotFound,
            2 => ErrorKind::LocalInType,
            _ => ErrorKind::Unknown(code),
        }
    }
}

/// An Ident without an answer.
#[derive(Clone, Copy, Debug, PartialEq, Eq)]
pub struct NameError<'a> {
    /// The node.
    pub node: usize,
    /// Its name.
    pub name: Name<'a>,
    /// The node's place in the source text.
    pub source_offset: u32,
    /// Why.
    pub kind: ErrorKind,
}

/// The scope and the slot that a value comes from.
#[derive(Clone, Copy, Debug, PartialEq, Eq)]
pub struct Home {
    /// The scope.
    pub scope: ScopeId,
    /// The slot.
    pub slot: LocalSlotId,
}
