//! The lists of an answer, each record unpacked.
use crate::answers::Answers;
use crate::file::Node;
use crate::ids::*;
use crate::kinds::{IDENT, NAME};
use crate::records::*;

/// The field of so many bits that ends `low` bits above a record's lowest.
fn field(record: impl Into<u64>, low: u32, width: u32) -> u32 {
    (record.into() >> low & ((1 << width) - 1)) as u32
}

fn visibility(public: u32) -> Visibility {
    if public == 1 {
        Visibility::Public
    } else {
        Visibility::Private
    }
}

impl Answers {
    /// The variable of that number.
    #[must_use]
    pub fn binding(&self, id: BindingId) -> Option<Binding<'_>> {
        let r = *self.buffers.bindings[..self.counts.bindings].get(id.0)?;
        let slot = field(r, 12, 15);
        Some(Binding {
            id,
            name: self.name(field(r, 48, 16)),
            source: (field(r, 31, 1) == 0).then_some(field(r, 32, 16) as usize),
            visibility: visibility(field(r, 30, 1)),
            assigned: if field(r, 29, 1) == 1 { AssignCount::Any } else { AssignCount::AtMostOnce },
            captured: field(r, 28, 1) == 1,
            slot: if field(r, 27, 1) == 1 { Slot::Local(LocalSlotId(slot)) } else { Slot::Module(ModuleSlotId(slot)) },
        })
    }

    /// The variables in order of making.
    pub fn bindings(&self) -> impl Iterator<Item = Binding<'_>> {
        (0..self.counts.bindings).filter_map(|i| self.binding(BindingId(i)))
    }

    /// The module list afterwards.
    pub fn module(&self) -> impl Iterator<Item = ModuleEntry<'_>> {
        self.buffers.module[..self.counts.module].iter().map(|&r| ModuleEntry {
            name: self.name(field(r, 16, 16)),
            visibility: visibility(field(r, 15, 1)),
            slot: ModuleSlotId(field(r, 0, 15)),
        })
    }

    /// The scopes from 0 to S.
    pub fn scopes(&self) -> impl Iterator<Item = Scope> + '_ {
        let count = self.file().scope_count();
        self.buffers.scopes[..count].iter().enumerate().map(|(i, &r)| Scope { id: ScopeId(i), parameters: field(r, 16, 16), slots: field(r, 0, 16) })
    }

    /// The slots of all scopes in order of making.
    pub fn slots(&self) -> impl Iterator<Item = NamedSlot<'_>> {
        let mut made = [0; 256];
        self.buffers.slots[..self.counts.slots].iter().map(move |&r| {
            let scope = field(r, 16, 16) as usize;
            made[scope] += 1;
            NamedSlot { scope: ScopeId(scope), slot: LocalSlotId(made[scope] - 1), name: self.name(field(r, 0, 16)) }
        })
    }

    /// The copies in order of making.
    pub fn copies(&self) -> impl Iterator<Item = CopySlotFromParent> + '_ {
        self.buffers.copies[..self.counts.copies].iter().map(|&r| CopySlotFromParent {
            scope: ScopeId(field(r, 24, 8) as usize),
            parent: LocalSlotId(field(r, 12, 12)),
            child: LocalSlotId(field(r, 0, 12)),
        })
    }

    /// The answer in a node's record, if it has one.
    fn answer(&self, node: usize, n: Node) -> Option<NodeAnswer<'_>> {
        let r = self.buffers.nodes[node];
        let (slot, binding) = (field(r, 15, 15), BindingId(field(r, 0, 15) as usize));
        let resolved = match field(r, 30, 2) {
            0 => return None,
            1 => Resolved::Slot(Slot::Module(ModuleSlotId(slot)), binding),
            2 => Resolved::Slot(Slot::Local(LocalSlotId(slot)), binding),
            _ => Resolved::Global(slot),
        };
        Some(NodeAnswer { node, name: self.name(n.value as u32), source_offset: n.source, resolved })
    }

    fn answered(&self, kind: u8) -> impl Iterator<Item = NodeAnswer<'_>> {
        self.file().nodes().filter(move |(_, n)| n.kind == kind).filter_map(|(node, n)| self.answer(node, n))
    }

    /// What the Ident of that node number means; nothing if it has no answer, or the node is no Ident, or there is no such node.
    #[must_use]
    pub fn ident(&self, node: usize) -> Option<NodeAnswer<'_>> {
        let n = self.file().get(node).filter(|n| n.kind == IDENT)?;
        self.answer(node, n)
    }

    /// Where in the source text a node stands, as the file says; nothing if there is no such node.
    #[must_use]
    pub fn source_offset(&self, node: usize) -> Option<u32> {
        self.file().get(node).map(|n| n.source)
    }

    /// The Idents that have an answer, in node order.
    pub fn idents(&self) -> impl Iterator<Item = NodeAnswer<'_>> {
        self.answered(IDENT)
    }

    /// The Names, each with its binding and the binding's slot, in node order.
    pub fn names(&self) -> impl Iterator<Item = NodeAnswer<'_>> {
        self.answered(NAME)
    }

    /// The Idents that have none, in the order of resolving.
    pub fn errors(&self) -> impl Iterator<Item = NameError<'_>> {
        self.buffers.errors[..self.counts.errors].iter().map(|&r| {
            let node = field(r, 16, 16) as usize;
            let n = self.file().node(node);
            NameError { node, name: self.name(n.value as u32), source_offset: n.source, kind: ErrorKind::of(field(r, 0, 16)) }
        })
    }
}
