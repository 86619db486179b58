//! The test door into `scope.rs`, which declares this module for its tests: being inside,
//! it reads the private parts that `check_module` has filled.

use std::cell::RefCell;
use std::ptr;

use starlark_syntax::ErrorKind;
use starlark_syntax::syntax::ast::AstNoPayload;
use starlark_syntax::syntax::payload_map::AstPayloadFunction;
use starlark_syntax::syntax::payload_map::StmtPExt;

use super::*;
use crate::door;
use crate::eval::compiler::scope::payload::CstTypeExprPayload;

thread_local! {
    /// Where the scope of each new slot stands in memory.
    static SLOTS_MADE: RefCell<Vec<*const ()>> = const { RefCell::new(Vec::new()) };
}

/// `scope` is about to make a slot.
pub(super) fn slot_made(scope: &ScopeNames) {
    SLOTS_MADE.with_borrow_mut(|log| log.push(ptr::from_ref(scope).cast()));
}

impl ModuleScopes<'_> {
    /// Begin a new log of slots.
    pub(crate) fn forget_slots() {
        SLOTS_MADE.take();
    }

    pub(crate) fn into_answer(
        self,
        errors: Vec<EvalException>,
        module: &MutableNames,
    ) -> door::Answer {
        let ModuleScopeData { bindings, scopes } = &self.scope_data;
        let slots = scopes_of_slots(scopes, SLOTS_MADE.take());
        let mut payloads = Payloads::default();
        self.cst.into_map_payload(&mut payloads);
        door::Answer {
            bindings: bindings.iter().map(binding).collect(),
            entries: entries(module),
            scopes: scopes.iter().map(scope).collect(),
            copies: copies(scopes, &slots),
            slots,
            names: payloads.names,
            idents: payloads.idents,
            errors: errors.iter().map(error).collect(),
        }
    }
}

/// The number of each logged scope. Scopes are all made before the first slot, so that they
/// stay where the log saw them.
fn scopes_of_slots(scopes: &[ScopeNames], log: Vec<*const ()>) -> Vec<usize> {
    let numbers: HashMap<*const (), usize> = scopes
        .iter()
        .enumerate()
        .map(|(number, scope)| (ptr::from_ref(scope).cast(), number))
        .collect();
    log.iter().map(|scope| numbers[scope]).collect()
}

/// The copies of all scopes, each where its child slot stands among the slots.
fn copies(scopes: &[ScopeNames], slots: &[usize]) -> Vec<door::Copied> {
    let mut made = vec![0; scopes.len()];
    let mut copies = Vec::new();
    for &scope in slots {
        let slot = made[scope];
        made[scope] += 1;
        // A scope's copies stand in the order of their child slots.
        let parents = &scopes[scope].parent;
        if let Ok(at) = parents.binary_search_by_key(&slot, |copy| copy.child.0) {
            copies.push(door::Copied {
                scope,
                parent: parents[at].parent.0,
                child: slot,
            });
        }
    }
    copies
}

fn binding(binding: &Binding) -> door::Binding {
    door::Binding {
        name: binding.name.as_str(),
        slot: slot(binding.slot.expect("analysis gives every binding a slot")),
        public: binding.vis == Visibility::Public,
        any: binding.assign_count == AssignCount::Any,
        captured: binding.captured == Captured::Yes,
        source: match binding.source {
            BindingSource::Source(Span(node)) => Some(node),
            BindingSource::FromModule => None,
        },
    }
}

fn slot(slot: Slot) -> door::Slot {
    match slot {
        Slot::Module(ModuleSlotId(number)) => door::Slot::Module(number),
        Slot::Local(LocalSlotIdCapturedOrNot(number)) => door::Slot::Local(number),
    }
}

fn scope(scope: &ScopeNames) -> door::Scope {
    door::Scope {
        param_count: scope.param_count(),
        slots: scope.used.iter().map(FrozenStringValue::as_str).collect(),
    }
}

fn entries(module: &MutableNames) -> Vec<door::Entry> {
    let entry = |(name, slot, vis): (FrozenStringValue, ModuleSlotId, Visibility)| door::Entry {
        name: name.as_str().to_owned(),
        public: vis == Visibility::Public,
        slot: slot.0,
    };
    module
        .all_names_slots_and_visibilities()
        .into_iter()
        .map(entry)
        .collect()
}

fn error(error: &EvalException) -> door::Error {
    let ErrorKind::Scope(cause) = error.error.kind();
    let kind = match cause
        .downcast_ref()
        .expect("resolving makes only scope errors")
    {
        ScopeError::VariableNotFound(_) | ScopeError::VariableNotFoundDidYouMean(..) => {
            door::ErrorKind::NotFound
        }
        ScopeError::TypeExpressionGlobalOrBuiltin(_) => door::ErrorKind::LocalInType,
    };
    door::Error {
        node: error.span.0,
        kind,
    }
}

/// Reads the tree's payloads off, in node order.
#[derive(Default)]
struct Payloads {
    names: Vec<usize>,
    idents: Vec<Option<door::Resolved>>,
}

impl AstPayloadFunction<CstPayload, AstNoPayload> for Payloads {
    fn map_load(&mut self, _import_path: &str, _interface: Interface) {}

    fn map_ident(&mut self, resolved: Option<ResolvedIdent>) {
        self.idents.push(resolved.map(|resolved| match resolved {
            ResolvedIdent::Slot(at, BindingId(binding)) => door::Resolved::Slot(slot(at), binding),
            ResolvedIdent::Global(FrozenValue(number)) => door::Resolved::Global(number),
        }));
    }

    fn map_ident_assign(&mut self, binding: Option<BindingId>) {
        let BindingId(binding) = binding.expect("analysis binds every name");
        self.names.push(binding);
    }

    fn map_def(&mut self, _scope: ScopeId) {}

    fn map_type_expr(&mut self, _payload: CstTypeExprPayload) {}
}
