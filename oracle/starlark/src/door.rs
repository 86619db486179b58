//! The door of the oracle: a module goes in, `check_module` runs on it, and what that
//! leaves in private parts comes out in plain numbers. Everything is in the crate's own
//! order; scopes are numbered by the crate: 0 the module, then Defs and Lambdas in node order.

use std::collections::HashMap;
use std::time::Duration;
use std::time::Instant;

use starlark_map::small_map::SmallMap;
use starlark_syntax::codemap::CodeMap;
use starlark_syntax::eval_exception::EvalException;
use starlark_syntax::syntax::Dialect;
use starlark_syntax::syntax::ast::AstStmt;
use starlark_syntax::syntax::ast::Visibility;

use crate::FrozenHeap;
use crate::environment::Globals;
use crate::environment::names::MutableNames;
use crate::environment::slots::ModuleSlotId;
use crate::eval::compiler::scope::ModuleScopes;
use crate::eval::compiler::scope::scope_resolver_globals::ScopeResolverGlobals;
use crate::values::FrozenValue;
use crate::values::any::FrozenAnyValue;

/// What is to be resolved.
#[derive(Clone)]
pub struct Module {
    pub load_reexport: bool,
    pub entries: Vec<Entry>,
    pub globals: Vec<String>,
    pub stmt: AstStmt,
}

/// A name in the list of a module.
#[derive(Clone)]
pub struct Entry {
    pub name: String,
    pub public: bool,
    pub slot: u32,
}

/// What resolving found.
pub struct Answer {
    pub bindings: Vec<Binding>,
    /// The module's list afterwards.
    pub entries: Vec<Entry>,
    pub scopes: Vec<Scope>,
    /// For each local slot, in order of making, its scope.
    pub slots: Vec<usize>,
    /// In order of making.
    pub copies: Vec<Copied>,
    /// For each Name in node order, its binding.
    pub names: Vec<usize>,
    /// For each Ident in node order, what it was resolved to; nothing where an error is.
    pub idents: Vec<Option<Resolved>>,
    pub errors: Vec<Error>,
}

pub struct Binding {
    pub name: &'static str,
    pub slot: Slot,
    pub public: bool,
    /// May be assigned more than once.
    pub any: bool,
    pub captured: bool,
    /// The Name node that made it; none if from the module.
    pub source: Option<usize>,
}

#[derive(Copy, Clone)]
pub enum Slot {
    Module(u32),
    Local(u32),
}

pub struct Scope {
    pub param_count: u32,
    /// The name of each slot.
    pub slots: Vec<&'static str>,
}

/// A slot of a scope that is filled from a slot of the scope around it.
pub struct Copied {
    pub scope: usize,
    pub parent: u32,
    pub child: u32,
}

pub enum Resolved {
    /// A slot, and its binding.
    Slot(Slot, usize),
    /// A position in the list of globals.
    Global(usize),
}

/// An error at an Ident.
pub struct Error {
    pub node: usize,
    pub kind: ErrorKind,
}

pub enum ErrorKind {
    NotFound,
    LocalInType,
}

pub fn resolve(heap: &FrozenHeap, module: Module) -> Answer {
    let prepared = Prepared::new(heap, &module);
    ModuleScopes::forget_slots();
    let (errors, scopes) = prepared.check(module.stmt);
    scopes.into_answer(errors, &prepared.names)
}

/// The shortest of several runs of `check_module`, preparations and clean-up not counted.
pub fn best_time(heap: &FrozenHeap, module: &Module, runs: usize) -> Option<Duration> {
    let time = |_| {
        let prepared = Prepared::new(heap, module);
        let stmt = module.stmt.clone();
        ModuleScopes::forget_slots();
        let start = Instant::now();
        let checked = prepared.check(stmt);
        let time = start.elapsed();
        drop(checked);
        time
    };
    (0..runs).map(time).min()
}

/// All that `check_module` takes besides the tree.
struct Prepared<'h> {
    heap: &'h FrozenHeap,
    names: MutableNames,
    globals: Globals,
    dialect: Dialect,
    codemap: CodeMap,
}

impl<'h> Prepared<'h> {
    fn new(heap: &'h FrozenHeap, module: &Module) -> Prepared<'h> {
        let names = MutableNames::with_entries(module.entries.iter().map(|entry| {
            let vis = match entry.public {
                true => Visibility::Public,
                false => Visibility::Private,
            };
            (
                heap.alloc_str_intern(&entry.name),
                ModuleSlotId::new(entry.slot),
                vis,
            )
        }));
        let mut globals = SmallMap::new();
        for (number, name) in module.globals.iter().enumerate() {
            globals.insert_hashed(
                heap.alloc_str_intern(name).get_hashed(),
                FrozenValue(number),
            );
        }
        Prepared {
            heap,
            names,
            globals: Globals(globals),
            dialect: Dialect {
                enable_load_reexport: module.load_reexport,
            },
            codemap: CodeMap,
        }
    }

    fn check(&self, stmt: AstStmt) -> (Vec<EvalException>, ModuleScopes<'_>) {
        // SAFETY: `check_module` gives neither reference back, and `self` lives longer than the call.
        let (globals, codemap) = unsafe {
            (
                FrozenAnyValue::new(&self.globals),
                FrozenAnyValue::new(&self.codemap),
            )
        };
        ModuleScopes::check_module(
            &self.names,
            self.heap,
            &HashMap::new(),
            stmt,
            ScopeResolverGlobals {
                globals: Some(globals),
            },
            codemap,
            &self.dialect,
        )
    }
}
