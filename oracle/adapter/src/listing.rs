//! The listing of document 01, written from what the door gives. The one translation is
//! of scope numbers: the crate counts Defs and Lambdas in node order, a file numbers them
//! as it likes. A scope number is only a key in the original, so that nothing else changes.

use std::fmt::Write;

use starlark::door::Answer;
use starlark::door::ErrorKind;
use starlark::door::Resolved;
use starlark::door::Slot;

use crate::nodefile::Kind;
use crate::nodefile::NodeFile;

/// More local slots than this in all scopes together are refused.
const MAX_SLOTS: usize = 4096;

pub struct Listing<'a> {
    file: &'a NodeFile,
    answer: &'a Answer,
    /// The file's number of each of the crate's scopes.
    number_of_scope: Vec<usize>,
    /// The crate's scope that has each of the file's numbers.
    scope_of_number: Vec<usize>,
}

impl<'a> Listing<'a> {
    /// None if the file doesn't number its scopes 1..S each once.
    pub fn new(file: &'a NodeFile, answer: &'a Answer) -> Option<Listing<'a>> {
        let mut number_of_scope = vec![0];
        for node in &file.nodes {
            if matches!(node.kind, Kind::Def | Kind::Lambda) {
                number_of_scope.push(node.value);
            }
        }
        let mut scope_of_number = vec![None; number_of_scope.len()];
        for (scope, &number) in number_of_scope.iter().enumerate() {
            *scope_of_number.get_mut(number)? = Some(scope);
        }
        Some(Listing {
            file,
            answer,
            number_of_scope,
            scope_of_number: scope_of_number.into_iter().collect::<Option<_>>()?,
        })
    }

    pub fn text(&self, full: bool) -> String {
        if self.answer.slots.len() > MAX_SLOTS {
            return "answer 12\n".to_owned();
        }
        let mut text = String::new();
        self.write(&mut text).expect("a string takes any text");
        if full {
            self.write_more(&mut text).expect("a string takes any text");
        }
        text
    }

    /// Document 01's listing.
    fn write(&self, text: &mut String) -> std::fmt::Result {
        let Answer {
            bindings,
            entries,
            scopes,
            slots,
            copies,
            idents,
            errors,
            ..
        } = self.answer;
        writeln!(
            text,
            "answer 0 bindings {} module {} slots {} copies {} errors {}",
            bindings.len(),
            entries.len(),
            slots.len(),
            copies.len(),
            errors.len()
        )?;
        for (number, binding) in bindings.iter().enumerate() {
            let visibility = visibility(binding.public);
            let assigned = if binding.any { "any" } else { "once" };
            let captured = if binding.captured { "captured" } else { "free" };
            let source = binding
                .source
                .map_or("-".to_owned(), |node| node.to_string());
            let (name, slot) = (binding.name, slot(binding.slot));
            writeln!(
                text,
                "B {number} {name} {slot} {visibility} {assigned} {captured} {source}"
            )?;
        }
        for entry in entries {
            writeln!(
                text,
                "M {} {} {}",
                entry.slot,
                entry.name,
                visibility(entry.public)
            )?;
        }
        for (number, &scope) in self.scope_of_number.iter().enumerate() {
            write!(text, "S {number} {}:", scopes[scope].param_count)?;
            for name in &scopes[scope].slots {
                write!(text, " {name}")?;
            }
            writeln!(text)?;
        }
        for copy in copies {
            let scope = self.number_of_scope[copy.scope];
            writeln!(text, "C {scope} {} {}", copy.parent, copy.child)?;
        }
        for (node, resolved) in self.nodes(Kind::Ident).zip(idents) {
            match resolved {
                Some(Resolved::Slot(at, binding)) => {
                    writeln!(text, "I {node} {} {binding}", slot(*at))?
                }
                Some(Resolved::Global(number)) => writeln!(text, "I {node} G {number} -")?,
                None => {}
            }
        }
        for error in errors {
            let code = match error.kind {
                ErrorKind::NotFound => 1,
                ErrorKind::LocalInType => 2,
            };
            let name = &self.file.names[self.file.nodes[error.node].value];
            writeln!(text, "E {} {code} {name}", error.node)?;
        }
        Ok(())
    }

    /// The binding of each Name, and the slots in order of making.
    fn write_more(&self, text: &mut String) -> std::fmt::Result {
        let Answer {
            bindings,
            scopes,
            slots,
            names,
            ..
        } = self.answer;
        for (node, &binding) in self.nodes(Kind::Name).zip(names) {
            writeln!(text, "N {node} {} {binding}", slot(bindings[binding].slot))?;
        }
        let mut names_of_slots: Vec<_> = scopes.iter().map(|scope| scope.slots.iter()).collect();
        for &scope in slots {
            let name = names_of_slots[scope]
                .next()
                .expect("a scope names each of its slots");
            writeln!(text, "T {} {name}", self.number_of_scope[scope])?;
        }
        Ok(())
    }

    /// The numbers of the nodes of one kind.
    fn nodes(&self, kind: Kind) -> impl Iterator<Item = usize> {
        let nodes = self.file.nodes.iter().enumerate();
        nodes
            .filter(move |(_, node)| node.kind == kind)
            .map(|(number, _)| number)
    }
}

fn visibility(public: bool) -> &'static str {
    if public { "public" } else { "private" }
}

/// Module or local, and the slot's number.
fn slot(slot: Slot) -> String {
    match slot {
        Slot::Module(number) => format!("M {number}"),
        Slot::Local(number) => format!("L {number}"),
    }
}
