//! `Answers` held against the listing: written from its iterators, the text must be the listing's, byte for byte.
use crate::files;
use vaibmusan::*;

fn word(yes: bool, one: &str, other: &str) -> String {
    if yes { one } else { other }.to_string()
}

fn place(slot: Slot) -> String {
    match slot {
        Slot::Module(ModuleSlotId(s)) => format!("M {s}"),
        Slot::Local(LocalSlotId(s)) => format!("L {s}"),
    }
}

/// A line of words and names.
fn line(out: &mut Vec<u8>, words: &[&[u8]]) {
    out.extend(words.join(&b' '));
    out.push(b'\n');
}

fn written(file: &[u8], answers: &mut Answers) -> Vec<u8> {
    let mut out = Vec::new();
    let counts = match resolve(file, answers) {
        Ok(counts) => counts,
        Err(refusal) => return format!("answer {}\n", refusal.number()).into_bytes(),
    };
    let Counts { bindings, module, slots, copies, errors } = counts;
    line(&mut out, &[format!("answer 0 bindings {bindings} module {module} slots {slots} copies {copies} errors {errors}").as_bytes()]);
    for b in answers.bindings() {
        let shown = word(b.visibility == Visibility::Public, "public", "private");
        let count = word(b.assigned == AssignCount::Any, "any", "once");
        let captured = word(b.captured, "captured", "free");
        let source = b.source.map_or("-".to_string(), |n| n.to_string());
        let rest = format!("{} {shown} {count} {captured} {source}", place(b.slot));
        line(&mut out, &[b"B", b.id.0.to_string().as_bytes(), b.name.bytes, rest.as_bytes()]);
    }
    for m in answers.module() {
        line(&mut out, &[b"M", m.slot.0.to_string().as_bytes(), m.name.bytes, word(m.visibility == Visibility::Public, "public", "private").as_bytes()]);
    }
    for s in answers.scopes() {
        let head = format!("S {} {}:", s.id.0, s.parameters);
        let mut words = vec![head.as_bytes()];
        words.extend(answers.slots().filter(|slot| slot.scope == s.id).map(|slot| slot.name.bytes));
        assert_eq!(words.len() - 1, s.slots as usize);
        line(&mut out, &words);
    }
    for c in answers.copies() {
        line(&mut out, &[format!("C {} {} {}", c.scope.0, c.parent.0, c.child.0).as_bytes()]);
    }
    for i in answers.idents() {
        let meaning = match i.resolved {
            Resolved::Slot(slot, binding) => format!("{} {}", place(slot), binding.0),
            Resolved::Global(g) => format!("G {g} -"),
        };
        line(&mut out, &[format!("I {} {meaning}", i.node).as_bytes()]);
    }
    for e in answers.errors() {
        let code = match e.kind {
            ErrorKind::NotFound => 1,
            ErrorKind::LocalInType => 2,
            other => panic!("{other:?}"),
        };
        line(&mut out, &[format!("E {} {code}", e.node).as_bytes(), e.name.bytes]);
    }
    out
}

#[test]
fn answers_say_what_the_listing_says() {
    let mut answers = Answers::new();
    for (number, (file, expected)) in files::listed().into_iter().enumerate() {
        assert_eq!(listing(&file).to_bytes(), expected, "listing {number}");
        assert!(written(&file, &mut answers) == expected, "file {number}");
    }
    for (number, file) in files::judged() {
        assert!(written(&file, &mut answers) == listing(&file).to_bytes(), "a file of number {number}");
    }
}
