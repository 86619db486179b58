//! Refusals, zero buffers, spellings, names, copies.
use crate::files;
use vaibmusan::*;

fn all_zero(answers: &Answers) -> bool {
    let r = answers.raw();
    r.bindings.iter().all(|&x| x == 0) && [r.nodes, r.module, r.scopes, r.slots, r.copies, r.errors].iter().all(|b| b.iter().all(|&x| x == 0))
}

#[test]
fn each_file_gets_its_number() {
    for (number, file) in files::judged() {
        assert_eq!(judge(&file).map_or_else(Refusal::number, |()| 0), number);
    }
}

#[test]
fn a_damaged_file_leaves_zeros() {
    let mut answers = Answers::new();
    let mut refused = 0;
    for (number, (file, _)) in files::listed().into_iter().enumerate() {
        resolve(&files::sample(), &mut answers).expect("the sample is accepted");
        let mut damaged = file.clone();
        match number % 3 {
            0 => damaged.truncate(file.len() - 1),
            1 => damaged[number % 12] ^= 0x55,
            _ => damaged[12 + number % 8] ^= 0xff,
        }
        if resolve(&damaged, &mut answers).is_err() {
            refused += 1;
            assert!(all_zero(&answers) && answers.counts() == Counts::default(), "file {number}");
            assert_eq!((answers.idents().count(), answers.scopes().count(), answers.names().count()), (0, 0, 0));
        }
    }
    assert!(refused > 250, "{refused} were refused");
}

#[test]
fn names_are_spelled_as_the_file_says() {
    let mut answers = Answers::new();
    for (file, _) in files::listed() {
        if resolve(&file, &mut answers).is_ok() {
            for answer in answers.names().chain(answers.idents()).take(20) {
                assert_eq!(answer.name.bytes, spelling(&file, answer.name.number));
            }
        }
    }
}

#[test]
fn copies_lead_home() {
    let mut answers = Answers::new();
    let mut followed = 0;
    for (file, _) in files::listed() {
        let _ = resolve(&file, &mut answers);
        for ident in answers.idents() {
            let Some(home) = answers.home(&ident) else { continue };
            let Resolved::Slot(_, id) = ident.resolved else { panic!("a global has no home") };
            let binding = answers.binding(id).expect("there is such a binding");
            assert_eq!(binding.slot, Slot::Local(home.slot));
            let made = answers.slots().find(|s| (s.scope, s.slot) == (home.scope, home.slot)).expect("the slot was made");
            assert_eq!(made.name, binding.name);
            followed += 1;
        }
    }
    assert!(followed > 500, "{followed} were followed");
}

#[test]
fn a_refusal_says_its_condition() {
    assert_eq!(Refusal::Depth.to_string(), "depth 65 or more");
    assert_eq!((Refusal::ShortBuffer.number(), Refusal::Slots.number()), (1, 12));
}

#[test]
fn an_ident_by_its_node() {
    let mut answers = Answers::new();
    assert_eq!((answers.ident(0), answers.source_offset(0)), (None, None));
    for (file, _) in files::listed() {
        let _ = resolve(&file, &mut answers);
        let mut idents = answers.idents().peekable();
        for node in 0..answers.raw().nodes.len() + 2 {
            let expected = idents.next_if(|i| i.node == node);
            assert_eq!(answers.ident(node), expected, "node {node}");
            assert!(expected.map_or(true, |i| answers.source_offset(node) == Some(i.source_offset)));
        }
    }
}

/// Each node's place in the source; the sample's first Name is `offset`, behind five lines of comment.
#[test]
fn a_node_has_a_source_offset() {
    let mut answers = Answers::new();
    resolve(&files::sample(), &mut answers).expect("the sample is accepted");
    let source = files::source();
    for binding in answers.bindings() {
        let at = answers.source_offset(binding.source.expect("declared in the script")).expect("there is such a node") as usize;
        assert_eq!(&source[at..at + binding.name.bytes.len()], binding.name.bytes);
    }
    let count = (0..).take_while(|&node| answers.source_offset(node).is_some()).count();
    assert_eq!(count, usize::from(files::sample()[1]) << 8 | usize::from(files::sample()[2]));
}

#[test]
fn answers_can_be_printed() {
    let mut answers = Answers::new();
    assert_eq!(format!("{answers:?}"), "Answers { bindings: [], module: [], scopes: [], slots: [], copies: [], idents: [], names: [], errors: [] }");
    resolve(&files::sample(), &mut answers).expect("the sample is accepted");
    let shown = format!("{answers:?}");
    assert!(shown.contains("CopySlotFromParent { scope: ScopeId(3), parent: LocalSlotId(5), child: LocalSlotId(1) }"), "{shown}");
}
