//! Every reader of a variable, against the Idents' own answers.
use crate::files;
use vaibmusan::*;

#[test]
fn each_ident_stands_with_what_it_means() {
    let mut answers = Answers::new();
    let mut found = 0;
    for (file, _) in files::listed() {
        let lists = match readers(&file, &mut answers) {
            Ok(lists) => lists,
            Err(_) => continue,
        };
        for binding in answers.bindings() {
            let meant: Vec<usize> = answers.idents().filter(|i| matches!(i.resolved, Resolved::Slot(_, id) if id == binding.id)).map(|i| i.node).collect();
            assert_eq!(lists.of_binding(binding.id).collect::<Vec<_>>(), meant);
            found += meant.len();
        }
        for global in 0..256 {
            let meant: Vec<usize> = answers.idents().filter(|i| matches!(i.resolved, Resolved::Global(g) if g as usize == global)).map(|i| i.node).collect();
            assert_eq!(lists.of_global(global).collect::<Vec<_>>(), meant);
            found += meant.len();
        }
    }
    assert!(found > 500, "{found} readers");
}

#[test]
fn a_refused_file_has_none() {
    let mut answers = Answers::new();
    assert_eq!(readers(b"", &mut answers).err(), Some(Refusal::Header));
    assert_eq!(answers.idents().count(), 0);
}
