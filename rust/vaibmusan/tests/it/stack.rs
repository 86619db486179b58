//! The stack that a call needs.
use crate::files;
use std::panic::{catch_unwind, AssertUnwindSafe};
use std::thread::Builder;
use vaibmusan::*;

/// Deep and wide files, those at the limits included.
fn all_files() -> Vec<Vec<u8>> {
    files::listed().into_iter().map(|(file, _)| file).chain(files::judged().into_iter().map(|(_, file)| file)).collect()
}

#[test]
fn every_call_fits() {
    let (files, mut answers) = (all_files(), Answers::new());
    let calls = move || {
        for file in &files {
            let (judged, resolved) = (judge(file), resolve(file, &mut answers));
            assert!(judged.is_ok() || judged.err() == resolved.err());
            let first = format!("answer {}", resolved.map_or_else(Refusal::number, |_| 0));
            assert!(listing(file).to_bytes().starts_with(first.as_bytes()));
            assert_eq!(spelling(file, 1024), b"");
        }
    };
    Builder::new().stack_size(STACK).spawn(calls).expect("a thread").join().expect("no call fails");
}

#[test]
fn a_thread_with_little_stack_can_call() {
    let files = all_files();
    let longest = files.iter().max_by_key(|file| listing(file).to_bytes().len()).expect("a file").clone();
    let expected = listing(&longest).to_bytes();
    let call = move || with_stack(|| listing(&longest).to_bytes()).expect("a thread");
    let listed = Builder::new().stack_size(64 << 10).spawn(call).expect("a thread").join();
    assert_eq!(listed.expect("no call fails"), expected);
}

#[test]
fn a_panic_is_handed_on() {
    let caught = catch_unwind(AssertUnwindSafe(|| with_stack(|| panic!("as it is said"))));
    assert_eq!(caught.expect_err("a panic").downcast_ref::<&str>(), Some(&"as it is said"));
}
