//! Document 01's listing to the letter, its ten examples, and the edge of 12.

mod build;

use build::*;
use starlark::FrozenHeap;

fn file(root: Tree) -> File {
    File {
        reexport: false,
        entries: vec![],
        globals: vec![],
        root,
    }
}

fn full_listing(file: File) -> String {
    oracle::answer(&FrozenHeap::new(), &pack(&file), true)
}

/// A file's listing must be these lines.
fn check(file: File, lines: &[&str]) {
    let listing = oracle::answer(&FrozenHeap::new(), &pack(&file), false);
    assert_eq!(listing.lines().collect::<Vec<_>>(), lines);
}

/// `def f(a): return lambda b: a + b + _k`, its scopes numbered as given.
fn listed(f: u128, lambda_b: u128) -> File {
    let sum = other([ident("a"), ident("b"), ident("_k")]);
    file(def(
        f,
        [
            name("f"),
            param([name("a")]),
            plain([lambda(lambda_b, [param([name("b")]), sum])]),
        ],
    ))
}

#[test]
fn example_1_the_listing() {
    let listing = oracle::answer(&FrozenHeap::new(), &pack(&listed(1, 2)), false);
    assert_eq!(
        listing,
        "\
answer 0 bindings 3 module 1 slots 3 copies 1 errors 1
B 0 f M 0 public once free 1
B 1 a L 0 public once captured 3
B 2 b L 0 public once free 7
M 0 f public
S 0 0:
S 1 1: a
S 2 1: b a
C 2 0 1
I 9 L 1 1
I 10 L 0 2
E 11 1 _k
"
    );
}

#[test]
fn full_adds_names_and_slots() {
    let full = full_listing(listed(1, 2));
    let (_, added) = full.split_once("E 11 1 _k\n").unwrap();
    assert_eq!(
        added,
        "N 1 M 0 0\nN 3 L 0 1\nN 7 L 0 2\nT 1 a\nT 2 b\nT 2 a\n"
    );
}

#[test]
fn scopes_have_the_numbers_of_the_file() {
    let full = full_listing(listed(2, 1));
    for line in [
        "S 1 1: b a",
        "S 2 1: a",
        "C 1 0 1",
        "T 2 a",
        "T 1 b",
        "T 1 a",
    ] {
        assert!(full.lines().any(|l| l == line), "{line}");
    }
}

#[test]
fn example_2_a_loop_variable_is_any() {
    check(
        file(for_([name("x"), other([]), plain([])])),
        &[
            "answer 0 bindings 1 module 1 slots 0 copies 0 errors 0",
            "B 0 x M 0 public any free 1",
            "M 0 x public",
            "S 0 0:",
        ],
    );
}

#[test]
fn example_3_an_entry_is_promoted() {
    let root = assign([name("x"), other([])]);
    check(
        File {
            entries: vec![("x", false, 0)],
            ..file(root)
        },
        &[
            "answer 0 bindings 1 module 1 slots 0 copies 0 errors 0",
            "B 0 x M 0 public any free -",
            "M 0 x public",
            "S 0 0:",
        ],
    );
}

#[test]
fn example_4_a_load_is_private_until_assigned() {
    check(
        file(load([name("x")])),
        &[
            "answer 0 bindings 1 module 1 slots 0 copies 0 errors 0",
            "B 0 x M 0 private once free 1",
            "M 0 x private",
            "S 0 0:",
        ],
    );
    check(
        file(block([load([name("x")]), assign([name("x"), other([])])])),
        &[
            "answer 0 bindings 1 module 1 slots 0 copies 0 errors 0",
            "B 0 x M 0 public any free 2",
            "M 0 x public",
            "S 0 0:",
        ],
    );
}

#[test]
fn a_load_with_reexport_is_public() {
    check(
        File {
            reexport: true,
            ..file(load([name("x"), name("_y")]))
        },
        &[
            "answer 0 bindings 2 module 2 slots 0 copies 0 errors 0",
            "B 0 x M 0 public once free 1",
            "B 1 _y M 1 private once free 2",
            "M 0 x public",
            "M 1 _y private",
            "S 0 0:",
        ],
    );
}

#[test]
fn example_5_parameters_are_public() {
    check(
        file(def(
            1,
            [
                name("f"),
                param([name("_p")]),
                assign([name("_q"), other([])]),
            ],
        )),
        &[
            "answer 0 bindings 3 module 1 slots 2 copies 0 errors 0",
            "B 0 f M 0 public once free 1",
            "B 1 _p L 0 public once free 3",
            "B 2 _q L 1 private once free 5",
            "M 0 f public",
            "S 0 0:",
            "S 1 1: _p _q",
        ],
    );
}

#[test]
fn example_6_the_first_in_is_outside() {
    let root = plain([compr([for_clause([name("x"), ident("x")]), ident("x")])]);
    check(
        File {
            globals: vec!["x"],
            ..file(root)
        },
        &[
            "answer 0 bindings 1 module 0 slots 1 copies 0 errors 0",
            "B 0 x L 0 public any free 3",
            "S 0 0: x",
            "I 4 G 0 -",
            "I 5 L 0 0",
        ],
    );
}

#[test]
fn example_7_the_second_in_is_inside() {
    let first = for_clause([name("y"), other([])]);
    let second = for_clause([name("x"), ident("x")]);
    check(
        file(plain([compr([first, second, ident("x")])])),
        &[
            "answer 0 bindings 2 module 0 slots 2 copies 0 errors 0",
            "B 0 y L 0 public any free 3",
            "B 1 x L 1 public any free 6",
            "S 0 0: y x",
            "I 7 L 1 1",
            "I 8 L 1 1",
        ],
    );
}

#[test]
fn example_8_a_local_in_a_type() {
    let g = def(
        2,
        [name("g"), assign([name("v"), type_(ident("t")), other([])])],
    );
    check(
        file(def(1, [name("f"), param([name("t")]), g])),
        &[
            "answer 0 bindings 4 module 1 slots 4 copies 1 errors 1",
            "B 0 f M 0 public once free 1",
            "B 1 t L 0 public once captured 3",
            "B 2 g L 1 public once free 5",
            "B 3 v L 0 public once free 7",
            "M 0 f public",
            "S 0 0:",
            "S 1 1: t g",
            "S 2 0: v t",
            "C 2 0 1",
            "E 9 2 t",
        ],
    );
}

#[test]
fn example_9_defaults_are_outside() {
    let (a, b) = (param([name("a")]), param([name("b"), ident("a")]));
    check(
        file(def(1, [name("f"), a, b, plain([])])),
        &[
            "answer 0 bindings 3 module 1 slots 2 copies 0 errors 1",
            "B 0 f M 0 public once free 1",
            "B 1 a L 0 public once free 3",
            "B 2 b L 1 public once free 5",
            "M 0 f public",
            "S 0 0:",
            "S 1 2: a b",
            "E 6 1 a",
        ],
    );
}

#[test]
fn example_10_copies_go_outermost_first() {
    let h = def(3, [name("h"), plain([ident("a")])]);
    let g = def(2, [name("g"), h]);
    check(
        file(def(1, [name("f"), param([name("a")]), g])),
        &[
            "answer 0 bindings 4 module 1 slots 5 copies 2 errors 0",
            "B 0 f M 0 public once free 1",
            "B 1 a L 0 public once captured 3",
            "B 2 g L 1 public once free 5",
            "B 3 h L 0 public once free 7",
            "M 0 f public",
            "S 0 0:",
            "S 1 1: a g",
            "S 2 0: h a",
            "S 3 0: a",
            "C 2 0 1",
            "C 3 1 0",
            "I 9 L 0 1",
        ],
    );
}

#[test]
fn entries_keep_their_slots() {
    let root = assign([name("z"), other([])]);
    check(
        File {
            entries: vec![("x", true, 7), ("y", false, 7)],
            ..file(root)
        },
        &[
            "answer 0 bindings 3 module 3 slots 0 copies 0 errors 0",
            "B 0 x M 7 public once free -",
            "B 1 y M 7 private once free -",
            "B 2 z M 2 public once free 1",
            "M 7 x public",
            "M 7 y private",
            "M 2 z public",
            "S 0 0:",
        ],
    );
}

/// A Def with 128 parameters, lambdas one in the other that copy them all, and `more` parameters
/// of the innermost.
fn many_slots(lambdas: u128, more: usize) -> File {
    let spellings = |prefix: &'static str, count: usize| -> Vec<&'static str> {
        (0..count)
            .map(|i| &*format!("{prefix}{i}").leak())
            .collect()
    };
    let copied = spellings("a", 128);
    let params =
        |names: &[&'static str]| names.iter().map(|&n| param([name(n)])).collect::<Vec<_>>();
    let mut expr = other(copied.iter().map(|&n| ident(n)).collect::<Vec<_>>());
    for scope in (2..lambdas + 2).rev() {
        let mut kids = if scope == lambdas + 1 {
            params(&spellings("b", more))
        } else {
            vec![]
        };
        kids.push(expr);
        expr = lambda(scope, kids);
    }
    let mut kids = vec![name("f")];
    kids.extend(params(&copied));
    kids.push(plain([expr]));
    file(def(1, kids))
}

#[test]
fn slots_up_to_4096() {
    let first_line = |file| full_listing(file).lines().next().unwrap().to_owned();
    assert_eq!(
        first_line(many_slots(31, 0)),
        "answer 0 bindings 129 module 1 slots 4096 copies 3968 errors 0"
    );
    assert_eq!(full_listing(many_slots(31, 1)), "answer 12\n");
}

#[test]
fn a_bad_file_gets_a_question_mark() {
    assert_eq!(
        oracle::answer(&FrozenHeap::new(), b"no node file", false),
        "answer ?\n"
    );
}
