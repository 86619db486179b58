//! Node files written from trees.
use crate::{files, offsets};
use vaibmusan::*;

#[test]
fn the_sample_as_a_tree_is_listed_as_the_sample_is() {
    let file = offsets::script().to_bytes().expect("it is small");
    assert_eq!(listing(&file).to_string(), listing(&files::sample()).to_string());
}

/// Every kind of node at least once.
#[test]
fn all_kinds_are_accepted() {
    let one = || Expr::from("x");
    let params = vec![Param::Named("p".into(), Some(one()), Some(one())), Param::Bare, Param::from("q")];
    let clauses = vec![Clause::For("z".into(), one()), Clause::If(one())];
    let root = Stmt::Block(vec![
        Stmt::Plain(None),
        Stmt::Assign(Target::Place(Box::new(one()), Some(Box::new(one()))), Some(one()), one()),
        Stmt::Modify(Target::Place(Box::new(one()), None), one()),
        Stmt::If(one(), Box::new(Stmt::plain("x")), Some(Box::new(Stmt::Plain(None)))),
        Stmt::If(one(), Box::new(Stmt::plain("x")), None),
        Stmt::for_in(Target::tuple(["x", "y"]), "x", Stmt::Plain(None)),
        Stmt::Def("f".into(), params.clone(), Some(one()), Box::new(Stmt::plain(Expr::Lambda(params, Box::new(one()))))),
        Stmt::Load(vec!["l".into(), "m".into()]),
        Stmt::plain(Expr::Compr("y".into(), Box::new(one()), clauses, Box::new(one()), Some(Box::new(one())))),
    ]);
    let entries = vec![Entry { name: b"x".to_vec(), public: false, slot: 7 }];
    let script = Script { reexport: true, entries, ..Script::new(root).with_globals(["g", "x"]) };
    let file = script.to_bytes().expect("it is small");
    assert_eq!(judge(&file), Ok(()));
    let mut answers = Answers::new();
    resolve(&file, &mut answers).expect("it is accepted");
    let x = answers.module().next().expect("an entry");
    assert!(x.name == "x" && x.slot == ModuleSlotId(7) && x.visibility == Visibility::Public);
}

#[test]
fn a_source_offset_comes_back() {
    let file = Script::new(Stmt::plain(Id::from("x").at(70_000))).with_globals(["x"]).to_bytes().expect("it is small");
    let mut answers = Answers::new();
    resolve(&file, &mut answers).expect("it is accepted");
    let ident = answers.idents().next().expect("an Ident");
    assert_eq!((ident.source_offset, ident.resolved), (70_000, Resolved::Global(0)));
}

/// An Other inside an Other is no node: what it holds stands in its place, as in what tools/star2nodes writes.
#[test]
fn nested_others_are_merged() {
    let leaf = || Expr::Other(Vec::new());
    let nested = Expr::other([leaf(), Expr::other(["a".into(), Expr::other(["b", "c"]), leaf()]), "d".into(), Expr::other([Expr::lambda(["p"], leaf())])]);
    let flat = Expr::other(["a".into(), "b".into(), "c".into(), "d".into(), Expr::lambda(["p"], leaf())]);
    let written = |e: Expr| Script::new(Stmt::plain(e)).to_bytes().expect("it is small");
    assert_eq!(written(nested), written(flat));
}
