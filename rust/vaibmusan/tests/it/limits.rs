//! What is too much is refused while it is written, trees of any depth are written and dropped, and what just fits is accepted.
use vaibmusan::*;

/// Deep enough to end any stack, if a step down took a step on it.
const VERY_DEEP: usize = 100_000;

fn refused(root: Stmt) -> String {
    Script::new(root).to_bytes().expect_err("it is too large").to_string()
}

fn accepted(root: Stmt) -> bool {
    judge(&Script::new(root).to_bytes().expect("it fits")).is_ok()
}

/// A tree that grows by a step around it.
fn grown<T>(levels: usize, leaf: T, around: impl Fn(T) -> T) -> T {
    (0..levels).fold(leaf, |inner, _| around(inner))
}

#[test]
fn depth() {
    assert!(accepted(grown(63, Stmt::Plain(None), |s| Stmt::Block(vec![s]))));
    assert_eq!(refused(grown(64, Stmt::Plain(None), |s| Stmt::Block(vec![s]))), "depth: more than 64");
}

#[test]
fn deep_statements() {
    let around: [fn(Stmt) -> Stmt; 5] = [
        |s| Stmt::Block(vec![s]),
        |s| Stmt::If("x".into(), Box::new(s), None),
        |s| Stmt::If("x".into(), Box::new(Stmt::Plain(None)), Some(Box::new(s))),
        |s| Stmt::for_in("x", "y", s),
        |s| Stmt::def("f", ["x"], s),
    ];
    for step in around {
        assert_eq!(refused(grown(VERY_DEEP, Stmt::plain("x"), step)), "depth: more than 64");
    }
}

#[test]
fn deep_targets_and_expressions() {
    assert_eq!(refused(Stmt::assign(grown(VERY_DEEP, "x".into(), |t| Target::Tuple(vec![t])), "x")), "depth: more than 64");
    let around: [fn(Expr) -> Expr; 7] = [
        |e| Expr::Lambda(Vec::new(), Box::new(e)),
        |e| Expr::Lambda(vec![Param::Named("p".into(), None, Some(e))], Box::new("x".into())),
        |e| Expr::Lambda(vec![Param::Named("p".into(), Some(e), None)], Box::new("x".into())),
        |e| Expr::compr(e, "x", "y"),
        |e| Expr::compr("x", "x", e),
        |e| Expr::compr("x", Target::Place(Box::new("x".into()), Some(Box::new(e))), "x"),
        |e| Expr::Compr("x".into(), Box::new("x".into()), vec![Clause::If(e)], Box::new("x".into()), None),
    ];
    for step in around {
        assert_eq!(refused(Stmt::plain(grown(VERY_DEEP, "x".into(), step))), "depth: more than 64");
    }
}

/// Others inside Others are no nodes, and so never too deep.
#[test]
fn deep_others() {
    let deep = grown(VERY_DEEP, Expr::other(["x"]), |e| Expr::Other(vec![e]));
    assert_eq!(Script::new(Stmt::plain(deep)).to_bytes(), Script::new(Stmt::plain(Expr::other(["x"]))).to_bytes());
}

#[test]
fn nodes() {
    assert!(accepted(Stmt::Block(vec![Stmt::Plain(None); 2047])));
    assert_eq!(refused(Stmt::Block(vec![Stmt::Plain(None); 2048])), "nodes: more than 2048");
}

#[test]
fn functions() {
    let functions = |count| Stmt::block((0..count).map(|_| Stmt::def("f", ["p"; 0], Stmt::Plain(None))));
    assert!(accepted(functions(255)));
    assert_eq!(refused(functions(256)), "functions: more than 255");
}

#[test]
fn names() {
    assert!(accepted(Stmt::plain("n".repeat(255).as_str())));
    assert_eq!(Script::new(Stmt::plain("n".repeat(256).as_str())).to_bytes(), Err(TooLarge { what: "bytes of a name", most: 255 }));
    let names = |count, width| Stmt::plain(Expr::other((0..count).map(|i| Expr::from(format!("{i:0width$}").as_str()))));
    assert!(accepted(names(1024, 16)));
    assert_eq!(refused(names(1025, 4)), "names: more than 1024");
    assert_eq!(refused(names(1024, 17)), "bytes of names: more than 16384");
}

#[test]
fn lists() {
    let listed: Vec<String> = (0..257).map(|i| i.to_string()).collect();
    let globals = |count| Script::new(Stmt::Plain(None)).with_globals(listed[..count].iter().map(String::as_str));
    assert_eq!(judge(&globals(256).to_bytes().expect("it fits")), Ok(()));
    assert_eq!(globals(257).to_bytes(), Err(TooLarge { what: "globals", most: 256 }));
    let entry = |i: usize, slot| Entry { name: listed[i].clone().into_bytes(), public: true, slot };
    let entries = |count| Script { entries: (0..count).map(|i| entry(i, i as u16)).collect(), ..Script::new(Stmt::Plain(None)) };
    assert_eq!(judge(&entries(256).to_bytes().expect("it fits")), Ok(()));
    assert_eq!(entries(257).to_bytes(), Err(TooLarge { what: "module entries", most: 256 }));
    let slot = |slot| Script { entries: vec![entry(0, slot)], ..Script::new(Stmt::Plain(None)) }.to_bytes();
    assert!(slot(0x7fff).is_ok());
    assert_eq!(slot(0x8000), Err(TooLarge { what: "slot of a module entry", most: 0x7fff }));
}

#[test]
fn source_offsets() {
    let at = |offset| Script::new(Stmt::plain(Id::from("x").at(offset))).to_bytes();
    assert_eq!(judge(&at((1 << 24) - 1).expect("it fits")), Ok(()));
    assert_eq!(at(1 << 24).unwrap_err().to_string(), "source offset: more than 16777215");
}
