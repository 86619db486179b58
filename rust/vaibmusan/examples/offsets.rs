//! The road sensor's script samples/offsets.star as a tree: which `offset` does each reader take?
//!
//!     cargo run --offline --example offsets
use std::error::Error;
use vaibmusan::{resolve, Answers, Expr, Resolved, Script, Slot, Stmt, Target};

/// offset = 0, and the three functions
#[must_use]
pub fn script() -> Script {
    let root = Stmt::block([Stmt::assign("offset", Expr::Other(vec![])), own(), corrected(), in_order()]);
    Script::new(root).with_globals(["sorted"])
}

/// [(time, car) for stamp, car in log]; the names in `time` stand in the Other that also holds car.
fn events(time: [&str; 2]) -> Expr {
    Expr::compr(Expr::other([time[0], time[1], "car"]), Target::tuple(["stamp", "car"]), "log")
}

/// def own(log): return [(stamp + offset, car) for stamp, car in log]
fn own() -> Stmt {
    Stmt::def("own", ["log"], Stmt::plain(events(["stamp", "offset"])))
}

/// def corrected(logs, clock): ..
fn corrected() -> Stmt {
    let in_loop = Stmt::block([
        // offset = clock(neighbour)
        Stmt::assign("offset", Expr::other(["clock", "neighbour"])),
        // correct = lambda stamp: stamp + offset
        Stmt::assign("correct", Expr::lambda(["stamp"], Expr::other(["stamp", "offset"]))),
        // events += [(correct(stamp), car) for stamp, car in log]
        Stmt::Modify("events".into(), events(["correct", "stamp"])),
    ]);
    let body =
        Stmt::block([Stmt::assign("events", Expr::Other(vec![])), Stmt::for_in(Target::tuple(["neighbour", "log"]), "logs", in_loop), Stmt::plain("events")]);
    Stmt::def("corrected", ["logs", "clock"], body)
}

/// def in_order(log, logs, clock): return sorted(own(log) + corrected(logs, clock))
fn in_order() -> Stmt {
    let sorted = Expr::other(["sorted", "own", "log", "corrected", "logs", "clock"]);
    Stmt::def("in_order", ["log", "logs", "clock"], Stmt::plain(sorted))
}

fn main() -> Result<(), Box<dyn Error>> {
    let file = script().to_bytes()?;
    let mut answers = Answers::new();
    resolve(&file, &mut answers)?;
    print!("{}", answers.listing());
    for ident in answers.idents().filter(|i| i.name == "offset") {
        match (ident.resolved, answers.home(&ident)) {
            (Resolved::Slot(Slot::Module(slot), _), _) => println!("node {}: offset is the module's, slot {}", ident.node, slot.0),
            (Resolved::Slot(Slot::Local(slot), id), Some(home)) => {
                let source = answers.binding(id).and_then(|b| b.source).ok_or("it is declared in the script")?;
                let (from, scope) = (home.slot.0, home.scope.0);
                println!("node {}: offset is slot {} here, filled from slot {from} of scope {scope}: the variable of Name node {source}", ident.node, slot.0);
            }
            _ => return Err("an offset that is no variable".into()),
        }
    }
    Ok(())
}
