//! Trees are dropped without recursion, so that a tree that is too deep to be written can at least be dropped.
use crate::tree::{Clause, Expr, Param, Stmt, Target};
use std::mem::replace;

/// A part that was taken out of a tree, with all below it.
enum Part {
    Stmt(Stmt),
    Target(Target),
    Expr(Expr),
}

/// The parts that are still to be dropped. Leaves stay in their trees, so that dropping one takes no memory.
#[derive(Default)]
struct Parts(Vec<Part>);

impl Parts {
    /// Takes each part apart; what is left of it then holds leaves alone.
    fn dismantle(mut self) {
        while let Some(part) = self.0.pop() {
            match part {
                Part::Stmt(mut s) => self.below_stmt(&mut s),
                Part::Target(mut t) => self.below_target(&mut t),
                Part::Expr(mut e) => self.below_expr(&mut e),
            }
        }
    }

    fn stmt(&mut self, s: &mut Stmt) {
        if !matches!(s, Stmt::Plain(None) | Stmt::Load(_)) {
            self.0.push(Part::Stmt(replace(s, Stmt::Plain(None))));
        }
    }

    fn target(&mut self, t: &mut Target) {
        let leaf = match t {
            Target::Name(_) => true,
            Target::Tuple(all) => all.is_empty(),
            Target::Place(..) => false,
        };
        if !leaf {
            self.0.push(Part::Target(replace(t, Target::Tuple(Vec::new()))));
        }
    }

    fn expr(&mut self, e: &mut Expr) {
        let leaf = match e {
            Expr::Ident(_) => true,
            Expr::Other(all) => all.is_empty(),
            Expr::Lambda(..) | Expr::Compr(..) => false,
        };
        if !leaf {
            self.0.push(Part::Expr(replace(e, Expr::Other(Vec::new()))));
        }
    }

    fn exprs<'a>(&mut self, all: impl IntoIterator<Item = &'a mut Expr>) {
        all.into_iter().for_each(|e| self.expr(e));
    }

    fn params(&mut self, all: &mut [Param]) {
        for p in all {
            if let Param::Named(_, ty, default) = p {
                self.exprs(ty.iter_mut().chain(default));
            }
        }
    }

    fn clauses(&mut self, all: &mut [Clause]) {
        for c in all {
            match c {
                Clause::For(t, e) => {
                    self.target(t);
                    self.expr(e);
                }
                Clause::If(e) => self.expr(e),
            }
        }
    }

    fn below_stmt(&mut self, s: &mut Stmt) {
        match s {
            Stmt::Block(all) => all.iter_mut().for_each(|s| self.stmt(s)),
            Stmt::Plain(e) => self.exprs(e),
            Stmt::Assign(t, ty, e) => {
                self.target(t);
                self.exprs(ty.iter_mut().chain([e]));
            }
            Stmt::Modify(t, e) => {
                self.target(t);
                self.expr(e);
            }
            Stmt::If(e, yes, no) => {
                self.expr(e);
                self.stmt(yes);
                no.iter_mut().for_each(|s| self.stmt(s));
            }
            Stmt::For(t, e, body) => {
                self.target(t);
                self.expr(e);
                self.stmt(body);
            }
            Stmt::Def(_, params, ty, body) => {
                self.params(params);
                self.exprs(ty);
                self.stmt(body);
            }
            Stmt::Load(_) => (),
        }
    }

    fn below_target(&mut self, t: &mut Target) {
        match t {
            Target::Name(_) => (),
            Target::Tuple(all) => all.iter_mut().for_each(|t| self.target(t)),
            Target::Place(e, index) => {
                self.expr(e);
                self.exprs(index.as_deref_mut());
            }
        }
    }

    fn below_expr(&mut self, e: &mut Expr) {
        match e {
            Expr::Ident(_) => (),
            Expr::Lambda(params, body) => {
                self.params(params);
                self.expr(body);
            }
            Expr::Compr(t, e, clauses, one, two) => {
                self.target(t);
                self.clauses(clauses);
                self.exprs([&mut **e, &mut **one].into_iter().chain(two.as_deref_mut()));
            }
            Expr::Other(all) => self.exprs(all),
        }
    }
}

impl Drop for Stmt {
    fn drop(&mut self) {
        let mut parts = Parts::default();
        parts.below_stmt(self);
        parts.dismantle();
    }
}

impl Drop for Target {
    fn drop(&mut self) {
        let mut parts = Parts::default();
        parts.below_target(self);
        parts.dismantle();
    }
}

impl Drop for Expr {
    fn drop(&mut self) {
        let mut parts = Parts::default();
        parts.below_expr(self);
        parts.dismantle();
    }
}
