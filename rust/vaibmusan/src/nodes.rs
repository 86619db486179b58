//! From a tree to the list of its nodes, parent first. What is too much is refused where it is met: no call goes deeper than an accepted
//! tree does. An Other never holds an Other: what that one holds stands in its place.
use crate::kinds::*;
use crate::limits::{self, TooLarge};
use crate::pool::Pool;
use crate::tree::{Clause, Expr, Id, Param, Stmt, Target};

/// A node of the list, as the file has it.
pub struct Node {
    pub kind: u8,
    pub size: usize,
    pub value: usize,
    pub source: u32,
}

/// The nodes so far and their names; how many functions there were, and how many nodes are around the next.
#[derive(Default)]
pub struct Writer {
    pub nodes: Vec<Node>,
    pub pool: Pool,
    functions: usize,
    depth: usize,
}

type Written = Result<(), TooLarge>;

impl Writer {
    /// A node with what `below` puts under it.
    fn node(&mut self, node: Node, below: impl FnOnce(&mut Self) -> Written) -> Written {
        let at = self.nodes.len();
        TooLarge::check("depth", self.depth + 1, limits::DEPTH)?;
        TooLarge::check("nodes", at + 1, limits::NODES)?;
        TooLarge::check("source offset", node.source as usize, limits::SOURCE)?;
        self.nodes.push(node);
        self.depth += 1;
        below(self)?;
        self.depth -= 1;
        self.nodes[at].size = self.nodes.len() - at;
        Ok(())
    }

    /// A node without a value.
    fn plain(&mut self, kind: u8, below: impl FnOnce(&mut Self) -> Written) -> Written {
        self.node(Node { kind, size: 1, value: 0, source: 0 }, below)
    }

    /// A Name or an Ident.
    fn named(&mut self, kind: u8, id: &Id) -> Written {
        let value = self.pool.number(&id.bytes)?;
        self.node(Node { kind, size: 1, value, source: id.source_offset }, |_| Ok(()))
    }

    /// A Def or a Lambda, with the next scope number.
    fn function(&mut self, kind: u8, below: impl FnOnce(&mut Self) -> Written) -> Written {
        self.functions += 1;
        TooLarge::check("functions", self.functions, limits::FUNCTIONS)?;
        self.node(Node { kind, size: 1, value: self.functions, source: 0 }, below)
    }

    pub fn stmt(&mut self, s: &Stmt) -> Written {
        match s {
            Stmt::Block(all) => self.plain(BLOCK, |w| all.iter().try_for_each(|s| w.stmt(s))),
            Stmt::Plain(e) => self.plain(PLAIN, |w| w.exprs(e)),
            Stmt::Assign(t, ty, e) => self.plain(ASSIGN, |w| {
                w.target(t)?;
                w.ty(ty)?;
                w.expr(e)
            }),
            Stmt::Modify(t, e) => self.plain(MODIFY, |w| w.target_and_expr(t, e)),
            Stmt::If(e, yes, no) => self.plain(IF, |w| {
                w.expr(e)?;
                w.stmt(yes)?;
                no.iter().try_for_each(|s| w.stmt(s))
            }),
            Stmt::For(t, e, body) => self.plain(FOR, |w| {
                w.target_and_expr(t, e)?;
                w.stmt(body)
            }),
            Stmt::Def(name, params, ty, body) => self.function(DEF, |w| {
                w.named(NAME, name)?;
                params.iter().try_for_each(|p| w.param(p))?;
                w.ty(ty)?;
                w.stmt(body)
            }),
            Stmt::Load(names) => self.plain(LOAD, |w| names.iter().try_for_each(|n| w.named(NAME, n))),
        }
    }

    fn target(&mut self, t: &Target) -> Written {
        match t {
            Target::Name(name) => self.named(NAME, name),
            Target::Tuple(all) => self.plain(TUPLE, |w| all.iter().try_for_each(|t| w.target(t))),
            Target::Place(e, index) => self.plain(PLACE, |w| {
                w.expr(e)?;
                w.exprs(index.as_deref())
            }),
        }
    }

    fn target_and_expr(&mut self, t: &Target, e: &Expr) -> Written {
        self.target(t)?;
        self.expr(e)
    }

    fn expr(&mut self, e: &Expr) -> Written {
        match e {
            Expr::Ident(name) => self.named(IDENT, name),
            Expr::Lambda(params, body) => self.function(LAMBDA, |w| {
                params.iter().try_for_each(|p| w.param(p))?;
                w.expr(body)
            }),
            Expr::Compr(t, e, clauses, one, two) => self.plain(COMPR, |w| {
                w.plain(FOR_CLAUSE, |w| w.target_and_expr(t, e))?;
                clauses.iter().try_for_each(|c| w.clause(c))?;
                w.expr(one)?;
                w.exprs(two.as_deref())
            }),
            Expr::Other(all) => self.plain(OTHER, |w| w.operands(all)),
        }
    }

    fn exprs<'a>(&mut self, all: impl IntoIterator<Item = &'a Expr>) -> Written {
        all.into_iter().try_for_each(|e| self.expr(e))
    }

    /// What an Other holds. Others inside it are no nodes, so no limit ends them: they wait on a list, not on the stack.
    fn operands(&mut self, all: &[Expr]) -> Written {
        let mut open = vec![all.iter()];
        while let Some(innermost) = open.last_mut() {
            match innermost.next() {
                Some(Expr::Other(inner)) => open.push(inner.iter()),
                Some(e) => self.expr(e)?,
                None => drop(open.pop()),
            }
        }
        Ok(())
    }

    fn clause(&mut self, c: &Clause) -> Written {
        match c {
            Clause::For(t, e) => self.plain(FOR_CLAUSE, |w| w.target_and_expr(t, e)),
            Clause::If(e) => self.plain(IF_CLAUSE, |w| w.expr(e)),
        }
    }

    fn param(&mut self, p: &Param) -> Written {
        self.plain(PARAM, |w| match p {
            Param::Bare => Ok(()),
            Param::Named(name, ty, default) => {
                w.named(NAME, name)?;
                w.ty(ty)?;
                w.exprs(default)
            }
        })
    }

    fn ty(&mut self, ty: &Option<Expr>) -> Written {
        ty.iter().try_for_each(|e| self.plain(TYPE, |w| w.expr(e)))
    }
}
