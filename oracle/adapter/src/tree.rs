//! The original's syntax tree, built from the nodes of a file. Each node becomes the
//! original's node of that kind, its span the node's number.

use starlark_syntax::codemap::Span;
use starlark_syntax::codemap::Spanned;
use starlark_syntax::syntax::ast::*;

use crate::nodefile::Kind;
use crate::nodefile::NodeFile;

/// Deeper trees are refused by judging; here the bound protects the stack.
const MAX_DEPTH: usize = 64;

/// The tree of a file, if its nodes are children as the table allows.
pub fn stmt(file: &NodeFile) -> Option<AstStmt> {
    let mut top = Children {
        file,
        next: 0,
        end: file.nodes.len(),
        depth: 0,
    };
    let root = top.stmt()?;
    top.finish(root)
}

/// Those children of a node that are not taken yet.
struct Children<'a> {
    file: &'a NodeFile,
    next: usize,
    end: usize,
    /// Depth of the node that has them.
    depth: usize,
}

/// A child just taken.
struct Taken<'a> {
    kind: Kind,
    value: usize,
    span: Span,
    kids: Children<'a>,
}

impl<'a> Children<'a> {
    /// The kind of the next child.
    fn peek(&self) -> Option<Kind> {
        (self.next < self.end).then(|| self.file.nodes[self.next].kind)
    }

    fn take(&mut self) -> Option<Taken<'a>> {
        let kind = self.peek()?;
        let number = self.next;
        let node = &self.file.nodes[number];
        self.next += node.size;
        if node.size == 0 || self.next > self.end || self.depth == MAX_DEPTH {
            return None;
        }
        let kids = Children {
            file: self.file,
            next: number + 1,
            end: self.next,
            depth: self.depth + 1,
        };
        Some(Taken {
            kind,
            value: node.value,
            span: Span(number),
            kids,
        })
    }

    fn take_kind(&mut self, kind: Kind) -> Option<Taken<'a>> {
        self.take().filter(|taken| taken.kind == kind)
    }

    /// What was built, if no child is left over.
    fn finish<T>(&self, built: T) -> Option<T> {
        (self.next == self.end).then_some(built)
    }

    /// Build from each child that is left, while `more` holds for its kind.
    fn each<T>(
        &mut self,
        more: impl Fn(Kind) -> bool,
        build: impl Fn(&mut Self) -> Option<T>,
    ) -> Option<Vec<T>> {
        let mut built = Vec::new();
        while self.peek().is_some_and(&more) {
            built.push(build(self)?);
        }
        Some(built)
    }

    fn stmt(&mut self) -> Option<AstStmt> {
        let Taken {
            kind,
            span,
            mut kids,
            ..
        } = self.take()?;
        let node = match kind {
            Kind::Block => StmtP::Statements(kids.each(|_| true, Children::stmt)?),
            Kind::Plain => match kids.optional_expr()? {
                Some(expr) => StmtP::Expression(expr),
                None => StmtP::Pass,
            },
            Kind::Assign => StmtP::Assign(AssignP {
                lhs: kids.target()?,
                ty: kids.optional_type()?,
                rhs: kids.expr()?,
            }),
            Kind::Modify => {
                StmtP::AssignModify(kids.target()?, AssignOp::Add, Box::new(kids.expr()?))
            }
            Kind::If => {
                let condition = kids.expr()?;
                let then = kids.stmt()?;
                match kids.peek() {
                    Some(_) => StmtP::IfElse(condition, Box::new((then, kids.stmt()?))),
                    None => StmtP::If(condition, Box::new(then)),
                }
            }
            Kind::For => StmtP::For(ForP {
                var: kids.target()?,
                over: kids.expr()?,
                body: Box::new(kids.stmt()?),
            }),
            Kind::Def => StmtP::Def(DefP {
                name: kids.name()?,
                params: kids.params()?,
                return_type: kids.optional_type()?.map(Box::new),
                body: Box::new(kids.stmt()?),
                payload: (),
            }),
            Kind::Load => {
                let arg = |kids: &mut Self| {
                    Some(LoadArgP {
                        local: kids.name()?,
                    })
                };
                let args = kids.each(|_| true, arg)?;
                StmtP::Load(LoadP {
                    module: String::new(),
                    args,
                    payload: (),
                })
            }
            _ => return None,
        };
        kids.finish(Spanned { node, span })
    }

    fn target(&mut self) -> Option<AstAssignTarget> {
        if self.peek() == Some(Kind::Name) {
            let name = self.name()?;
            return Some(Spanned {
                span: name.span,
                node: AssignTargetP::Identifier(name),
            });
        }
        let Taken {
            kind,
            span,
            mut kids,
            ..
        } = self.take()?;
        let node = match kind {
            Kind::Tuple => AssignTargetP::Tuple(kids.each(|_| true, Children::target)?),
            Kind::Place => {
                let first = kids.expr()?;
                match kids.optional_expr()? {
                    Some(index) => AssignTargetP::Index(Box::new((first, index))),
                    None => AssignTargetP::Dot(Box::new(first)),
                }
            }
            _ => return None,
        };
        kids.finish(Spanned { node, span })
    }

    fn name(&mut self) -> Option<AstAssignIdent> {
        let Taken {
            value, span, kids, ..
        } = self.take_kind(Kind::Name)?;
        let ident = self.file.names.get(value)?.clone();
        kids.finish(Spanned {
            node: AssignIdentP { ident, payload: () },
            span,
        })
    }

    fn expr(&mut self) -> Option<AstExpr> {
        let Taken {
            kind,
            value,
            span,
            mut kids,
        } = self.take()?;
        let node = match kind {
            Kind::Ident => {
                let ident = self.file.names.get(value)?.clone();
                ExprP::Identifier(Spanned {
                    node: IdentP { ident, payload: () },
                    span,
                })
            }
            Kind::Lambda => ExprP::Lambda(LambdaP {
                params: kids.params()?,
                body: Box::new(kids.expr()?),
                payload: (),
            }),
            Kind::Compr => {
                let first = Box::new(kids.for_clause()?);
                let is_clause = |kind| matches!(kind, Kind::ForClause | Kind::IfClause);
                let clauses = kids.each(is_clause, Children::clause)?;
                let element = kids.expr()?;
                match kids.optional_expr()? {
                    Some(value) => {
                        ExprP::DictComprehension(Box::new((element, value)), first, clauses)
                    }
                    None => ExprP::ListComprehension(Box::new(element), first, clauses),
                }
            }
            Kind::Other => ExprP::Tuple(kids.each(|_| true, Children::expr)?),
            _ => return None,
        };
        kids.finish(Spanned { node, span })
    }

    /// The last child, an expression, if there is one. The outer `None` refuses the tree.
    fn optional_expr(&mut self) -> Option<Option<AstExpr>> {
        match self.peek() {
            Some(_) => self.expr().map(Some),
            None => Some(None),
        }
    }

    fn optional_type(&mut self) -> Option<Option<AstTypeExpr>> {
        if self.peek() != Some(Kind::Type) {
            return Some(None);
        }
        let Taken { span, mut kids, .. } = self.take()?;
        let node = TypeExprP {
            expr: kids.expr()?,
            payload: (),
        };
        kids.finish(Some(Spanned { node, span }))
    }

    fn clause(&mut self) -> Option<ClauseP<AstNoPayload>> {
        if self.peek() == Some(Kind::ForClause) {
            return self.for_clause().map(ClauseP::For);
        }
        let Taken { mut kids, .. } = self.take_kind(Kind::IfClause)?;
        let condition = kids.expr()?;
        kids.finish(ClauseP::If(condition))
    }

    fn for_clause(&mut self) -> Option<ForClauseP<AstNoPayload>> {
        let Taken { mut kids, .. } = self.take_kind(Kind::ForClause)?;
        let clause = ForClauseP {
            var: kids.target()?,
            over: kids.expr()?,
        };
        kids.finish(clause)
    }

    fn params(&mut self) -> Option<Vec<AstParameter>> {
        self.each(|kind| kind == Kind::Param, Children::param)
    }

    fn param(&mut self) -> Option<AstParameter> {
        let Taken { span, mut kids, .. } = self.take_kind(Kind::Param)?;
        let node = match kids.peek() {
            Some(_) => ParameterP::Normal(
                kids.name()?,
                kids.optional_type()?.map(Box::new),
                kids.optional_expr()?.map(Box::new),
            ),
            None => ParameterP::NoArgs,
        };
        kids.finish(Spanned { node, span })
    }
}
