//! Visitors: each hands the children of one node to a function, in table order.

use crate::syntax::ast::*;

pub enum VisitMut<'a, P: AstPayload> {
    Stmt(&'a mut AstStmtP<P>),
    Expr(&'a mut AstExprP<P>),
}

impl<P: AstPayload> StmtP<P> {
    /// The statements and expressions of a statement; those of its targets and types too.
    pub fn visit_children_mut<'a>(&'a mut self, mut f: impl FnMut(VisitMut<'a, P>)) {
        match self {
            StmtP::Pass | StmtP::Load(_) => {}
            StmtP::Expression(expr) => f(VisitMut::Expr(expr)),
            StmtP::Assign(AssignP { lhs, ty, rhs }) => {
                lhs.visit_expr_mut(|expr| f(VisitMut::Expr(expr)));
                ty.iter_mut()
                    .for_each(|ty| f(VisitMut::Expr(&mut ty.node.expr)));
                f(VisitMut::Expr(rhs));
            }
            StmtP::AssignModify(lhs, _, rhs) => {
                lhs.visit_expr_mut(|expr| f(VisitMut::Expr(expr)));
                f(VisitMut::Expr(rhs));
            }
            StmtP::Statements(stmts) => stmts.iter_mut().for_each(|stmt| f(VisitMut::Stmt(stmt))),
            StmtP::If(condition, then) => {
                f(VisitMut::Expr(condition));
                f(VisitMut::Stmt(then));
            }
            StmtP::IfElse(condition, branches) => {
                let (then, otherwise) = &mut **branches;
                f(VisitMut::Expr(condition));
                f(VisitMut::Stmt(then));
                f(VisitMut::Stmt(otherwise));
            }
            StmtP::For(ForP { var, over, body }) => {
                var.visit_expr_mut(|expr| f(VisitMut::Expr(expr)));
                f(VisitMut::Expr(over));
                f(VisitMut::Stmt(body));
            }
            StmtP::Def(DefP {
                params,
                return_type,
                body,
                ..
            }) => {
                for param in params {
                    param.visit_expr_mut(|expr| f(VisitMut::Expr(expr)));
                }
                return_type
                    .iter_mut()
                    .for_each(|ty| f(VisitMut::Expr(&mut ty.node.expr)));
                f(VisitMut::Stmt(body));
            }
        }
    }

    /// Of the children, the statements.
    pub fn visit_stmt_mut<'a>(&'a mut self, mut f: impl FnMut(&'a mut AstStmtP<P>)) {
        self.visit_children_mut(|child| match child {
            VisitMut::Stmt(stmt) => f(stmt),
            VisitMut::Expr(_) => {}
        });
    }
}

impl<P: AstPayload> ExprP<P> {
    /// The expressions of an expression; those of its parameters, clauses and their targets too.
    pub fn visit_expr_mut<'a>(&'a mut self, mut f: impl FnMut(&'a mut AstExprP<P>)) {
        match self {
            ExprP::Tuple(exprs) => exprs.iter_mut().for_each(f),
            ExprP::Identifier(_) => {}
            ExprP::Lambda(LambdaP { params, body, .. }) => {
                params
                    .iter_mut()
                    .for_each(|param| param.node.visit_expr_mut(&mut f));
                f(body);
            }
            ExprP::ListComprehension(element, first, clauses) => {
                first.visit_expr_mut(&mut f);
                clauses
                    .iter_mut()
                    .for_each(|clause| clause.visit_expr_mut(&mut f));
                f(element);
            }
            ExprP::DictComprehension(elements, first, clauses) => {
                let (key, value) = &mut **elements;
                first.visit_expr_mut(&mut f);
                clauses
                    .iter_mut()
                    .for_each(|clause| clause.visit_expr_mut(&mut f));
                f(key);
                f(value);
            }
        }
    }
}

impl<P: AstPayload> ForClauseP<P> {
    fn visit_expr_mut<'a>(&'a mut self, f: &mut impl FnMut(&'a mut AstExprP<P>)) {
        self.var.visit_expr_mut(&mut *f);
        f(&mut self.over);
    }
}

impl<P: AstPayload> ClauseP<P> {
    fn visit_expr_mut<'a>(&'a mut self, f: &mut impl FnMut(&'a mut AstExprP<P>)) {
        match self {
            ClauseP::For(clause) => clause.visit_expr_mut(f),
            ClauseP::If(condition) => f(condition),
        }
    }
}

impl<P: AstPayload> ParameterP<P> {
    fn visit_expr_mut<'a>(&'a mut self, mut f: impl FnMut(&'a mut AstExprP<P>)) {
        let (_, ty, default) = self.split_mut();
        ty.into_iter().for_each(|ty| f(&mut ty.node.expr));
        default.into_iter().for_each(f);
    }
}

impl<P: AstPayload> AssignTargetP<P> {
    /// The expressions in a target: of `a[i]` and `a.b`.
    pub fn visit_expr_mut<'a>(&'a mut self, mut f: impl FnMut(&'a mut AstExprP<P>)) {
        fn visit<'a, P: AstPayload>(
            target: &'a mut AssignTargetP<P>,
            f: &mut impl FnMut(&'a mut AstExprP<P>),
        ) {
            match target {
                AssignTargetP::Tuple(targets) => {
                    targets.iter_mut().for_each(|x| visit(&mut x.node, f))
                }
                AssignTargetP::Index(array_index) => {
                    let (array, index) = &mut **array_index;
                    f(array);
                    f(index);
                }
                AssignTargetP::Dot(object) => f(object),
                AssignTargetP::Identifier(_) => {}
            }
        }
        visit(self, &mut f);
    }

    /// The names that a target binds.
    pub fn visit_lvalue_mut<'a>(&'a mut self, mut f: impl FnMut(&'a mut AstAssignIdentP<P>)) {
        fn visit<'a, P: AstPayload>(
            target: &'a mut AssignTargetP<P>,
            f: &mut impl FnMut(&'a mut AstAssignIdentP<P>),
        ) {
            match target {
                AssignTargetP::Tuple(targets) => {
                    targets.iter_mut().for_each(|x| visit(&mut x.node, f))
                }
                AssignTargetP::Index(_) | AssignTargetP::Dot(_) => {}
                AssignTargetP::Identifier(ident) => f(ident),
            }
        }
        visit(self, &mut f);
    }
}
