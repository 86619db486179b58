//! The same tree with other payloads. Payloads are met in node order: this gives the k-th
//! Def or Lambda of a file the k-th scope, and lets the door read answers off in node order.

use crate::codemap::Spanned;
use crate::syntax::ast::*;

pub trait AstPayloadFunction<A: AstPayload, B: AstPayload> {
    fn map_load(&mut self, import_path: &str, a: A::LoadPayload) -> B::LoadPayload;
    fn map_ident(&mut self, a: A::IdentPayload) -> B::IdentPayload;
    fn map_ident_assign(&mut self, a: A::IdentAssignPayload) -> B::IdentAssignPayload;
    fn map_def(&mut self, a: A::DefPayload) -> B::DefPayload;
    fn map_type_expr(&mut self, a: A::TypeExprPayload) -> B::TypeExprPayload;
}

pub trait StmtPExt<A: AstPayload> {
    fn into_map_payload<B: AstPayload>(self, f: &mut impl AstPayloadFunction<A, B>) -> AstStmtP<B>;
}

impl<A: AstPayload> StmtPExt<A> for AstStmtP<A> {
    fn into_map_payload<B: AstPayload>(self, f: &mut impl AstPayloadFunction<A, B>) -> AstStmtP<B> {
        self.mapped(f)
    }
}

/// A tree over payloads `A` that has a counterpart over `B`.
trait MapPayload<A: AstPayload, B: AstPayload> {
    type Mapped;

    fn mapped(self, f: &mut impl AstPayloadFunction<A, B>) -> Self::Mapped;
}

impl<A: AstPayload, B: AstPayload, T: MapPayload<A, B>> MapPayload<A, B> for Spanned<T> {
    type Mapped = Spanned<T::Mapped>;

    fn mapped(self, f: &mut impl AstPayloadFunction<A, B>) -> Self::Mapped {
        Spanned {
            node: self.node.mapped(f),
            span: self.span,
        }
    }
}

impl<A: AstPayload, B: AstPayload, T: MapPayload<A, B>> MapPayload<A, B> for Box<T> {
    type Mapped = Box<T::Mapped>;

    fn mapped(self, f: &mut impl AstPayloadFunction<A, B>) -> Self::Mapped {
        Box::new((*self).mapped(f))
    }
}

impl<A: AstPayload, B: AstPayload, T: MapPayload<A, B>> MapPayload<A, B> for Option<T> {
    type Mapped = Option<T::Mapped>;

    fn mapped(self, f: &mut impl AstPayloadFunction<A, B>) -> Self::Mapped {
        Option::map(self, |x| x.mapped(f))
    }
}

impl<A: AstPayload, B: AstPayload, T: MapPayload<A, B>> MapPayload<A, B> for Vec<T> {
    type Mapped = Vec<T::Mapped>;

    fn mapped(self, f: &mut impl AstPayloadFunction<A, B>) -> Self::Mapped {
        self.into_iter().map(|x| x.mapped(f)).collect()
    }
}

impl<A: AstPayload, B: AstPayload, T: MapPayload<A, B>> MapPayload<A, B> for (T, T) {
    type Mapped = (T::Mapped, T::Mapped);

    fn mapped(self, f: &mut impl AstPayloadFunction<A, B>) -> Self::Mapped {
        (self.0.mapped(f), self.1.mapped(f))
    }
}

impl<A: AstPayload, B: AstPayload> MapPayload<A, B> for StmtP<A> {
    type Mapped = StmtP<B>;

    fn mapped(self, f: &mut impl AstPayloadFunction<A, B>) -> StmtP<B> {
        match self {
            StmtP::Pass => StmtP::Pass,
            StmtP::Expression(expr) => StmtP::Expression(expr.mapped(f)),
            StmtP::Assign(AssignP { lhs, ty, rhs }) => StmtP::Assign(AssignP {
                lhs: lhs.mapped(f),
                ty: ty.mapped(f),
                rhs: rhs.mapped(f),
            }),
            StmtP::AssignModify(lhs, op, rhs) => {
                StmtP::AssignModify(lhs.mapped(f), op, rhs.mapped(f))
            }
            StmtP::Statements(stmts) => StmtP::Statements(stmts.mapped(f)),
            StmtP::If(condition, then) => StmtP::If(condition.mapped(f), then.mapped(f)),
            StmtP::IfElse(condition, branches) => {
                StmtP::IfElse(condition.mapped(f), branches.mapped(f))
            }
            StmtP::For(ForP { var, over, body }) => StmtP::For(ForP {
                var: var.mapped(f),
                over: over.mapped(f),
                body: body.mapped(f),
            }),
            StmtP::Def(DefP {
                name,
                params,
                return_type,
                body,
                payload,
            }) => {
                let payload = f.map_def(payload);
                StmtP::Def(DefP {
                    name: name.mapped(f),
                    params: params.mapped(f),
                    return_type: return_type.mapped(f),
                    body: body.mapped(f),
                    payload,
                })
            }
            StmtP::Load(LoadP {
                module,
                args,
                payload,
            }) => {
                let payload = f.map_load(&module, payload);
                StmtP::Load(LoadP {
                    module,
                    args: args.mapped(f),
                    payload,
                })
            }
        }
    }
}

impl<A: AstPayload, B: AstPayload> MapPayload<A, B> for LoadArgP<A> {
    type Mapped = LoadArgP<B>;

    fn mapped(self, f: &mut impl AstPayloadFunction<A, B>) -> LoadArgP<B> {
        LoadArgP {
            local: self.local.mapped(f),
        }
    }
}

impl<A: AstPayload, B: AstPayload> MapPayload<A, B> for AssignTargetP<A> {
    type Mapped = AssignTargetP<B>;

    fn mapped(self, f: &mut impl AstPayloadFunction<A, B>) -> AssignTargetP<B> {
        match self {
            AssignTargetP::Tuple(targets) => AssignTargetP::Tuple(targets.mapped(f)),
            AssignTargetP::Index(array_index) => AssignTargetP::Index(array_index.mapped(f)),
            AssignTargetP::Dot(object) => AssignTargetP::Dot(object.mapped(f)),
            AssignTargetP::Identifier(ident) => AssignTargetP::Identifier(ident.mapped(f)),
        }
    }
}

impl<A: AstPayload, B: AstPayload> MapPayload<A, B> for AssignIdentP<A> {
    type Mapped = AssignIdentP<B>;

    fn mapped(self, f: &mut impl AstPayloadFunction<A, B>) -> AssignIdentP<B> {
        AssignIdentP {
            ident: self.ident,
            payload: f.map_ident_assign(self.payload),
        }
    }
}

impl<A: AstPayload, B: AstPayload> MapPayload<A, B> for ExprP<A> {
    type Mapped = ExprP<B>;

    fn mapped(self, f: &mut impl AstPayloadFunction<A, B>) -> ExprP<B> {
        match self {
            ExprP::Tuple(exprs) => ExprP::Tuple(exprs.mapped(f)),
            ExprP::Identifier(ident) => ExprP::Identifier(ident.mapped(f)),
            ExprP::Lambda(LambdaP {
                params,
                body,
                payload,
            }) => {
                let payload = f.map_def(payload);
                ExprP::Lambda(LambdaP {
                    params: params.mapped(f),
                    body: body.mapped(f),
                    payload,
                })
            }
            ExprP::ListComprehension(element, first, clauses) => {
                let (first, clauses) = (first.mapped(f), clauses.mapped(f));
                ExprP::ListComprehension(element.mapped(f), first, clauses)
            }
            ExprP::DictComprehension(elements, first, clauses) => {
                let (first, clauses) = (first.mapped(f), clauses.mapped(f));
                ExprP::DictComprehension(elements.mapped(f), first, clauses)
            }
        }
    }
}

impl<A: AstPayload, B: AstPayload> MapPayload<A, B> for IdentP<A> {
    type Mapped = IdentP<B>;

    fn mapped(self, f: &mut impl AstPayloadFunction<A, B>) -> IdentP<B> {
        IdentP {
            ident: self.ident,
            payload: f.map_ident(self.payload),
        }
    }
}

impl<A: AstPayload, B: AstPayload> MapPayload<A, B> for ClauseP<A> {
    type Mapped = ClauseP<B>;

    fn mapped(self, f: &mut impl AstPayloadFunction<A, B>) -> ClauseP<B> {
        match self {
            ClauseP::For(clause) => ClauseP::For(clause.mapped(f)),
            ClauseP::If(condition) => ClauseP::If(condition.mapped(f)),
        }
    }
}

impl<A: AstPayload, B: AstPayload> MapPayload<A, B> for ForClauseP<A> {
    type Mapped = ForClauseP<B>;

    fn mapped(self, f: &mut impl AstPayloadFunction<A, B>) -> ForClauseP<B> {
        ForClauseP {
            var: self.var.mapped(f),
            over: self.over.mapped(f),
        }
    }
}

impl<A: AstPayload, B: AstPayload> MapPayload<A, B> for ParameterP<A> {
    type Mapped = ParameterP<B>;

    fn mapped(self, f: &mut impl AstPayloadFunction<A, B>) -> ParameterP<B> {
        match self {
            ParameterP::Normal(name, ty, default) => {
                ParameterP::Normal(name.mapped(f), ty.mapped(f), default.mapped(f))
            }
            ParameterP::NoArgs => ParameterP::NoArgs,
        }
    }
}

impl<A: AstPayload, B: AstPayload> MapPayload<A, B> for TypeExprP<A> {
    type Mapped = TypeExprP<B>;

    fn mapped(self, f: &mut impl AstPayloadFunction<A, B>) -> TypeExprP<B> {
        TypeExprP {
            expr: self.expr.mapped(f),
            payload: f.map_type_expr(self.payload),
        }
    }
}
