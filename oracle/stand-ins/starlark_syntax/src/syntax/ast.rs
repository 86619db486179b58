//! The syntax tree: the original's names and shapes, with the variants that a node file
//! can need. `P` says what each kind of node carries besides its text.

use crate::codemap::Spanned;

/// What nodes carry: nothing after parsing, bindings and scopes in the compiler.
pub trait AstPayload: Clone {
    type LoadPayload: Clone;
    type IdentPayload: Clone;
    type IdentAssignPayload: Clone;
    type DefPayload: Clone;
    type TypeExprPayload: Clone;
}

#[derive(Clone)]
pub struct AstNoPayload;

impl AstPayload for AstNoPayload {
    type LoadPayload = ();
    type IdentPayload = ();
    type IdentAssignPayload = ();
    type DefPayload = ();
    type TypeExprPayload = ();
}

pub type AstStmtP<P> = Spanned<StmtP<P>>;
pub type AstExprP<P> = Spanned<ExprP<P>>;
pub type AstTypeExprP<P> = Spanned<TypeExprP<P>>;
pub type AstAssignTargetP<P> = Spanned<AssignTargetP<P>>;
pub type AstAssignIdentP<P> = Spanned<AssignIdentP<P>>;
pub type AstIdentP<P> = Spanned<IdentP<P>>;
pub type AstParameterP<P> = Spanned<ParameterP<P>>;

pub type Stmt = StmtP<AstNoPayload>;
pub type AssignTarget = AssignTargetP<AstNoPayload>;
pub type AssignIdent = AssignIdentP<AstNoPayload>;

pub type AstStmt = AstStmtP<AstNoPayload>;
pub type AstExpr = AstExprP<AstNoPayload>;
pub type AstTypeExpr = AstTypeExprP<AstNoPayload>;
pub type AstAssignTarget = AstAssignTargetP<AstNoPayload>;
pub type AstAssignIdent = AstAssignIdentP<AstNoPayload>;
pub type AstParameter = AstParameterP<AstNoPayload>;

#[derive(Clone)]
pub enum StmtP<P: AstPayload> {
    Pass,
    Expression(AstExprP<P>),
    Assign(AssignP<P>),
    AssignModify(AstAssignTargetP<P>, AssignOp, Box<AstExprP<P>>),
    Statements(Vec<AstStmtP<P>>),
    If(AstExprP<P>, Box<AstStmtP<P>>),
    IfElse(AstExprP<P>, Box<(AstStmtP<P>, AstStmtP<P>)>),
    For(ForP<P>),
    Def(DefP<P>),
    Load(LoadP<P>),
}

/// The operator of `x += e`; which one it is makes no difference to names.
#[derive(Clone)]
pub enum AssignOp {
    Add,
}

#[derive(Clone)]
pub struct AssignP<P: AstPayload> {
    pub lhs: AstAssignTargetP<P>,
    pub ty: Option<AstTypeExprP<P>>,
    pub rhs: AstExprP<P>,
}

#[derive(Clone)]
pub struct ForP<P: AstPayload> {
    pub var: AstAssignTargetP<P>,
    pub over: AstExprP<P>,
    pub body: Box<AstStmtP<P>>,
}

#[derive(Clone)]
pub struct DefP<P: AstPayload> {
    pub name: AstAssignIdentP<P>,
    pub params: Vec<AstParameterP<P>>,
    pub return_type: Option<Box<AstTypeExprP<P>>>,
    pub body: Box<AstStmtP<P>>,
    pub payload: P::DefPayload,
}

#[derive(Clone)]
pub struct LoadP<P: AstPayload> {
    pub module: String,
    pub args: Vec<LoadArgP<P>>,
    pub payload: P::LoadPayload,
}

#[derive(Clone)]
pub struct LoadArgP<P: AstPayload> {
    pub local: AstAssignIdentP<P>,
}

#[derive(Clone)]
pub enum AssignTargetP<P: AstPayload> {
    Tuple(Vec<AstAssignTargetP<P>>),
    Index(Box<(AstExprP<P>, AstExprP<P>)>),
    Dot(Box<AstExprP<P>>),
    Identifier(AstAssignIdentP<P>),
}

#[derive(Clone)]
pub struct AssignIdentP<P: AstPayload> {
    pub ident: String,
    pub payload: P::IdentAssignPayload,
}

#[derive(Clone)]
pub enum ExprP<P: AstPayload> {
    /// Stands for every expression that only holds others: tuples, calls, operators, literals.
    Tuple(Vec<AstExprP<P>>),
    Identifier(AstIdentP<P>),
    Lambda(LambdaP<P>),
    ListComprehension(Box<AstExprP<P>>, Box<ForClauseP<P>>, Vec<ClauseP<P>>),
    DictComprehension(
        Box<(AstExprP<P>, AstExprP<P>)>,
        Box<ForClauseP<P>>,
        Vec<ClauseP<P>>,
    ),
}

#[derive(Clone)]
pub struct IdentP<P: AstPayload> {
    pub ident: String,
    pub payload: P::IdentPayload,
}

#[derive(Clone)]
pub struct LambdaP<P: AstPayload> {
    pub params: Vec<AstParameterP<P>>,
    pub body: Box<AstExprP<P>>,
    pub payload: P::DefPayload,
}

#[derive(Clone)]
pub enum ClauseP<P: AstPayload> {
    For(ForClauseP<P>),
    If(AstExprP<P>),
}

#[derive(Clone)]
pub struct ForClauseP<P: AstPayload> {
    pub var: AstAssignTargetP<P>,
    pub over: AstExprP<P>,
}

#[derive(Clone)]
pub enum ParameterP<P: AstPayload> {
    /// A named one of any form: name, type, default.
    Normal(
        AstAssignIdentP<P>,
        Option<Box<AstTypeExprP<P>>>,
        Option<Box<AstExprP<P>>>,
    ),
    /// A bare `*` or `/`.
    NoArgs,
}

impl<P: AstPayload> ParameterP<P> {
    /// Name, type and default.
    #[expect(clippy::type_complexity)]
    pub fn split_mut(
        &mut self,
    ) -> (
        Option<&mut AstAssignIdentP<P>>,
        Option<&mut AstTypeExprP<P>>,
        Option<&mut AstExprP<P>>,
    ) {
        match self {
            ParameterP::Normal(name, ty, default) => {
                (Some(name), ty.as_deref_mut(), default.as_deref_mut())
            }
            ParameterP::NoArgs => (None, None, None),
        }
    }
}

#[derive(Clone)]
pub struct TypeExprP<P: AstPayload> {
    pub expr: AstExprP<P>,
    pub payload: P::TypeExprPayload,
}

#[derive(Copy, Clone, Debug, Eq, PartialEq)]
pub enum Visibility {
    Public,
    Private,
}
