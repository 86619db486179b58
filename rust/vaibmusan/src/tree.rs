//! A script as a tree, by document 01's table of kinds; what the types let through has no wrong children (number 8).
//!
//! A tree of any depth can be built, handed to `Script::to_bytes` (which refuses it at depth 65) and dropped (`dismantle.rs`); copying,
//! comparing and printing go as deep as the tree. As trees are dropped by code of their own, a match takes their parts by reference.

/// A name with its place in the source text (0 unless [`Id::at`] says another).
#[derive(Clone, Debug, PartialEq, Eq, Hash)]
pub struct Id {
    /// The spelling: 1 to 255 bytes.
    pub bytes: Vec<u8>,
    /// The byte of the source text where it stands.
    pub source_offset: u32,
}

impl Id {
    /// The same name at a place of the source text.
    #[must_use]
    pub fn at(self, source_offset: u32) -> Id {
        Id { source_offset, ..self }
    }
}

impl From<&str> for Id {
    fn from(text: &str) -> Id {
        Id { bytes: text.as_bytes().to_vec(), source_offset: 0 }
    }
}

impl From<&[u8]> for Id {
    fn from(bytes: &[u8]) -> Id {
        Id { bytes: bytes.to_vec(), source_offset: 0 }
    }
}

/// A statement. Trees of any depth can be written (to be refused) and dropped; `clone`, `==` and `{:?}` take stack as the tree is deep.
#[derive(Clone, Debug, PartialEq, Eq)]
pub enum Stmt {
    /// Statements one after the other.
    Block(Vec<Stmt>),
    /// `pass`, `return e`, `e`: at most one expression.
    Plain(Option<Expr>),
    /// `target: type = e`
    Assign(Target, Option<Expr>, Expr),
    /// `target += e`
    Modify(Target, Expr),
    /// `if e: .. else: ..`
    If(Expr, Box<Stmt>, Option<Box<Stmt>>),
    /// `for target in e: ..`
    For(Target, Expr, Box<Stmt>),
    /// `def name(params) -> type: ..`
    Def(Id, Vec<Param>, Option<Expr>, Box<Stmt>),
    /// `load(..)`: the names that it binds.
    Load(Vec<Id>),
}

/// What is assigned to.
#[derive(Clone, Debug, PartialEq, Eq)]
pub enum Target {
    /// A name.
    Name(Id),
    /// Several targets.
    Tuple(Vec<Target>),
    /// `a.b`, `a[i]`: one or two expressions.
    Place(Box<Expr>, Option<Box<Expr>>),
}

/// An expression.
#[derive(Clone, Debug, PartialEq, Eq)]
pub enum Expr {
    /// A name that is read.
    Ident(Id),
    /// `lambda params: e`
    Lambda(Vec<Param>, Box<Expr>),
    /// A comprehension: the first clause's target and expression, later clauses, one element, a second one for a dictionary.
    Compr(Target, Box<Expr>, Vec<Clause>, Box<Expr>, Option<Box<Expr>>),
    /// Anything else: its expressions, in order. Where one of these is an Other itself, the file has what that holds in its place.
    Other(Vec<Expr>),
}

/// A later clause of a comprehension.
#[derive(Clone, Debug, PartialEq, Eq)]
pub enum Clause {
    /// `for target in e`
    For(Target, Expr),
    /// `if e`
    If(Expr),
}

/// A parameter.
#[derive(Clone, Debug, PartialEq, Eq)]
pub enum Param {
    /// A bare `*` or `/`.
    Bare,
    /// `name: type = default`
    Named(Id, Option<Expr>, Option<Expr>),
}

impl<T: Into<Id>> From<T> for Expr {
    fn from(name: T) -> Expr {
        Expr::Ident(name.into())
    }
}

impl<T: Into<Id>> From<T> for Target {
    fn from(name: T) -> Target {
        Target::Name(name.into())
    }
}

impl<T: Into<Id>> From<T> for Param {
    fn from(name: T) -> Param {
        Param::Named(name.into(), None, None)
    }
}

/// Any number of things that are, or can be made, a `T`.
fn all<T, I: Into<T>>(parts: impl IntoIterator<Item = I>) -> Vec<T> {
    parts.into_iter().map(Into::into).collect()
}

impl Stmt {
    /// Statements one after the other.
    #[must_use]
    pub fn block(statements: impl IntoIterator<Item = Stmt>) -> Stmt {
        Stmt::Block(all(statements))
    }

    /// `return e`, or `e`.
    #[must_use]
    pub fn plain(e: impl Into<Expr>) -> Stmt {
        Stmt::Plain(Some(e.into()))
    }

    /// `target = e`
    #[must_use]
    pub fn assign(target: impl Into<Target>, e: impl Into<Expr>) -> Stmt {
        Stmt::Assign(target.into(), None, e.into())
    }

    /// `for target in e: body`
    #[must_use]
    pub fn for_in(target: impl Into<Target>, e: impl Into<Expr>, body: Stmt) -> Stmt {
        Stmt::For(target.into(), e.into(), Box::new(body))
    }

    /// `def name(params): body`
    #[must_use]
    pub fn def<P: Into<Param>>(name: impl Into<Id>, params: impl IntoIterator<Item = P>, body: Stmt) -> Stmt {
        Stmt::Def(name.into(), all(params), None, Box::new(body))
    }
}

impl Target {
    /// Several targets.
    #[must_use]
    pub fn tuple<T: Into<Target>>(targets: impl IntoIterator<Item = T>) -> Target {
        Target::Tuple(all(targets))
    }
}

impl Expr {
    /// `lambda params: e`
    #[must_use]
    pub fn lambda<P: Into<Param>>(params: impl IntoIterator<Item = P>, e: impl Into<Expr>) -> Expr {
        Expr::Lambda(all(params), Box::new(e.into()))
    }

    /// `[element for target in e]`
    #[must_use]
    pub fn compr(element: impl Into<Expr>, target: impl Into<Target>, e: impl Into<Expr>) -> Expr {
        Expr::Compr(target.into(), Box::new(e.into()), Vec::new(), Box::new(element.into()), None)
    }

    /// Calls, sums, lists and all the rest: their expressions, in order.
    #[must_use]
    pub fn other<E: Into<Expr>>(parts: impl IntoIterator<Item = E>) -> Expr {
        Expr::Other(all(parts))
    }
}
