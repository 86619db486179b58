//! Node files from trees.
use crate::limits::{self, TooLarge};
use crate::nodes::{Node, Writer};
use crate::pool::Pool;
use crate::tree::Stmt;
use std::mem::size_of;

/// Document 01's version of the node file.
const VERSION: u8 = 1;

/// An entry of the module list that a file starts with.
#[derive(Clone, Debug, PartialEq, Eq)]
pub struct Entry {
    /// Its name.
    pub name: Vec<u8>,
    /// Whether it is public.
    pub public: bool,
    /// Its slot, below 32,768.
    pub slot: u16,
}

/// A script with what its file says besides.
///
/// ```
/// use vaibmusan::{judge, listing, Expr, Script, Stmt};
/// // def f(a): return lambda b: a + b + _k
/// let body = Expr::lambda(["b"], Expr::other(["a", "b", "_k"]));
/// let file = Script::new(Stmt::def("f", ["a"], Stmt::plain(body))).to_bytes()?;
/// assert_eq!(judge(&file), Ok(()));
/// assert!(listing(&file).to_string().ends_with("C 2 0 1\nI 9 L 1 1\nI 10 L 0 2\nE 11 1 _k\n"));
/// # Ok::<(), vaibmusan::TooLarge>(())
/// ```
#[derive(Clone, Debug, PartialEq, Eq)]
pub struct Script {
    /// Whether what `load` binds may be public.
    pub reexport: bool,
    /// The module list from earlier files.
    pub entries: Vec<Entry>,
    /// The globals.
    pub globals: Vec<Vec<u8>>,
    /// The module.
    pub root: Stmt,
}

/// The low bytes of a number, most significant first; that it fits was checked before.
fn put(out: &mut Vec<u8>, bytes: usize, value: usize) {
    out.extend_from_slice(&value.to_be_bytes()[size_of::<usize>() - bytes..]);
}

impl Script {
    /// A script with no module entries and no globals.
    #[must_use]
    pub fn new(root: Stmt) -> Script {
        Script { reexport: false, entries: Vec::new(), globals: Vec::new(), root }
    }

    /// The same with these globals.
    #[must_use]
    pub fn with_globals<'a>(mut self, globals: impl IntoIterator<Item = &'a str>) -> Script {
        self.globals = globals.into_iter().map(|g| g.as_bytes().to_vec()).collect();
        self
    }

    /// The node file: nodes in table order, names by first use, scope numbers 1 to S in node order. An Other inside an Other is no node:
    /// what it holds stands in its place.
    ///
    /// # Errors
    /// Where there is more of something than an accepted file may hold, however deep or large the tree is. What [`crate::judge`] may still refuse
    /// is an empty name, a name twice in a list, and two parameters of one name.
    pub fn to_bytes(&self) -> Result<Vec<u8>, TooLarge> {
        let mut w = Writer::default();
        w.stmt(&self.root)?;
        let entries = self.numbered_entries(&mut w.pool)?;
        let globals = self.numbered_globals(&mut w.pool)?;

        let mut out = vec![VERSION << 4 | u8::from(self.reexport) << 3];
        for count in [w.nodes.len(), w.pool.names.len(), entries.len(), globals.len()] {
            put(&mut out, 2, count);
        }
        put(&mut out, 3, w.pool.bytes);
        put_nodes(&mut out, &w.nodes);
        put_spellings(&mut out, &w.pool.names);
        entries.iter().for_each(|&entry| put(&mut out, 4, entry));
        globals.iter().for_each(|&name| put(&mut out, 2, name));
        out.extend(w.pool.names.concat());
        Ok(out)
    }

    /// The module entries as the file has them: name 16, public 1, slot 15.
    fn numbered_entries(&self, pool: &mut Pool) -> Result<Vec<usize>, TooLarge> {
        TooLarge::check("module entries", self.entries.len(), limits::ENTRIES)?;
        let packed = |entry: &Entry| {
            TooLarge::check("slot of a module entry", entry.slot.into(), limits::SLOT)?;
            Ok(pool.number(&entry.name)? << 16 | usize::from(entry.public) << 15 | usize::from(entry.slot))
        };
        self.entries.iter().map(packed).collect()
    }

    fn numbered_globals(&self, pool: &mut Pool) -> Result<Vec<usize>, TooLarge> {
        TooLarge::check("globals", self.globals.len(), limits::GLOBALS)?;
        self.globals.iter().map(|name| pool.number(name)).collect()
    }
}

fn put_nodes(out: &mut Vec<u8>, nodes: &[Node]) {
    for n in nodes {
        out.push(n.kind << 3);
        put(out, 2, n.size);
        put(out, 2, n.value);
        put(out, 3, n.source as usize);
    }
}

/// Where in the pool each name stands: one behind the other.
fn put_spellings(out: &mut Vec<u8>, names: &[Vec<u8>]) {
    let mut offset = 0;
    for name in names {
        put(out, 2, offset);
        put(out, 1, name.len());
        offset += name.len();
    }
}
