//! Node files by hand: a function for each kind, and packing.

/// A file to be; its names are numbered in order of first use.
pub struct File {
    pub reexport: bool,
    /// Name, public, slot.
    pub entries: Vec<(&'static str, bool, u128)>,
    pub globals: Vec<&'static str>,
    pub root: Tree,
}

pub struct Tree {
    kind: u128,
    value: Value,
    kids: Vec<Tree>,
}

enum Value {
    None,
    Name(&'static str),
    Scope(u128),
}

fn tree(kind: u128, value: Value, kids: impl Into<Vec<Tree>>) -> Tree {
    Tree {
        kind,
        value,
        kids: kids.into(),
    }
}

pub fn block(kids: impl Into<Vec<Tree>>) -> Tree {
    tree(0, Value::None, kids)
}

pub fn plain(kids: impl Into<Vec<Tree>>) -> Tree {
    tree(1, Value::None, kids)
}

pub fn assign(kids: impl Into<Vec<Tree>>) -> Tree {
    tree(2, Value::None, kids)
}

pub fn for_(kids: impl Into<Vec<Tree>>) -> Tree {
    tree(5, Value::None, kids)
}

pub fn def(scope: u128, kids: impl Into<Vec<Tree>>) -> Tree {
    tree(6, Value::Scope(scope), kids)
}

pub fn load(kids: impl Into<Vec<Tree>>) -> Tree {
    tree(7, Value::None, kids)
}

pub fn name(name: &'static str) -> Tree {
    tree(8, Value::Name(name), [])
}

pub fn ident(name: &'static str) -> Tree {
    tree(11, Value::Name(name), [])
}

pub fn lambda(scope: u128, kids: impl Into<Vec<Tree>>) -> Tree {
    tree(12, Value::Scope(scope), kids)
}

pub fn compr(kids: impl Into<Vec<Tree>>) -> Tree {
    tree(13, Value::None, kids)
}

pub fn other(kids: impl Into<Vec<Tree>>) -> Tree {
    tree(14, Value::None, kids)
}

pub fn for_clause(kids: impl Into<Vec<Tree>>) -> Tree {
    tree(15, Value::None, kids)
}

pub fn param(kids: impl Into<Vec<Tree>>) -> Tree {
    tree(17, Value::None, kids)
}

pub fn type_(expr: Tree) -> Tree {
    tree(18, Value::None, [expr])
}

/// The bytes of a file.
pub fn pack(file: &File) -> Vec<u8> {
    let mut names = Names::default();
    let mut nodes = Vec::new();
    pack_tree(&file.root, &mut names, &mut nodes);
    let entries: Vec<u8> = file
        .entries
        .iter()
        .flat_map(|&(name, public, slot)| {
            record(&[(16, names.number(name)), (1, public.into()), (15, slot)])
        })
        .collect();
    let globals: Vec<u8> = file
        .globals
        .iter()
        .flat_map(|&name| record(&[(16, names.number(name))]))
        .collect();
    let pool = names.0.concat();
    let header = record(&[
        (4, 1),
        (1, file.reexport.into()),
        (3, 0),
        (16, nodes.len() as u128 / 8),
        (16, names.0.len() as u128),
        (16, file.entries.len() as u128),
        (16, file.globals.len() as u128),
        (24, pool.len() as u128),
    ]);
    [
        header,
        nodes,
        names.pack(),
        entries,
        globals,
        pool.into_bytes(),
    ]
    .concat()
}

#[derive(Default)]
struct Names(Vec<&'static str>);

impl Names {
    fn number(&mut self, name: &'static str) -> u128 {
        let number = self
            .0
            .iter()
            .position(|&known| known == name)
            .unwrap_or_else(|| {
                self.0.push(name);
                self.0.len() - 1
            });
        number as u128
    }

    fn pack(&self) -> Vec<u8> {
        let mut offset = 0;
        let mut packed = Vec::new();
        for name in &self.0 {
            packed.extend(record(&[(16, offset), (8, name.len() as u128)]));
            offset += name.len() as u128;
        }
        packed
    }
}

/// Append a node and all below it.
fn pack_tree(tree: &Tree, names: &mut Names, nodes: &mut Vec<u8>) {
    let value = match tree.value {
        Value::None => 0,
        Value::Name(name) => names.number(name),
        Value::Scope(scope) => scope,
    };
    nodes.extend(record(&[
        (5, tree.kind),
        (3, 0),
        (16, size(tree)),
        (16, value),
        (24, 0),
    ]));
    tree.kids
        .iter()
        .for_each(|kid| pack_tree(kid, names, nodes));
}

fn size(tree: &Tree) -> u128 {
    1 + tree.kids.iter().map(size).sum::<u128>()
}

/// Fields as widths and values, most significant bit first.
fn record(fields: &[(u32, u128)]) -> Vec<u8> {
    let width: u32 = fields.iter().map(|(width, _)| width).sum();
    let bits = fields
        .iter()
        .fold(0, |bits, (width, value)| bits << width | value);
    bits.to_be_bytes()[16 - width as usize / 8..].to_vec()
}
