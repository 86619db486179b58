//! Document 01's node file: its packed fields, read into lists.

/// A file whose names are UTF-8.
pub struct NodeFile {
    pub reexport: bool,
    pub nodes: Vec<Node>,
    pub names: Vec<String>,
    pub entries: Vec<Entry>,
    /// Name numbers.
    pub globals: Vec<usize>,
}

pub struct Node {
    pub kind: Kind,
    /// Of the node and all below it.
    pub size: usize,
    /// A name number, a scope number, or 0.
    pub value: usize,
}

/// A module entry.
pub struct Entry {
    /// A name number.
    pub name: usize,
    pub public: bool,
    pub slot: u32,
}

#[derive(Copy, Clone, PartialEq, Eq)]
pub enum Kind {
    Block,
    Plain,
    Assign,
    Modify,
    If,
    For,
    Def,
    Load,
    Name,
    Tuple,
    Place,
    Ident,
    Lambda,
    Compr,
    Other,
    ForClause,
    IfClause,
    Param,
    Type,
}

/// The kinds by their numbers.
const KINDS: [Kind; 19] = {
    use Kind::*;
    [
        Block, Plain, Assign, Modify, If, For, Def, Load, Name, Tuple, Place, Ident, Lambda, Compr,
        Other, ForClause, IfClause, Param, Type,
    ]
};

impl NodeFile {
    /// The file in these bytes, if they hold one.
    pub fn read(bytes: &[u8]) -> Option<NodeFile> {
        let mut rest = bytes;
        let header = records(&mut rest, 1, [4, 1, 3, 16, 16, 16, 16, 24])?;
        let [_version, reexport, _, nodes, names, entries, globals, pool] = header[0];
        let nodes = records(&mut rest, nodes, [5, 3, 16, 16, 24])?;
        let names = records(&mut rest, names, [16, 8])?;
        let entries = records(&mut rest, entries, [16, 1, 15])?;
        let globals = records(&mut rest, globals, [16])?;
        let pool = rest.get(..pool)?;

        let node = |[kind, _, size, value, _offset]: [usize; 5]| {
            Some(Node {
                kind: *KINDS.get(kind)?,
                size,
                value,
            })
        };
        let name = |[offset, length]: [usize; 2]| {
            String::from_utf8(pool.get(offset..offset + length)?.to_vec()).ok()
        };
        let entry = |[name, public, slot]: [usize; 3]| {
            Some(Entry {
                name,
                public: public == 1,
                slot: slot.try_into().ok()?,
            })
        };
        Some(NodeFile {
            reexport: reexport == 1,
            nodes: nodes.into_iter().map(node).collect::<Option<_>>()?,
            names: names.into_iter().map(name).collect::<Option<_>>()?,
            entries: entries.into_iter().map(entry).collect::<Option<_>>()?,
            globals: globals.into_iter().map(|[name]| name).collect(),
        })
    }
}

/// Take `count` records of fields of these widths off the front of `rest`.
fn records<const N: usize>(
    rest: &mut &[u8],
    count: usize,
    widths: [usize; N],
) -> Option<Vec<[usize; N]>> {
    let size = widths.iter().sum::<usize>() / 8;
    let (records, after) = rest.split_at_checked(count * size)?;
    *rest = after;
    Some(
        records
            .chunks_exact(size)
            .map(|record| fields(record, widths))
            .collect(),
    )
}

/// The fields of a record, most significant bit first.
fn fields<const N: usize>(record: &[u8], widths: [usize; N]) -> [usize; N] {
    let mut bits = record
        .iter()
        .fold(0u128, |bits, &byte| bits << 8 | u128::from(byte));
    let mut fields = [0; N];
    for (field, width) in fields.iter_mut().zip(widths).rev() {
        *field = (bits & ((1 << width) - 1)) as usize;
        bits >>= width;
    }
    fields
}
