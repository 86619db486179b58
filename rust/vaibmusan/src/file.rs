//! Reading the fields of a file that was accepted.
use crate::ids::Name;
use crate::kinds::{DEF, LAMBDA};

/// A node: kind, value, place in the source.
#[derive(Clone, Copy)]
pub struct Node {
    pub kind: u8,
    pub value: usize,
    pub source: u32,
}

/// The bytes of an accepted file.
#[derive(Clone, Copy)]
pub struct File<'a>(pub &'a [u8]);

impl<'a> File<'a> {
    fn number(self, at: usize, bytes: usize) -> usize {
        self.0[at..at + bytes].iter().fold(0, |n, &b| n << 8 | usize::from(b))
    }

    /// 0 for no bytes at all, which stand for "nothing resolved yet".
    pub fn node_count(self) -> usize {
        if self.0.is_empty() {
            0
        } else {
            self.number(1, 2)
        }
    }

    pub fn node(self, node: usize) -> Node {
        let at = 12 + 8 * node;
        Node { kind: self.0[at] >> 3, value: self.number(at + 3, 2), source: self.number(at + 5, 3) as u32 }
    }

    /// The node of that number, if there is one.
    pub fn get(self, node: usize) -> Option<Node> {
        (node < self.node_count()).then(|| self.node(node))
    }

    pub fn nodes(self) -> impl Iterator<Item = (usize, Node)> + 'a {
        (0..self.node_count()).map(move |i| (i, self.node(i)))
    }

    /// Scopes 0 to S: the module, if there is a file, and each Def and Lambda.
    pub fn scope_count(self) -> usize {
        usize::from(!self.0.is_empty()) + self.nodes().filter(|(_, n)| n.kind == DEF || n.kind == LAMBDA).count()
    }

    pub fn name(self, name: usize) -> Name<'a> {
        let names = 12 + 8 * self.node_count();
        let pool = names + 3 * self.number(3, 2) + 4 * self.number(5, 2) + 2 * self.number(7, 2);
        let start = pool + self.number(names + 3 * name, 2);
        Name { number: name, bytes: &self.0[start..start + self.number(names + 3 * name + 2, 1)] }
    }
}
