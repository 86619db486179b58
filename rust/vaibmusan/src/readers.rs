//! Every reader of a variable.
use crate::answers::{keep, Answers};
use crate::ffi::{self, Lists};
use crate::ids::BindingId;
use crate::refusal::Refusal;

/// For each binding and each global of a file the Idents that are resolved to it: [`readers`] makes it.
#[derive(Clone)]
pub struct Readers {
    lists: Box<Lists>,
}

/// [`crate::resolve`], and every reader of each binding and each global.
///
/// ```
/// use vaibmusan::{readers, Answers, Script, Stmt};
/// let file = Script::new(Stmt::Block(vec![Stmt::plain("clock"), Stmt::plain("clock")])).with_globals(["clock"]).to_bytes()?;
/// let mut answers = Answers::new();
/// let readers = readers(&file, &mut answers)?;
/// assert_eq!(readers.of_global(0).count(), 2);
/// # Ok::<(), Box<dyn std::error::Error>>(())
/// ```
///
/// # Errors
/// As [`crate::resolve`]; `answers` is empty then.
pub fn readers(file: &[u8], answers: &mut Answers) -> Result<Readers, Refusal> {
    let mut lists = Lists::new();
    let a = ffi::readers(file, &mut answers.buffers, &mut lists);
    keep(file, a, answers)?;
    Ok(Readers { lists })
}

fn part<'a>(starts: &[u32], counts: &[u32], list: &'a [u32], k: usize) -> impl Iterator<Item = usize> + 'a {
    let start = starts.get(k).map_or(0, |&s| s as usize);
    let count = counts.get(k).map_or(0, |&c| c as usize);
    list[start..start + count].iter().map(|&node| node as usize)
}

impl Readers {
    /// The nodes of the Idents that are resolved to a binding, in node order.
    pub fn of_binding(&self, binding: BindingId) -> impl Iterator<Item = usize> + '_ {
        part(&self.lists.starts, &self.lists.counts, &self.lists.list, binding.0)
    }

    /// The nodes of the Idents that are resolved to a global, by its number in the file's list, in node order.
    pub fn of_global(&self, global: usize) -> impl Iterator<Item = usize> + '_ {
        part(&self.lists.global_starts, &self.lists.global_counts, &self.lists.global_list, global)
    }
}
