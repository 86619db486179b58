//! The stack that a call needs.
use std::io;
use std::panic::resume_unwind;
use std::thread;

/// The bytes of stack that one call of this crate may need; 180 KB were seen in [`crate::resolve`], 260 KB in [`crate::listing`], whatever
/// the file. A main thread has 8 MB on Linux and a thread of the standard library 2 MB, unless something else was asked for.
pub const STACK: usize = 512 << 10;

/// Calls of this crate on a thread of their own that has enough stack, for who has little: for each call [`STACK`], and as much again for
/// what the work does besides. It waits for the work, which may borrow, and hands on what that gives, or its panic.
///
/// ```
/// use vaibmusan::{resolve, with_stack, Answers, Refusal};
/// let mut answers = Answers::new();
/// let resolved = with_stack(|| resolve(b"too short", &mut answers))?;
/// assert_eq!(resolved, Err(Refusal::Header));
/// # Ok::<(), std::io::Error>(())
/// ```
///
/// # Errors
/// If the system makes no thread.
pub fn with_stack<T: Send>(work: impl FnOnce() -> T + Send) -> io::Result<T> {
    thread::scope(|scope| {
        let thread = thread::Builder::new().stack_size(2 * STACK).spawn_scoped(scope, work)?;
        Ok(thread.join().unwrap_or_else(|panic| resume_unwind(panic)))
    })
}
