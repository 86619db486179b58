//! The listing of a file.
use crate::ffi;
use std::fmt;
use std::io;
use std::iter;

/// How many bytes of a listing are asked for at a time.
const WINDOW: usize = 1 << 16;

/// The listing of a file, written when it is displayed. Names are bytes of the file: [`fmt::Display`] shows what is not UTF-8 as `U+FFFD`,
/// [`Listing::write_to`] writes it as it is.
///
/// ```
/// assert_eq!(vaibmusan::listing(b"no node file").to_string(), "answer 2\n");
/// ```
#[derive(Clone, Copy, Debug)]
pub struct Listing<'a>(&'a [u8]);

/// The listing of a file (document 01, "One listing in full"); of a refused file, `answer N`.
#[must_use]
pub fn listing(file: &[u8]) -> Listing<'_> {
    Listing(file)
}

impl Listing<'_> {
    /// Writes the listing's bytes.
    ///
    /// # Errors
    /// As `out` has them.
    pub fn write_to(&self, out: &mut impl io::Write) -> io::Result<()> {
        self.windows().try_for_each(|window| out.write_all(&window))
    }

    /// The listing's bytes.
    #[must_use]
    pub fn to_bytes(&self) -> Vec<u8> {
        self.windows().flatten().collect()
    }

    /// The listing piece by piece; one that is not full is the last.
    fn windows(&self) -> impl Iterator<Item = Vec<u8>> + '_ {
        let mut from = Some(0);
        iter::from_fn(move || {
            let start = from?;
            let mut window = vec![0; WINDOW];
            let got = ffi::listing(self.0, start, &mut window);
            from = (got == WINDOW).then_some(start + got);
            window.truncate(got);
            Some(window)
        })
    }
}

impl fmt::Display for Listing<'_> {
    fn fmt(&self, f: &mut fmt::Formatter<'_>) -> fmt::Result {
        f.write_str(&String::from_utf8_lossy(&self.to_bytes()))
    }
}
