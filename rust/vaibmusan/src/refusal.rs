//! The numbers given back.
use std::error::Error;
use std::fmt;

/// The table of document 01, once: each number with its case and its condition.
macro_rules! refusals {
    ($($name:ident = $number:literal, $condition:literal;)*) => {
        /// Why a file is refused: document 01's table, the smallest number whose condition holds.
        ///
        /// [`crate::Answers`] has buffers of full length, so this crate's functions never give 1; judging alone never gives 12.
        #[derive(Clone, Copy, Debug, PartialEq, Eq, Hash, PartialOrd, Ord)]
        #[non_exhaustive]
        pub enum Refusal {
            $(#[doc = concat!(stringify!($number), ": ", $condition, ".")] $name,)*
            /// A number that this crate does not know: the library is newer.
            Unknown(u64),
        }

        impl Refusal {
            /// Document 01's condition.
            #[must_use]
            pub fn condition(self) -> &'static str {
                match self {
                    $(Refusal::$name => $condition,)*
                    Refusal::Unknown(_) => "a number that this crate does not know",
                }
            }

            /// Document 01's number.
            #[must_use]
            pub fn number(self) -> u64 {
                match self {
                    $(Refusal::$name => $number,)*
                    Refusal::Unknown(number) => number,
                }
            }

            /// `Ok` for 0.
            pub(crate) fn check(number: u64) -> Result<(), Refusal> {
                match number {
                    0 => Ok(()),
                    $($number => Err(Refusal::$name),)*
                    _ => Err(Refusal::Unknown(number)),
                }
            }
        }
    };
}

refusals! {
    ShortBuffer = 1, "an answer buffer is shorter than its full length";
    Header = 2, "fewer than 12 bytes, version not 1, or zero bits set in the header";
    Counts = 3, "nodes 0 or above 2,048; names above 1,024; module entries above 256; globals above 256; pool above 16,384";
    Length = 4, "length is not exactly what the header says";
    Names = 5, "a name of length 0, past the pool, or spelled as an earlier one";
    Lists = 6, "a module entry or global with no such name, or a name twice in one list";
    Nodes = 7, "kind above 18, zero bits set, size 0, a node running past its parent's end, root size wrong, no such name, or a value where none belongs";
    Children = 8, "the root no statement, or children other than the table allows";
    Depth = 9, "depth 65 or more";
    Scopes = 10, "scope numbers are not 1..S each once, or S above 255";
    Params = 11, "two Params of one Def or Lambda with one name";
    Slots = 12, "all scopes together would need more than 4,096 slots";
    ShortReaders = 13, "a buffer of the readers is shorter than its full length";
}

impl fmt::Display for Refusal {
    fn fmt(&self, f: &mut fmt::Formatter<'_>) -> fmt::Result {
        match self {
            Refusal::Unknown(number) => write!(f, "{}: {number}", self.condition()),
            _ => f.write_str(self.condition()),
        }
    }
}

impl Error for Refusal {}

#[cfg(test)]
mod tests {
    use super::Refusal;

    #[test]
    fn an_unknown_number_is_an_error() {
        assert_eq!(Refusal::check(u64::MAX), Err(Refusal::Unknown(u64::MAX)));
        assert_eq!(Refusal::Unknown(999).number(), 999);
        assert_eq!(Refusal::Unknown(999).to_string(), "a number that this crate does not know: 999");
    }

    #[test]
    fn the_others_have_their_numbers() {
        for number in 1..=12 {
            let refusal = Refusal::check(number).unwrap_err();
            assert!(refusal.number() == number && !matches!(refusal, Refusal::Unknown(_)));
        }
    }
}
