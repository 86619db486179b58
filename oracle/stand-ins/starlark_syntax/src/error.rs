//! The crate's error, with the one kind that resolving makes.

pub struct Error {
    kind: ErrorKind,
}

pub enum ErrorKind {
    Scope(anyhow::Error),
}

pub type Result<T> = std::result::Result<T, Error>;

impl Error {
    pub fn new_kind(kind: ErrorKind) -> Error {
        Error { kind }
    }

    pub fn kind(&self) -> &ErrorKind {
        &self.kind
    }
}
