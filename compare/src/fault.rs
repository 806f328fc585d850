//! What is wrong with a text that people hand in, and on which line.

use std::io;

#[derive(Clone, Debug, PartialEq, Eq)]
pub struct Fault {
    /// Counted from 1.
    pub line: usize,
    pub says: String,
}

impl Fault {
    pub fn new(line: usize, says: impl Into<String>) -> Fault {
        Fault { line, says: says.into() }
    }
}

impl From<Fault> for io::Error {
    fn from(Fault { line, says }: Fault) -> io::Error {
        io::Error::new(io::ErrorKind::InvalidData, format!("line {line}: {says}"))
    }
}

const LETTERS_SHOWN: usize = 40;

/// A word for a message: the text may be anything, of any length.
pub fn quoted(word: &str) -> String {
    match word.char_indices().nth(LETTERS_SHOWN) {
        Some((end, _)) => format!("{:?}..", &word[..end]),
        None => format!("{word:?}"),
    }
}
