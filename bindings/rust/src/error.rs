//! Why a call has no answer.

use std::error;
use std::fmt;

/// A fault of a line, from 1 to 16. The least one that applies is told.
#[derive(Clone, Copy, Debug, PartialEq, Eq, PartialOrd, Ord, Hash)]
pub struct FaultKind(u8);

/// What each fault says, from the first.
const FAULTS: [&str; 16] = [
    "a byte of 128 or more",
    "the line is not in the grammar",
    "an item before any crate line, or a struct or a trait in a section",
    "a declared name is taken",
    "a name or a lifetime is not known",
    "the crate does not see the item",
    "the name of another kind of item, or other arguments than the item takes",
    "a parameter of the impl is not in its header",
    "a trait's bounds use its own name",
    "an auto trait with parameters or bounds",
    "an impl of an auto trait for a type that is no struct of the crate",
    "an impl of a trait that only built-in rules give",
    "a variable outside the asked reference, or of two kinds",
    "parameters in a refute line",
    "a dyn whose bounds are not a principal trait, auto traits and a lifetime",
    "a limit is passed",
];

impl FaultKind {
    /// The fault of that number; none where there is no such fault.
    pub(crate) fn of(number: u32) -> Option<FaultKind> {
        let number = u8::try_from(number).ok()?;
        (1..=16).contains(&number).then_some(FaultKind(number))
    }

    /// Its number, from 1 to 16, as `docs/FORMAT.md` has them.
    pub fn number(self) -> u8 {
        self.0
    }

    /// What it says, in a few words.
    pub fn meaning(self) -> &'static str {
        FAULTS[usize::from(self.0) - 1]
    }
}

impl fmt::Display for FaultKind {
    fn fmt(&self, f: &mut fmt::Formatter<'_>) -> fmt::Result {
        write!(f, "fault {}: {}", self.0, self.meaning())
    }
}

/// Why a call has no answer. After each of them the value that was called can be called again.
#[derive(Clone, Debug, PartialEq, Eq)]
#[non_exhaustive]
pub enum Error {
    /// The text has a fault: its first faulty line, from 1.
    Text {
        /// The line of the text, counted from 1.
        line: u32,
        /// What is wrong with it.
        kind: FaultKind,
    },
    /// The question has a fault.
    Question(FaultKind),
    /// The line asks nothing: it is a declaration, a check, a comment or empty. It has no fault, but of a trait or an impl with types that is
    /// not said.
    NotAQuery,
    /// The question holds a line feed before its end.
    SeveralLines,
    /// Text and question together are longer than a text may be, 67,108,864 bytes.
    TooLong,
    /// The text declares no crate of that name.
    NoSuchCrate,
    /// The context has no term, or no obligation, of that number: it is one of another context, or a rollback took it.
    NoSuchTerm,
    /// No solution of all that was asked makes the terms equal.
    NoSolution,
    /// The crate sees no struct, or no trait, of that name.
    NoSuchName,
    /// The terms are not those that are taken: they are more, fewer, or of other kinds.
    WrongTerms,
    /// A request for memory was refused, or no thread could be started.
    Memory,
    /// A table of terms, of goals or of answers was full.
    Full,
}

impl fmt::Display for Error {
    fn fmt(&self, f: &mut fmt::Formatter<'_>) -> fmt::Result {
        match self {
            Error::Text { line, kind } => write!(f, "line {line}: {kind}"),
            Error::Question(kind) => write!(f, "the question has {kind}"),
            Error::NotAQuery => f.write_str("the line asks nothing"),
            Error::SeveralLines => f.write_str("the question is several lines"),
            Error::TooLong => f.write_str("text and question are longer than 67,108,864 bytes"),
            Error::NoSuchCrate => f.write_str("the text declares no such crate"),
            Error::NoSuchTerm => f.write_str("the context has no such term or obligation"),
            Error::NoSolution => f.write_str("no solution makes the terms equal"),
            Error::NoSuchName => f.write_str("the crate sees no struct or trait of that name"),
            Error::WrongTerms => {
                f.write_str("other terms are taken: more, fewer, or of other kinds")
            }
            Error::Memory => f.write_str("out of memory"),
            Error::Full => f.write_str("a table is full"),
        }
    }
}

impl error::Error for Error {}
