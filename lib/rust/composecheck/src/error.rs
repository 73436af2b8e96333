//! Why there is no table.
use composecheck_sys as sys;
use std::fmt;

/// What is refused. `docs/LIBRARY.md` lists the codes of each.
#[derive(Clone, Copy, Debug, PartialEq, Eq)]
#[non_exhaustive]
pub enum Part {
    /// The names of keysyms.
    Names,
    /// The sources together: their number, their size, or two of one name.
    Bundle,
    /// A source.
    Source,
    /// A sequence that is a prefix of another one.
    Overlap,
    /// A table with too many nodes.
    Nodes,
    /// Memory.
    Memory,
    /// A repertoire.
    Repertoire,
    /// A certificate's form.
    Certificate,
    /// A condition that a valid certificate meets.
    Condition,
    /// The files of a table.
    Search,
    /// The bytes of a table.
    Table,
    /// A part that a later library has.
    Other(u32),
}

impl Part {
    fn of(number: u32) -> Part {
        match number {
            sys::COMPOSECHECK_NAMES => Part::Names,
            sys::COMPOSECHECK_BUNDLE => Part::Bundle,
            sys::COMPOSECHECK_SOURCE => Part::Source,
            sys::COMPOSECHECK_OVERLAP => Part::Overlap,
            sys::COMPOSECHECK_NODES => Part::Nodes,
            sys::COMPOSECHECK_MEMORY => Part::Memory,
            sys::COMPOSECHECK_REPERTOIRE => Part::Repertoire,
            sys::COMPOSECHECK_CERTIFICATE => Part::Certificate,
            sys::COMPOSECHECK_CONDITION => Part::Condition,
            sys::COMPOSECHECK_SEARCH => Part::Search,
            sys::COMPOSECHECK_TABLE => Part::Table,
            other => Part::Other(other),
        }
    }
}

/// Where and why something is refused. Sources count from 0, lines and columns (in characters) from 1; what a fault doesn't have is 0.
#[derive(Clone, Debug, PartialEq, Eq)]
pub struct Fault {
    pub part: Part,
    pub code: u32,
    pub lexical: u32,
    /// A keysym or a character.
    pub value: u32,
    pub source: u64,
    pub line: u64,
    pub column: u64,
    /// An offset in bytes, or the index of an event, a pair or a node.
    pub at: u64,
    /// A sentence that says it, with file, line and column where there are any.
    pub text: String,
}

impl Fault {
    pub(crate) fn of(fault: &sys::composecheck_fault, text: String) -> Fault {
        Fault {
            part: Part::of(fault.part),
            code: fault.code,
            lexical: fault.lexical,
            value: fault.value,
            source: fault.source,
            line: fault.line,
            column: fault.column,
            at: fault.at,
            text,
        }
    }
}

impl fmt::Display for Fault {
    fn fmt(&self, f: &mut fmt::Formatter) -> fmt::Result {
        if self.text.is_empty() {
            write!(f, "{:?} {}", self.part, self.code)
        } else {
            f.write_str(&self.text)
        }
    }
}

/// Why there is no table.
#[derive(Clone, Debug, PartialEq, Eq)]
#[non_exhaustive]
pub enum Error {
    /// A path, a name or a locale has a zero byte.
    ZeroByte,
    /// Memory was refused.
    OutOfMemory,
    /// What was given is refused.
    Refused(Box<Fault>),
}

impl Error {
    pub(crate) fn of(fault: &sys::composecheck_fault, text: String) -> Error {
        if fault.part == sys::COMPOSECHECK_MEMORY {
            Error::OutOfMemory
        } else {
            Error::Refused(Box::new(Fault::of(fault, text)))
        }
    }
}

impl fmt::Display for Error {
    fn fmt(&self, f: &mut fmt::Formatter) -> fmt::Result {
        match self {
            Error::ZeroByte => f.write_str("a path, a name or a locale has a zero byte"),
            Error::OutOfMemory => f.write_str("out of memory"),
            Error::Refused(fault) => fault.fmt(f),
        }
    }
}

impl std::error::Error for Error {}

impl From<std::ffi::NulError> for Error {
    fn from(_: std::ffi::NulError) -> Error {
        Error::ZeroByte
    }
}
