use std::error::Error;
use std::fmt;

/// Why an entry turned its input away. `at` is an offset: in the text for `NotUtf8` and `PragmaByte`, on the tape for all others. `Limit` is this crate's own:
/// `needed` bytes more would take a job's calls or notices beyond the limit that is set for them.
#[derive(Clone, Copy, Debug, PartialEq, Eq)]
pub enum Refusal {
    TooLong,
    NotUtf8 { at: usize },
    Command { at: usize },
    SpanOutside { at: usize },
    SpanCuts { at: usize },
    EmptyName { at: usize },
    PragmaByte { at: usize },
    Depth { at: usize },
    Reference { at: usize },
    Position { at: usize },
    Bindings,
    Space { needed: usize },
    NoticeSpace { needed: usize },
    Forged,
    Limit { needed: usize, limit: usize },
}

impl Refusal {
    // What an entry's number and figure say.
    pub(crate) fn told(number: u8, figure: usize) -> Result<(), Refusal> {
        Err(match number {
            0 => return Ok(()),
            1 => Refusal::TooLong,
            2 => Refusal::NotUtf8 { at: figure },
            3 => Refusal::Command { at: figure },
            4 => Refusal::SpanOutside { at: figure },
            5 => Refusal::PragmaByte { at: figure },
            6 => Refusal::Depth { at: figure },
            7 => Refusal::Reference { at: figure },
            8 => Refusal::Position { at: figure },
            9 => Refusal::Bindings,
            10 => Refusal::Space { needed: figure },
            11 => Refusal::NoticeSpace { needed: figure },
            12 => Refusal::Forged,
            13 => Refusal::SpanCuts { at: figure },
            14 => Refusal::EmptyName { at: figure },
            _ => unreachable!("the library has no refusal {number}"),
        })
    }

    /// The number of the specification, 1 to 14; that of a target without space for `Limit`.
    pub fn number(self) -> u8 {
        match self {
            Refusal::TooLong => 1,
            Refusal::NotUtf8 { .. } => 2,
            Refusal::Command { .. } => 3,
            Refusal::SpanOutside { .. } => 4,
            Refusal::PragmaByte { .. } => 5,
            Refusal::Depth { .. } => 6,
            Refusal::Reference { .. } => 7,
            Refusal::Position { .. } => 8,
            Refusal::Bindings => 9,
            Refusal::Space { .. } | Refusal::Limit { .. } => 10,
            Refusal::NoticeSpace { .. } => 11,
            Refusal::Forged => 12,
            Refusal::SpanCuts { .. } => 13,
            Refusal::EmptyName { .. } => 14,
        }
    }
}

impl fmt::Display for Refusal {
    fn fmt(&self, f: &mut fmt::Formatter<'_>) -> fmt::Result {
        match self {
            Refusal::TooLong => write!(f, "the text or the tape is longer than 65,535 bytes"),
            Refusal::NotUtf8 { at } => write!(f, "the text is not UTF-8: an ill-formed sequence begins at byte {at}"),
            Refusal::Command { at } => write!(f, "the tape has a command or an operand that may not stand at byte {at}, or ends there"),
            Refusal::SpanOutside { at } => write!(f, "the command at byte {at} of the tape has a span that ends beyond the text"),
            Refusal::SpanCuts { at } => {
                write!(f, "the command at byte {at} of the tape has a span that begins or ends within a character of the text")
            }
            Refusal::EmptyName { at } => write!(f, "the command at byte {at} of the tape has an empty name"),
            Refusal::PragmaByte { at } => write!(f, "the pragma in force has a character beyond ASCII at byte {at} of the text"),
            Refusal::Depth { at } => write!(f, "elements and fragments are nested deeper than 64 levels at byte {at} of the tape"),
            Refusal::Reference { at } => {
                write!(f, "the command at byte {at} of the tape has a character reference in a string or a text; references must be decoded before")
            }
            Refusal::Position { at } => write!(f, "the command at byte {at} of the tape has a line or column of 4,294,967,295"),
            Refusal::Bindings => write!(f, "the job needs more than 8 bindings"),
            Refusal::Space { needed } => write!(f, "there is no room for the {needed} bytes to be written"),
            Refusal::NoticeSpace { needed } => write!(f, "there is no room for the {needed} bytes of notices"),
            Refusal::Forged => write!(f, "the state is not one that this job and this text can have"),
            Refusal::Limit { needed, limit } => {
                write!(f, "{needed} bytes more would go beyond the limit of {limit} bytes that is set for this job's calls or notices")
            }
        }
    }
}

impl Error for Refusal {}

/// Which root of several was turned away, counted from 0, and why. Those before it are lowered.
#[derive(Clone, Copy, Debug, PartialEq, Eq)]
pub struct RootRefusal {
    pub index: usize,
    pub refusal: Refusal,
}

impl fmt::Display for RootRefusal {
    fn fmt(&self, f: &mut fmt::Formatter<'_>) -> fmt::Result {
        write!(f, "root {}: {}", self.index, self.refusal)
    }
}

impl Error for RootRefusal {
    fn source(&self) -> Option<&(dyn Error + 'static)> {
        Some(&self.refusal)
    }
}

/// Which part of a whole job was turned away, and why.
#[derive(Clone, Copy, Debug, PartialEq, Eq)]
pub enum JobRefusal {
    Opening(Refusal),
    Root(RootRefusal),
    Records(Refusal),
}

impl fmt::Display for JobRefusal {
    fn fmt(&self, f: &mut fmt::Formatter<'_>) -> fmt::Result {
        match self {
            JobRefusal::Opening(refusal) => write!(f, "opening: {refusal}"),
            JobRefusal::Root(refusal) => refusal.fmt(f),
            JobRefusal::Records(refusal) => write!(f, "records: {refusal}"),
        }
    }
}

impl Error for JobRefusal {
    fn source(&self) -> Option<&(dyn Error + 'static)> {
        match self {
            JobRefusal::Opening(refusal) | JobRefusal::Records(refusal) => Some(refusal),
            JobRefusal::Root(refusal) => refusal.source(),
        }
    }
}
