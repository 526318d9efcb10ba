use crate::Span;

/// What a job tells without refusing it. The opening's notices come first, then those of its roots.
#[derive(Clone, Copy, Debug, PartialEq, Eq)]
pub enum Notice {
    /// C0: an attribute `key` without a value, by its name.
    ValuelessKey(Span),
    /// C1: a tag with a namespace where the settings forbid it, by both names.
    NamespacedTag(Span, Span),
    /// C2: the first part of a classic job's pragma that is not valid, from its opening: the pragma's before the fragment pragma's. It is empty where a name is missing.
    InvalidPragma(Span),
}

impl Notice {
    /// The notices on a tape, as `Job::notices`, `Lowered::notices` and `Output::notices` have them. A tape that this library didn't write ends where no whole
    /// notice follows.
    pub fn read_all(mut tape: &[u8]) -> Vec<Notice> {
        let mut notices = Vec::new();
        while let Some((notice, rest)) = Notice::read(tape) {
            notices.push(notice);
            tape = rest;
        }
        notices
    }

    // The first notice, and the tape behind it.
    fn read(tape: &[u8]) -> Option<(Notice, &[u8])> {
        let (&code, rest) = tape.split_first()?;
        let (first, rest) = read_span(rest)?;
        match code {
            0xc0 => Some((Notice::ValuelessKey(first), rest)),
            0xc1 => {
                let (second, rest) = read_span(rest)?;
                Some((Notice::NamespacedTag(first, second), rest))
            }
            0xc2 => Some((Notice::InvalidPragma(first), rest)),
            _ => None,
        }
    }

    /// The notice in words, over the text of its job.
    pub fn words(&self, text: &[u8]) -> String {
        match *self {
            Notice::ValuelessKey(key) => format!(
                "the attribute `{}` at byte {} of the text has no value and counts as true; give it one, as in key={{id}}",
                said(text, key),
                key.start
            ),
            Notice::NamespacedTag(namespace, name) => format!(
                "the tag `{}:{}` at byte {} of the text has a namespace, which React doesn't know",
                said(text, namespace),
                said(text, name),
                namespace.start
            ),
            Notice::InvalidPragma(part) => invalid_pragma(&said(text, part), part.start),
        }
    }
}

fn read_span(tape: &[u8]) -> Option<(Span, &[u8])> {
    let (&[a, b, c, d], rest) = tape.split_first_chunk()?;
    Some((Span { start: u16::from_le_bytes([a, b]), len: u16::from_le_bytes([c, d]) }, rest))
}

// The part of the text; empty where a tape of another text names one that is not there.
fn said(text: &[u8], span: Span) -> String {
    let (start, len) = (usize::from(span.start), usize::from(span.len));
    String::from_utf8_lossy(text.get(start..start + len).unwrap_or_default()).into_owned()
}

// The tape has only the part that fails. A tail may have any name, so a name that fails is a root.
fn invalid_pragma(part: &str, at: u16) -> String {
    let why = match part {
        "" => format!("a pragma lacks a name at byte {at} of the text: it has a dot too many, or is empty"),
        "import" => format!("a pragma begins with `import` at byte {at} of the text, which must be followed by `.meta`"),
        _ if is_name(part) => format!("a pragma begins with `{part}` at byte {at} of the text, which is a reserved word"),
        _ => format!("the part `{part}` of a pragma at byte {at} of the text is not a name"),
    };
    format!("{why}; React's own is used in its place: React.createElement, or React.Fragment if it is the pragma of fragments")
}

fn is_name(part: &str) -> bool {
    let letter = |c: char| c.is_ascii_alphabetic() || c == '$' || c == '_';
    part.starts_with(letter) && part.chars().all(|c| letter(c) || c.is_ascii_digit())
}
