/// A part of the text.
#[derive(Clone, Copy, Debug, PartialEq, Eq)]
pub struct Span {
    pub start: u16,
    pub len: u16,
}

/// The options of a job. Strings and comments are parts of the text.
#[derive(Clone, Debug, Default, PartialEq, Eq)]
pub struct Settings {
    pub jsx_plugin: bool,
    pub self_plugin: bool,
    pub source_plugin: bool,
    pub classic: bool,
    pub development: bool,
    pub throw_if_namespace: bool,
    pub pure: bool,
    pub module: bool,
    pub pragma: Option<Span>,
    pub pragma_frag: Option<Span>,
    pub import_source: Option<Span>,
    /// The contents of the comments, in order.
    pub comments: Vec<Span>,
}

impl Settings {
    /// The opening tape.
    pub fn tape(&self) -> Vec<u8> {
        let flags = [
            self.jsx_plugin,
            self.self_plugin,
            self.source_plugin,
            self.classic,
            self.development,
            self.throw_if_namespace,
            self.pure,
            self.module,
        ];
        let byte = flags.iter().rev().fold(0, |byte, &flag| byte << 1 | flag as u8);
        let mut tape = vec![0x61, byte, 0];
        let strings = [(0x62, self.pragma), (0x63, self.pragma_frag), (0x64, self.import_source)];
        for (command, span) in strings {
            put(&mut tape, command, span);
        }
        for &comment in &self.comments {
            put(&mut tape, 0x60, Some(comment));
        }
        tape
    }
}

fn put(tape: &mut Vec<u8>, command: u8, span: Option<Span>) {
    if let Some(span) = span {
        tape.push(command);
        tape.extend_from_slice(&span.start.to_le_bytes());
        tape.extend_from_slice(&span.len.to_le_bytes());
    }
}
