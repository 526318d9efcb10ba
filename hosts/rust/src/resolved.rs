use crate::{Settings, Span};

/// How many bytes `jsx_settings` writes.
pub(crate) const SETTINGS_SIZE: usize = 46;

/// How a job names what its calls need: by imports, by requires, or by pragmas.
#[derive(Clone, Copy, Debug, PartialEq, Eq)]
pub enum Mode {
    Module,
    Script,
    Classic,
}

/// What a pragma of a classic job begins with.
#[derive(Clone, Copy, Debug, PartialEq, Eq)]
pub enum PragmaRoot {
    /// Absent or not valid: `React.createElement`, and for the fragment pragma `React.Fragment`.
    Default,
    This,
    ImportMeta,
    Identifier,
}

/// A pragma of a classic job: its root, and how many names follow it. The names are those of its span.
#[derive(Clone, Copy, Debug, PartialEq, Eq)]
pub struct PragmaForm {
    pub root: PragmaRoot,
    pub members: u64,
}

/// The settings of a job as they stand after its comments: what 98, B0 and a call's A0 rest on.
#[derive(Clone, Debug, PartialEq, Eq)]
pub struct ResolvedSettings {
    /// The flags and the three strings; no comments.
    pub options: Settings,
    /// The pragma and the fragment pragma that comments set for TypeScript.
    pub ts_pragma: Option<Span>,
    pub ts_pragma_frag: Option<Span>,
    pub mode: Mode,
    /// Whether calls are marked as pure.
    pub pure: bool,
    pub pragma: PragmaForm,
    pub pragma_frag: PragmaForm,
    import_source: String,
    runtime_source: String,
}

impl ResolvedSettings {
    /// What B0 00 names.
    pub fn import_source(&self) -> &str {
        &self.import_source
    }

    /// What B0 01 names.
    pub fn runtime_source(&self) -> &str {
        &self.runtime_source
    }

    // From the bytes of `jsx_settings` (hosts/jsxlib.h has their places) and the texts of both sources.
    pub(crate) fn read(
        bytes: &[u8; SETTINGS_SIZE],
        import_source: String,
        runtime_source: String,
    ) -> ResolvedSettings {
        let flag = |bit: u8| bytes[0] >> bit & 1 == 1;
        ResolvedSettings {
            options: Settings {
                jsx_plugin: flag(0),
                self_plugin: flag(1),
                source_plugin: flag(2),
                classic: flag(3),
                development: flag(4),
                throw_if_namespace: flag(5),
                pure: flag(6),
                module: flag(7),
                pragma: span_at(bytes, 1),
                pragma_frag: span_at(bytes, 6),
                import_source: span_at(bytes, 11),
                comments: Vec::new(),
            },
            ts_pragma: span_at(bytes, 16),
            ts_pragma_frag: span_at(bytes, 21),
            pure: bytes[26] == 1,
            mode: match bytes[27] {
                0 => Mode::Module,
                1 => Mode::Script,
                _ => Mode::Classic,
            },
            pragma: form_at(bytes, 28),
            pragma_frag: form_at(bytes, 37),
            import_source,
            runtime_source,
        }
    }
}

fn span_at(bytes: &[u8; SETTINGS_SIZE], at: usize) -> Option<Span> {
    let number = |at: usize| u16::from_le_bytes([bytes[at], bytes[at + 1]]);
    (bytes[at] == 1).then(|| Span { start: number(at + 1), len: number(at + 3) })
}

fn form_at(bytes: &[u8; SETTINGS_SIZE], at: usize) -> PragmaForm {
    let root = match bytes[at] {
        0 => PragmaRoot::Default,
        1 => PragmaRoot::This,
        2 => PragmaRoot::ImportMeta,
        _ => PragmaRoot::Identifier,
    };
    let members = (1..9).rev().fold(0, |members, i| members << 8 | u64::from(bytes[at + i]));
    PragmaForm { root, members }
}
