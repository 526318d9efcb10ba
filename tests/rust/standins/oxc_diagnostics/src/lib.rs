//! Stand-in: a diagnostic keeps its message and its label.

use oxc_span::Span;

#[derive(Debug)]
pub struct OxcDiagnostic {
    pub message: String,
    pub label: Option<Span>,
}

impl OxcDiagnostic {
    pub fn warn(message: impl Into<String>) -> Self {
        Self { message: message.into(), label: None }
    }

    pub fn with_help(self, _help: impl Into<String>) -> Self {
        self
    }

    pub fn with_label(mut self, label: Span) -> Self {
        self.label = Some(label);
        self
    }
}
