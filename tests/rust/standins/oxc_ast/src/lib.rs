//! Stand-in: the nodes that the files under test name, with the functions that make them. Each only stores what it is given.

pub mod ast;
pub mod builder;

use oxc_span::Span;

/// A comment, given by its content.
pub struct Comment {
    pub content: Span,
}

impl Comment {
    pub fn content_span(&self) -> Span {
        self.content
    }
}

/// The crate repeats every variant of `Expression` in the enums that extend it. Here they have one variant for all of them.
#[macro_export]
macro_rules! match_expression {
    ($enum:ident) => {
        $enum::Expression(_)
    };
}
