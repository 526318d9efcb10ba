//! Stand-in: a span is two numbers. In trees that the bridge makes, `start` numbers the node; in comments it is an offset.

#[derive(Clone, Copy, Debug, Default, PartialEq, Eq)]
pub struct Span {
    pub start: u32,
    pub end: u32,
}

pub const SPAN: Span = Span { start: 0, end: 0 };

impl Span {
    pub const fn new(start: u32, end: u32) -> Self {
        Self { start, end }
    }

    pub fn is_unspanned(self) -> bool {
        self == SPAN
    }

    pub fn source_text(self, text: &str) -> &str {
        &text[self.start as usize..self.end as usize]
    }
}

#[derive(Clone, Copy, Debug, Default)]
pub struct SourceType {
    pub module: bool,
}

impl SourceType {
    pub fn is_module(self) -> bool {
        self.module
    }
}
