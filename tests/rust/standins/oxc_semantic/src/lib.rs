//! Stand-in: names only.

pub use oxc_syntax::reference::ReferenceFlags;
