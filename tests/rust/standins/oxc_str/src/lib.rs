//! Stand-in: strings that remember where each of their pieces came from, so that a span of the lent text is known
//! by its address and never by its bytes.

use std::{fmt, hash, ops::Deref};

use oxc_allocator::GetAllocator;

/// Where a piece was read, and its length. Address 0: a character that was pushed by itself.
pub type Piece = (usize, usize);

fn piece_of(text: &str) -> Piece {
    (text.as_ptr() as usize, text.len())
}

#[derive(Clone, Copy)]
pub struct Str<'a> {
    text: &'a str,
    /// `None`: a single piece, the text itself.
    pieces: Option<&'a [Piece]>,
}

/// The crate's `Ident` is a `Str` with its hash beside it. Hashes have no part in the files under test.
pub type Ident<'a> = Str<'a>;

impl<'a> Str<'a> {
    pub const fn new_const(text: &'a str) -> Self {
        Self { text, pieces: None }
    }

    pub fn as_str(&self) -> &'a str {
        self.text
    }

    pub fn from_str_in<S: Pieces + ?Sized, A: GetAllocator<'a>>(source: &S, allocator: &A) -> Self {
        let allocator = allocator.allocator();
        Self {
            text: allocator.keep_str(source.whole()),
            pieces: Some(allocator.keep_list(source.pieces())),
        }
    }

    pub fn from_strs_array_in<const N: usize, A: GetAllocator<'a>>(
        strings: [&str; N],
        allocator: &A,
    ) -> Self {
        let allocator = allocator.allocator();
        Self {
            text: allocator.keep_str(&strings.concat()),
            pieces: Some(allocator.keep_list(strings.iter().map(|s| piece_of(s)).collect())),
        }
    }

    /// Each piece: where it was read, and what it says.
    pub fn pieces(&self) -> Vec<(Piece, &'a str)> {
        match self.pieces {
            None => vec![(piece_of(self.text), self.text)],
            Some(pieces) => {
                let mut start = 0;
                pieces
                    .iter()
                    .map(|&(address, len)| {
                        let text = &self.text[start..start + len];
                        start += len;
                        ((address, len), text)
                    })
                    .collect()
            }
        }
    }
}

/// What `from_str_in` may be given.
pub trait Pieces {
    fn whole(&self) -> &str;
    fn pieces(&self) -> Vec<Piece> {
        vec![piece_of(self.whole())]
    }
}

impl Pieces for str {
    fn whole(&self) -> &str {
        self
    }
}

impl Pieces for &str {
    fn whole(&self) -> &str {
        self
    }
}

impl Pieces for String {
    fn whole(&self) -> &str {
        self
    }
}

impl Pieces for std::borrow::Cow<'_, str> {
    fn whole(&self) -> &str {
        self
    }
}

/// A made string whose pieces are still known: what `JSXNamespacedName::to_string` gives here.
pub struct Joined {
    pub text: String,
    pub pieces: Vec<Piece>,
}

impl Joined {
    pub fn of(strings: &[&str]) -> Self {
        Self { text: strings.concat(), pieces: strings.iter().map(|s| piece_of(s)).collect() }
    }
}

impl Pieces for Joined {
    fn whole(&self) -> &str {
        &self.text
    }
    fn pieces(&self) -> Vec<Piece> {
        self.pieces.clone()
    }
}

impl<'a> From<&'a str> for Str<'a> {
    fn from(text: &'a str) -> Self {
        Self::new_const(text)
    }
}

impl Deref for Str<'_> {
    type Target = str;
    fn deref(&self) -> &str {
        self.text
    }
}

impl<'b> PartialEq<Str<'b>> for Str<'_> {
    fn eq(&self, other: &Str<'b>) -> bool {
        self.text == other.text
    }
}

impl PartialEq<str> for Str<'_> {
    fn eq(&self, other: &str) -> bool {
        self.text == other
    }
}

impl PartialEq<&str> for Str<'_> {
    fn eq(&self, other: &&str) -> bool {
        self.text == *other
    }
}

impl Eq for Str<'_> {}

impl hash::Hash for Str<'_> {
    fn hash<H: hash::Hasher>(&self, state: &mut H) {
        self.text.hash(state);
    }
}

impl fmt::Display for Str<'_> {
    fn fmt(&self, f: &mut fmt::Formatter<'_>) -> fmt::Result {
        f.write_str(self.text)
    }
}

impl fmt::Debug for Str<'_> {
    fn fmt(&self, f: &mut fmt::Formatter<'_>) -> fmt::Result {
        fmt::Debug::fmt(self.text, f)
    }
}

/// The crate's `JSStr` may also hold lone surrogates. Without character references none can arise.
#[derive(Clone, Copy, Debug)]
pub struct JSStr<'a>(pub Str<'a>);

impl<'a> JSStr<'a> {
    pub fn as_str(&self) -> Option<&'a str> {
        Some(self.0.as_str())
    }
}

impl<'a> From<Str<'a>> for JSStr<'a> {
    fn from(text: Str<'a>) -> Self {
        Self(text)
    }
}

impl<'a> From<&'a str> for JSStr<'a> {
    fn from(text: &'a str) -> Self {
        Self(Str::from(text))
    }
}

pub struct JSStrBuilder<'a> {
    allocator: &'a oxc_allocator::Allocator,
    text: String,
    pieces: Vec<Piece>,
}

impl<'a> JSStrBuilder<'a> {
    pub fn with_capacity_in<A: GetAllocator<'a>>(capacity: usize, allocator: &A) -> Self {
        Self {
            allocator: allocator.allocator(),
            text: String::with_capacity(capacity),
            pieces: Vec::new(),
        }
    }

    pub fn push(&mut self, character: char) {
        self.text.push(character);
        self.pieces.push((0, character.len_utf8()));
    }

    pub fn push_str(&mut self, text: &str) {
        self.text.push_str(text);
        self.pieces.push(piece_of(text));
    }

    pub fn into_js_str(self) -> JSStr<'a> {
        JSStr(Str {
            text: self.allocator.keep_str(&self.text),
            pieces: Some(self.allocator.keep_list(self.pieces)),
        })
    }
}

#[macro_export]
macro_rules! static_ident {
    ($text:literal) => {
        $crate::Ident::new_const($text)
    };
}
