//! Stand-in. The character tests and the set of words are written from ECMA-262, not from the crate.

pub mod identifier {
    /// ECMA-262, WhiteSpace: TAB, VT, FF, ZWNBSP and category Zs.
    pub fn is_white_space_single_line(c: char) -> bool {
        matches!(
            c,
            '\t' | '\u{b}' | '\u{c}' | ' ' | '\u{a0}' | '\u{1680}' | '\u{2000}'
                ..='\u{200a}' | '\u{202f}' | '\u{205f}' | '\u{3000}' | '\u{feff}'
        )
    }

    /// ECMA-262, IdentifierName, its ASCII part without escapes. Pragmas with other characters are refused before.
    pub fn is_identifier_name(name: &str) -> bool {
        let mut bytes = name.bytes();
        bytes.next().is_some_and(|b| b.is_ascii_alphabetic() || matches!(b, b'$' | b'_'))
            && bytes.all(|b| b.is_ascii_alphanumeric() || matches!(b, b'$' | b'_'))
    }
}

pub mod keyword {
    /// ECMA-262, ReservedWord.
    pub fn is_reserved_keyword(word: &str) -> bool {
        matches!(
            word,
            "await"
                | "break"
                | "case"
                | "catch"
                | "class"
                | "const"
                | "continue"
                | "debugger"
                | "default"
                | "delete"
                | "do"
                | "else"
                | "enum"
                | "export"
                | "extends"
                | "false"
                | "finally"
                | "for"
                | "function"
                | "if"
                | "import"
                | "in"
                | "instanceof"
                | "new"
                | "null"
                | "return"
                | "super"
                | "switch"
                | "this"
                | "throw"
                | "true"
                | "try"
                | "typeof"
                | "var"
                | "void"
                | "while"
                | "with"
                | "yield"
        )
    }
}

pub mod line_terminator {
    /// ECMA-262, LineTerminator.
    pub fn is_line_terminator(c: char) -> bool {
        matches!(c, '\n' | '\r' | '\u{2028}' | '\u{2029}')
    }
}

pub mod number {
    #[derive(Clone, Copy, Debug)]
    pub enum NumberBase {
        Decimal,
    }
}

pub mod reference {
    #[derive(Clone, Copy, Debug, PartialEq, Eq)]
    pub struct ReferenceId(pub u32);

    #[derive(Clone, Copy, Debug)]
    pub struct ReferenceFlags;

    #[allow(non_upper_case_globals)]
    impl ReferenceFlags {
        pub const Read: Self = Self;

        pub fn read() -> Self {
            Self
        }
    }
}

pub mod symbol {
    #[derive(Clone, Copy, Debug, PartialEq, Eq)]
    pub struct SymbolId(pub u32);

    #[derive(Clone, Copy, Debug)]
    pub enum SymbolFlags {
        FunctionScopedVariable,
        Import,
    }
}

pub mod xml_entities {
    use oxc_allocator::Allocator;
    use oxc_str::JSStrBuilder;

    /// Whether a character reference opens in the text, by change request 1. The signs decide, not what they could be decoded to.
    pub fn has_reference(text: &str) -> bool {
        text.match_indices('&').any(|(at, _)| opens(&text[at + 1..]))
    }

    /// Whether what stands behind an ampersand makes it one: up to the first semicolon a name, or a number by its digits.
    fn opens(behind: &str) -> bool {
        let Some((inner, _)) = behind.split_once(';') else { return false };
        let some = |digits: &str, test: fn(char) -> bool| !digits.is_empty() && digits.chars().all(test);
        let unsigned = |number: &str| number.strip_prefix('+').unwrap_or(number).to_owned();
        match inner.strip_prefix('#') {
            None => some(inner, |c| c.is_ascii_alphanumeric()),
            Some(number) => match number.strip_prefix('x') {
                None => some(&unsigned(number), |c| c.is_ascii_digit()),
                Some(number) => some(&unsigned(number), |c| c.is_ascii_hexdigit()),
            },
        }
    }

    /// What the crate's function does where there is nothing to decode: the text, with its ampersands, joins an accumulator that is there.
    pub fn decode_entities<'a>(
        text: &str,
        accumulator: &mut Option<JSStrBuilder<'a>>,
        _text_len: usize,
        _allocator: &'a Allocator,
    ) {
        assert!(!has_reference(text), "the bridge lets no reference through");
        if let Some(accumulator) = accumulator {
            accumulator.push_str(text);
        }
    }
}
