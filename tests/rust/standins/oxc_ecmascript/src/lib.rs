//! Stand-in: the name of a property. For one of the host's literals it is the name that the tape gives.

use oxc_ast::ast::{ObjectPropertyKind, PropertyKey};
use oxc_span::Span;

pub trait PropName {
    fn prop_name(&self) -> Option<(&str, Span)>;
}

impl PropName for ObjectPropertyKind<'_> {
    fn prop_name(&self) -> Option<(&str, Span)> {
        let ObjectPropertyKind::ObjectProperty(property) = self else { return None };
        match &property.key {
            PropertyKey::StaticIdentifier(name) => Some((&*name.name, name.span)),
            PropertyKey::StringLiteral(literal) => Some((&*literal.value.0, literal.span)),
            PropertyKey::HostNamed(name) => Some((&**name, property.span)),
            PropertyKey::HostUnnamed => None,
        }
    }
}
