//! Lowered trees, diagnostics and the import store to call, notice and record tapes. Spans are known by address.

use oxc_ast::ast::*;
use oxc_diagnostics::OxcDiagnostic;
use oxc_str::{JSStr, Piece, Str};
use oxc_syntax::symbol::SymbolId;

use crate::{
    JsxOptions,
    reader::{Node, Nodes},
};

/// What a tree held that no tape can say.
pub type Written = Result<(), String>;

fn odd<T>(what: &str) -> Result<T, String> {
    Err(what.to_string())
}

/// What the writer must know beside the tree.
pub struct Context {
    /// Where the lent text stands.
    pub base: usize,
    pub len: usize,
    pub classic: bool,
    pub module: bool,
    pub development: bool,
    /// Where the two pragmas stand that `JsxImpl` was given, and what they say.
    pub pragmas: [Option<(usize, String)>; 2],
    /// Leave out A1 and A2 of fragments' automatic calls.
    pub plain_fragments: bool,
}

/// The five names of imports.
const NAMES: [&str; 5] = ["Fragment", "createElement", "jsx", "jsxs", "jsxDEV"];

impl Context {
    pub fn new(options: &JsxOptions, module: bool, text: &str, plain_fragments: bool) -> Self {
        let place = |pragma: &Option<String>| {
            pragma.as_ref().map(|pragma| (pragma.as_ptr() as usize, pragma.clone()))
        };
        Self {
            base: text.as_ptr() as usize,
            len: text.len(),
            classic: options.runtime.is_classic(),
            module,
            development: options.development,
            pragmas: [place(&options.pragma), place(&options.pragma_frag)],
            plain_fragments,
        }
    }

    /// The span, if these bytes were read from the lent text. Outside it, nothing stands at these addresses.
    fn span_of(&self, (address, len): Piece) -> Option<(u16, u16)> {
        let start = address.checked_sub(self.base)?;
        (start + len <= self.len).then(|| (start as u16, len as u16))
    }

    fn only_span_of(&self, text: &Str<'_>) -> Option<(u16, u16)> {
        match text.pieces()[..] {
            [(piece, _)] => self.span_of(piece),
            _ => None,
        }
    }

    /// The form of pragma `which` (0 call, 1 fragment), if this expression was made from it.
    pub fn pragma_form(&self, which: usize, expression: &Expression<'_>) -> Option<(Form, usize)> {
        let mut tail = Vec::new();
        let mut object = expression;
        while let Expression::StaticMemberExpression(member) = object {
            tail.insert(0, member.property.name);
            object = &member.object;
        }
        let places = |names: &[Str<'_>]| -> Vec<Piece> {
            names.iter().flat_map(Str::pieces).map(|(piece, _)| piece).collect()
        };
        if let Some((address, pragma)) = &self.pragmas[which] {
            let mut start = *address;
            let mut parts = Vec::new();
            for part in pragma.split('.') {
                parts.push((start, part.len()));
                start += part.len() + 1;
            }
            match object {
                Expression::Identifier(root) if root.symbol_id.is_none() => {
                    let mut names = vec![root.name];
                    names.extend(&tail);
                    if places(&names) == parts {
                        return Some((Form::Identifier, tail.len()));
                    }
                }
                Expression::ThisExpression(_) => {
                    if pragma.split('.').next() == Some("this") && places(&tail) == parts[1..] {
                        return Some((Form::This, tail.len()));
                    }
                }
                Expression::ImportMeta => {
                    if pragma.split('.').take(2).eq(["import", "meta"])
                        && places(&tail) == parts[2..]
                    {
                        return Some((Form::ImportMeta, tail.len()));
                    }
                }
                _ => {}
            }
        }
        let made = |name: &Str<'_>| {
            name.pieces()[..] == [((name.as_str().as_ptr() as usize, name.len()), name.as_str())]
        };
        let Expression::Identifier(root) = object else { return None };
        let default = ["createElement", "Fragment"][which];
        (root.symbol_id.is_none()
            && root.name == "React"
            && made(&root.name)
            && matches!(tail[..], [name] if name == default && made(&name)))
        .then_some((Form::Default, 0))
    }
}

#[derive(Clone, Copy, Debug, PartialEq, Eq)]
pub enum Form {
    Default,
    Identifier,
    This,
    ImportMeta,
}

pub struct Calls<'c> {
    context: &'c Context,
    nodes: &'c Nodes,
    pub tape: Vec<u8>,
    /// Where a binding's number stands on the tape, and which binding it is.
    pub mentions: Vec<(usize, SymbolId)>,
    pub dropped_sources: usize,
    pub dropped_selves: usize,
}

impl<'c> Calls<'c> {
    pub fn new(context: &'c Context, nodes: &'c Nodes) -> Self {
        Self {
            context,
            nodes,
            tape: Vec::new(),
            mentions: Vec::new(),
            dropped_sources: 0,
            dropped_selves: 0,
        }
    }

    fn put_u16(&mut self, value: u16) {
        self.tape.extend(value.to_le_bytes());
    }

    fn put_span(&mut self, span: (u16, u16)) {
        self.put_u16(span.0);
        self.put_u16(span.1);
    }

    fn put_binding(&mut self, symbol: SymbolId) {
        self.mentions.push((self.tape.len(), symbol));
        self.tape.push(symbol.0 as u8);
    }

    pub fn expression(&mut self, expression: &Expression<'_>) -> Written {
        match expression {
            Expression::Host(e) => {
                self.tape.push(0x94);
                self.put_u16(*e);
            }
            Expression::BooleanLiteral(literal) => {
                self.tape.push(if literal.value { 0x90 } else { 0x91 });
            }
            Expression::StringLiteral(literal) => self.string(&literal.value)?,
            Expression::ThisExpression(_) => self.tape.push(0x93),
            Expression::Identifier(ident) => match ident.symbol_id {
                Some(symbol) => {
                    self.tape.push(0x96);
                    self.put_binding(symbol);
                }
                None => {
                    let Some(span) = self.context.only_span_of(&ident.name) else {
                        return odd("an identifier from elsewhere");
                    };
                    self.tape.push(0x97);
                    self.put_span(span);
                }
            },
            Expression::StaticMemberExpression(member) => {
                self.expression(&member.object)?;
                let property = &member.property.name;
                if let Some(span) = self.context.only_span_of(property) {
                    self.tape.push(0xa3);
                    self.put_span(span);
                } else if let Some(name) = NAMES.iter().position(|name| property == name) {
                    self.tape.extend([0x99, name as u8]);
                } else {
                    return odd("a property from elsewhere");
                }
            }
            Expression::CallExpression(call) => self.call(call)?,
            Expression::Taken
            | Expression::NullLiteral
            | Expression::NumericLiteral(_)
            | Expression::Void0
            | Expression::ImportMeta
            | Expression::ArrayExpression(_)
            | Expression::ObjectExpression(_)
            | Expression::JSXElement(_)
            | Expression::JSXFragment(_) => return odd("an expression in a strange place"),
        }
        Ok(())
    }

    fn string(&mut self, string: &JSStr<'_>) -> Written {
        self.tape.push(0x8a);
        for (piece, text) in string.0.pieces() {
            if let Some(span) = self.context.span_of(piece) {
                if span.1 != 0 {
                    self.tape.push(0x8b);
                    self.put_span(span);
                }
            } else {
                self.tape.push(match text {
                    " " => 0x8c,
                    ":" => 0x8e,
                    _ => return odd("a piece of a string from elsewhere"),
                });
            }
        }
        self.tape.push(0x8d);
        Ok(())
    }

    /// The spread of an expression that the host keeps, or of one of its literals.
    fn host_number(expression: &Expression<'_>) -> Option<u16> {
        match expression {
            Expression::Host(e) => Some(*e),
            Expression::ObjectExpression(object) => object.host,
            _ => None,
        }
    }

    fn spread(&mut self, command: u8, argument: &Expression<'_>) -> Written {
        let Some(e) = Self::host_number(argument) else { return odd("a spread of no host's") };
        self.tape.push(command);
        self.put_u16(e);
        Ok(())
    }

    fn call(&mut self, call: &CallExpression<'_>) -> Written {
        let is_fragment = match self.nodes.of(call.span) {
            Some(Node::Element) => false,
            Some(Node::Fragment) => true,
            _ => return odd("a call without its element"),
        };
        let mut arguments = Vec::new();
        for argument in &call.arguments {
            arguments.push(argument);
        }
        let [Argument::Expression(tag), Argument::Expression(second), rest @ ..] = &arguments[..]
        else {
            return odd("a call without tag or properties");
        };
        if self.is_classic_callee(&call.callee) {
            self.tape.extend([0x80, 0x00]);
            match second {
                Expression::NullLiteral => self.tape.push(0x88),
                Expression::ObjectExpression(object) if object.host.is_none() => {
                    self.object(object)?;
                }
                host => self.spread(0x89, host)?,
            }
            for argument in rest {
                match argument {
                    Argument::SpreadElement(spread) => self.spread(0x9c, &spread.argument)?,
                    Argument::Expression(expression) => self.expression(expression)?,
                }
            }
        } else {
            self.tape.extend([0x80, 0x01]);
            let Expression::ObjectExpression(object) = second else {
                return odd("properties that are no object");
            };
            if object.host.is_some() {
                return odd("a literal of the host's as properties");
            }
            self.object(object)?;
            self.rest_of_automatic(rest, is_fragment)?;
        }
        self.tape.push(0x9e);
        if is_fragment && self.context.classic {
            self.pragma(1, tag)?
        } else {
            self.expression(tag)?
        }
        self.tape.push(0x9f);
        if self.context.classic {
            self.pragma(0, &call.callee)?
        } else {
            self.expression(&call.callee)?
        }
        self.tape.extend([0xa0, u8::from(call.pure)]);
        Ok(())
    }

    /// The name stands in a script's callee itself, in a module in the import that the binding is of.
    fn is_classic_callee(&self, callee: &Expression<'_>) -> bool {
        self.context.classic
            || match callee {
                Expression::StaticMemberExpression(member) => {
                    member.property.name == "createElement"
                }
                Expression::Identifier(ident) => ident.name.starts_with("_createElement"),
                _ => false,
            }
    }

    fn pragma(&mut self, place: usize, expression: &Expression<'_>) -> Written {
        let found = [place, 1 - place]
            .into_iter()
            .find(|which| self.context.pragma_form(*which, expression).is_some());
        let Some(which) = found else { return odd("neither pragma") };
        self.tape.extend([0x98, which as u8]);
        Ok(())
    }

    fn rest_of_automatic(&mut self, rest: &[&Argument<'_>], is_fragment: bool) -> Written {
        let mut rest = rest
            .iter()
            .map(|argument| match argument {
                Argument::Expression(expression) => Ok(expression),
                Argument::SpreadElement(_) => odd("a spread argument of an automatic call"),
            })
            .collect::<Result<Vec<_>, _>>()?
            .into_iter()
            .peekable();
        if self.context.development {
            match rest.next() {
                Some(Expression::Void0) => self.tape.push(0x92),
                Some(key) => {
                    self.tape.push(0x9d);
                    self.expression(key)?;
                }
                None => return odd("no key in development"),
            }
            match rest.next() {
                Some(many @ Expression::BooleanLiteral(_)) => self.expression(many)?,
                _ => return odd("no word about static children in development"),
            }
        } else if let Some(key) = rest.next_if(|expression| {
            !matches!(expression, Expression::ThisExpression(_))
                && source_object(expression).is_none()
        }) {
            self.tape.push(0x9d);
            self.expression(key)?;
        }
        let drop = is_fragment && self.context.plain_fragments;
        if let Some(source) = rest.next_if(|expression| source_object(expression).is_some()) {
            if drop { self.dropped_sources += 1 } else { self.source(source)? }
        }
        if rest.next_if(|expression| matches!(expression, Expression::ThisExpression(_))).is_some()
        {
            if drop { self.dropped_selves += 1 } else { self.tape.push(0xa2) }
        }
        if rest.next().is_some() { odd("further arguments") } else { Ok(()) }
    }

    fn source(&mut self, expression: &Expression<'_>) -> Written {
        let Some((symbol, line, column)) = source_object(expression) else {
            return odd("no source object");
        };
        self.tape.push(0xa1);
        self.put_binding(symbol);
        self.tape.extend(line.to_le_bytes());
        self.tape.extend(column.to_le_bytes());
        Ok(())
    }

    fn object(&mut self, object: &ObjectExpression<'_>) -> Written {
        self.tape.push(0x81);
        for property in &object.properties {
            match property {
                ObjectPropertyKind::SpreadProperty(spread) => {
                    self.spread(0x86, &spread.argument)?
                }
                ObjectPropertyKind::ObjectProperty(property) => self.property(property)?,
            }
        }
        self.tape.push(0x82);
        Ok(())
    }

    fn property(&mut self, property: &ObjectProperty<'_>) -> Written {
        match &property.key {
            PropertyKey::HostNamed(_) | PropertyKey::HostUnnamed => {
                self.spread(0x87, &property.value)
            }
            PropertyKey::StringLiteral(name) => {
                self.tape.push(0x84);
                self.string(&name.value)?;
                self.expression(&property.value)
            }
            PropertyKey::StaticIdentifier(name) => {
                if let Some(span) = self.context.only_span_of(&name.name) {
                    self.tape.push(0x83);
                    self.put_span(span);
                    return self.expression(&property.value);
                }
                match (name.name.as_str(), &property.value) {
                    ("__self", Expression::ThisExpression(_)) => {
                        self.tape.push(0xa2);
                        Ok(())
                    }
                    ("__source", source) => self.source(source),
                    ("children", children) => self.children(children),
                    _ => odd("a property from elsewhere"),
                }
            }
        }
    }

    fn children(&mut self, children: &Expression<'_>) -> Written {
        self.tape.push(0x9a);
        let form = if let Expression::ArrayExpression(array) = children {
            for element in &array.elements {
                match element {
                    ArrayExpressionElement::SpreadElement(spread) => {
                        self.spread(0x9c, &spread.argument)?;
                    }
                    ArrayExpressionElement::Expression(expression) => {
                        self.expression(expression)?
                    }
                }
            }
            1
        } else {
            self.expression(children)?;
            0
        };
        self.tape.extend([0x9b, form]);
        Ok(())
    }
}

/// `{ fileName, lineNumber, columnNumber }` as `get_source_object` makes it.
fn source_object(expression: &Expression<'_>) -> Option<(SymbolId, u32, u32)> {
    let Expression::ObjectExpression(object) = expression else { return None };
    if object.host.is_some() {
        return None;
    }
    let value = |index: usize, name: &str| match object.properties.get(index)? {
        ObjectPropertyKind::ObjectProperty(property) => match &property.key {
            PropertyKey::StaticIdentifier(key) if key.name == name => Some(&property.value),
            _ => None,
        },
        ObjectPropertyKind::SpreadProperty(_) => None,
    };
    let number = |expression: &Expression<'_>| match expression {
        Expression::NumericLiteral(value) if f64::from(*value as u32) == *value => {
            Some(*value as u32)
        }
        _ => None,
    };
    let Expression::Identifier(file_name) = value(0, "fileName")? else { return None };
    let line = number(value(1, "lineNumber")?)?;
    let column = number(value(2, "columnNumber")?)?;
    (object.properties.len() == 3).then_some((file_name.symbol_id?, line, column))
}

pub fn notices(errors: &[OxcDiagnostic], nodes: &Nodes) -> Result<Vec<u8>, String> {
    let mut tape = Vec::new();
    let put = |span: &(u16, u16)| {
        let mut bytes = span.0.to_le_bytes().to_vec();
        bytes.extend(span.1.to_le_bytes());
        bytes
    };
    for error in errors {
        match error.label.and_then(|label| nodes.of(label)) {
            Some(Node::Name(name))
                if error.message.starts_with("Please provide an explicit key") =>
            {
                tape.push(0xc0);
                tape.extend(put(name));
            }
            Some(Node::Namespaced(namespace, name))
                if error.message.starts_with("Namespace tags are not supported") =>
            {
                tape.push(0xc1);
                tape.extend(put(namespace));
                tape.extend(put(name));
            }
            _ => return odd("a diagnostic without its name"),
        }
    }
    Ok(tape)
}

/// A record tape's commands, with bindings still as they were made.
pub enum Record {
    Group(u8),
    Import(u8, SymbolId),
    Require(SymbolId),
    FileName(SymbolId, u8),
}

pub struct Sources {
    pub import: String,
    pub runtime: String,
}

impl Sources {
    pub fn new(options: &JsxOptions) -> Self {
        let import = options.import_source.as_deref().filter(|source| !source.is_empty());
        let import = import.unwrap_or("react").to_string();
        let kind = if options.development { "dev-" } else { "" };
        Self { runtime: format!("{import}/jsx-{kind}runtime"), import }
    }

    fn group(&self, source: &JSStr<'_>) -> Result<Record, String> {
        match source.0.as_str() {
            source if source == self.import => Ok(Record::Group(0)),
            source if source == self.runtime => Ok(Record::Group(1)),
            _ => odd("a source from elsewhere"),
        }
    }
}

/// An `import` or a `require`.
pub fn statement_records(
    statement: &Statement<'_>,
    sources: &Sources,
    records: &mut Vec<Record>,
) -> Written {
    match statement {
        Statement::ImportDeclaration(declaration) => {
            records.push(sources.group(&declaration.source.value)?);
            for specifier in declaration.specifiers.iter().flatten() {
                let ImportDeclarationSpecifier::ImportSpecifier { imported, local } = specifier
                else {
                    return odd("a default import");
                };
                let ModuleExportName::IdentifierName(imported) = imported;
                let Some(name) = NAMES.iter().position(|name| imported.name == *name) else {
                    return odd("an imported name from elsewhere");
                };
                records.push(Record::Import(name as u8, local.symbol_id));
            }
        }
        Statement::VariableDeclaration(declaration) => {
            let [declarator] = &declaration.declarations[..] else {
                return odd("several declarators");
            };
            let Some(Expression::CallExpression(call)) = &declarator.init else {
                return odd("no require");
            };
            match (&call.callee, &call.arguments[..]) {
                (
                    Expression::Identifier(callee),
                    [Argument::Expression(Expression::StringLiteral(source))],
                ) if callee.name == "require" => records.push(sources.group(&source.value)?),
                _ => return odd("no require"),
            }
            let BindingPattern::BindingIdentifier(local) = &declarator.id;
            records.push(Record::Require(local.symbol_id));
        }
    }
    Ok(())
}

/// The variable with the file's name.
pub fn file_name_record(
    statement: &Statement<'_>,
    path: &str,
    place: u8,
) -> Result<Record, String> {
    let Statement::VariableDeclaration(declaration) = statement else {
        return odd("no declaration of the file name");
    };
    match &declaration.declarations[..] {
        [VariableDeclarator { id, init: Some(Expression::StringLiteral(init)) }]
            if init.value.0 == path =>
        {
            let BindingPattern::BindingIdentifier(local) = id;
            Ok(Record::FileName(local.symbol_id, place))
        }
        _ => odd("no declaration of the file name"),
    }
}
