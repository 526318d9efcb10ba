//! Opening and root tapes to options, comments and trees. A tape that the specification turns away is `None`, without its number.

use oxc_allocator::{Allocator, ArenaBox, ArenaVec};
use oxc_ast::{Comment, ast::*};
use oxc_data_structures::rope::POSITIONS;
use oxc_span::Span;
use oxc_str::{JSStr, Str};
use oxc_syntax::xml_entities::has_reference;
use oxc_traverse::{Ancestor, ClassWithoutBody, Heritage, ScopeFlags};

use crate::{JsxOptions, JsxRuntime};

/// Start and length in the text.
pub type S = (u16, u16);

/// What the number in a node's span stands for.
pub enum Node {
    Element,
    Fragment,
    /// An attribute's plain name.
    Name(S),
    Namespaced(S, S),
    Other,
}

/// Numbers nodes from 1 on and gives each element and fragment its line and column.
pub struct Nodes(pub Vec<Node>);

impl Nodes {
    pub fn new() -> Self {
        POSITIONS.with_borrow_mut(Vec::clear);
        Self(Vec::new())
    }

    pub fn add(&mut self, node: Node, position: (u32, u32)) -> Span {
        self.0.push(node);
        POSITIONS.with_borrow_mut(|positions| positions.push(position));
        let number = u32::try_from(self.0.len()).unwrap();
        Span::new(number, number)
    }

    /// Positions that no tape gives, so that a wrong use would show.
    fn add_plain(&mut self, node: Node) -> Span {
        self.add(node, (0x7777_7777, 0x7777_7777))
    }

    pub fn of(&self, span: Span) -> Option<&Node> {
        self.0.get((span.start as usize).checked_sub(1)?)
    }
}

struct Tape<'t> {
    rest: &'t [u8],
}

impl Tape<'_> {
    fn peek(&self) -> Option<u8> {
        self.rest.first().copied()
    }

    fn take<const N: usize>(&mut self) -> Option<[u8; N]> {
        let (taken, rest) = self.rest.split_first_chunk::<N>()?;
        self.rest = rest;
        Some(*taken)
    }

    fn byte(&mut self) -> Option<u8> {
        self.take::<1>().map(|[byte]| byte)
    }

    fn u16(&mut self) -> Option<u16> {
        self.take().map(u16::from_le_bytes)
    }

    fn u32(&mut self) -> Option<u32> {
        self.take().map(u32::from_le_bytes)
    }
}

fn part<'a>(text: &'a str, (start, len): S) -> Option<&'a str> {
    text.get(start as usize..start as usize + len as usize)
}

pub struct Opening {
    pub options: JsxOptions,
    pub module: bool,
    pub comments: Vec<Comment>,
}

pub fn read_opening(job: &[u8], text: &str) -> Option<Opening> {
    if job.len() > 65_535 || text.len() > 65_535 {
        return None;
    }
    let mut tape = Tape { rest: job };
    if tape.byte()? != 0x61 {
        return None;
    }
    let flags = tape.u16()?;
    if flags > 0xff {
        return None;
    }
    let flag = |bit: u16| flags >> bit & 1 == 1;
    let mut options = JsxOptions {
        jsx_plugin: flag(0),
        jsx_self_plugin: flag(1),
        jsx_source_plugin: flag(2),
        runtime: if flag(3) { JsxRuntime::Classic } else { JsxRuntime::Automatic },
        development: flag(4),
        throw_if_namespace: flag(5),
        pure: flag(6),
        ..JsxOptions::disable()
    };
    for command in [0x62, 0x63, 0x64] {
        if tape.peek() == Some(command) {
            tape.byte()?;
            let value = Some(part(text, (tape.u16()?, tape.u16()?))?.to_string());
            match command {
                0x62 => options.pragma = value,
                0x63 => options.pragma_frag = value,
                _ => options.import_source = value,
            }
        }
    }
    let mut comments = Vec::new();
    while let Some(command) = tape.peek() {
        tape.byte()?;
        if command != 0x60 {
            return None;
        }
        let span = (tape.u16()?, tape.u16()?);
        part(text, span)?;
        let start = u32::from(span.0);
        comments.push(Comment { content: Span::new(start, start + u32::from(span.1)) });
    }
    Some(Opening { options, module: flag(7), comments })
}

pub struct Root<'a> {
    pub ancestors: Vec<Ancestor>,
    pub scopes: Vec<ScopeFlags>,
    pub expression: Expression<'a>,
}

pub fn read_root<'a>(
    tape: &[u8],
    text: &'a str,
    allocator: &'a Allocator,
    nodes: &mut Nodes,
) -> Option<Root<'a>> {
    if tape.len() > 65_535 {
        return None;
    }
    let mut reader = Reader { tape: Tape { rest: tape }, text, allocator, nodes };
    let root = reader.root()?;
    reader.tape.rest.is_empty().then_some(root)
}

struct Reader<'a, 't> {
    tape: Tape<'t>,
    text: &'a str,
    allocator: &'a Allocator,
    nodes: &'t mut Nodes,
}

/// A tag name, read once and built twice: for the opening and the closing element.
enum Name {
    Plain(S),
    Namespaced(S, S),
    /// An identifier, or `this`, and properties.
    Members(Option<S>, Vec<S>),
}

impl<'a> Reader<'a, '_> {
    fn boxed<T>(&self, value: T) -> ArenaBox<'a, T> {
        ArenaBox::new_in(value, &self.allocator)
    }

    fn list<T>(&self) -> ArenaVec<'a, T> {
        ArenaVec::new_in(&self.allocator)
    }

    fn plain(&mut self) -> Span {
        self.nodes.add_plain(Node::Other)
    }

    fn span(&mut self) -> Option<S> {
        let span = (self.tape.u16()?, self.tape.u16()?);
        part(self.text, span)?;
        Some(span)
    }

    fn name(&mut self) -> Option<S> {
        self.span().filter(|span| span.1 != 0)
    }

    fn str(&self, span: S) -> Str<'a> {
        Str::from(part(self.text, span).unwrap())
    }

    fn letters(&mut self) -> Option<Str<'a>> {
        let span = self.span()?;
        let text = self.str(span);
        (!has_reference(&text)).then_some(text)
    }

    fn host(&mut self) -> Option<Expression<'a>> {
        self.tape.u16().map(Expression::Host)
    }

    fn root(&mut self) -> Option<Root<'a>> {
        if self.tape.byte()? != 0x01 {
            return None;
        }
        // The nearest class body decides. One further out, with the opposite heritage, must not count.
        let class = |heritage| Ancestor::ClassBody(ClassWithoutBody { heritage });
        let ancestors = match self.tape.byte()? {
            0 => vec![Ancestor::Other, Ancestor::Other],
            1 => vec![Ancestor::Other, class(None), Ancestor::Other, class(Some(Heritage))],
            2 => vec![Ancestor::Other, class(Some(Heritage)), Ancestor::Other, class(None)],
            _ => return None,
        };
        let mut scopes = Vec::new();
        while self.tape.peek()? == 0x02 {
            self.tape.byte()?;
            scopes.push(match self.tape.byte()? {
                0 => ScopeFlags::Block,
                1 => ScopeFlags::Arrow,
                2 => ScopeFlags::Constructor,
                3 => ScopeFlags::Other,
                _ => return None,
            });
        }
        if !scopes.iter().any(|flags| !flags.is_block() && !flags.is_arrow()) {
            return None;
        }
        let expression = match self.tape.byte()? {
            0x10 => Expression::JSXElement(self.element(1)?),
            0x11 => Expression::JSXFragment(self.fragment(1)?),
            _ => return None,
        };
        Some(Root { ancestors, scopes, expression })
    }

    fn position(&mut self, depth: usize) -> Option<(u32, u32)> {
        let position = (self.tape.u32()?, self.tape.u32()?);
        (depth <= 64 && position.0 != u32::MAX && position.1 != u32::MAX).then_some(position)
    }

    fn element(&mut self, depth: usize) -> Option<ArenaBox<'a, JSXElement<'a>>> {
        let position = self.position(depth)?;
        let span = self.nodes.add(Node::Element, position);
        let name = self.tag_name()?;
        let mut attributes = self.list();
        loop {
            match self.tape.byte()? {
                0x1e => break,
                command => attributes.push(self.attribute(command, depth)?),
            }
        }
        let children = self.children(depth)?;
        // As in source text: an element without children closes itself.
        let closing_element = (!children.is_empty()).then(|| {
            let name = self.element_name(&name);
            let span = self.plain();
            self.boxed(JSXClosingElement { span, name })
        });
        let name = self.element_name(&name);
        let opening_span = self.plain();
        let opening_element =
            self.boxed(JSXOpeningElement { span: opening_span, name, attributes });
        Some(self.boxed(JSXElement { span, opening_element, children, closing_element }))
    }

    fn fragment(&mut self, depth: usize) -> Option<ArenaBox<'a, JSXFragment<'a>>> {
        let position = self.position(depth)?;
        let span = self.nodes.add(Node::Fragment, position);
        let children = self.children(depth)?;
        Some(self.boxed(JSXFragment { span, children }))
    }

    fn tag_name(&mut self) -> Option<Name> {
        let root = match self.tape.byte()? {
            0x20 => return Some(Name::Plain(self.name()?)),
            0x21 => Some(self.name()?),
            0x22 => None,
            0x23 => return Some(Name::Namespaced(self.name()?, self.name()?)),
            _ => return None,
        };
        let mut properties = Vec::new();
        while self.tape.peek()? == 0x25 {
            self.tape.byte()?;
            properties.push(self.name()?);
        }
        Some(Name::Members(root, properties))
    }

    fn identifier(&mut self, name: S) -> JSXIdentifier<'a> {
        let span = self.nodes.add_plain(Node::Name(name));
        JSXIdentifier { span, name: self.str(name) }
    }

    fn namespaced(&mut self, namespace: S, name: S) -> ArenaBox<'a, JSXNamespacedName<'a>> {
        let span = self.nodes.add_plain(Node::Namespaced(namespace, name));
        let namespace = self.identifier(namespace);
        let name = self.identifier(name);
        self.boxed(JSXNamespacedName { span, namespace, name })
    }

    fn reference(&mut self, name: S) -> ArenaBox<'a, IdentifierReference<'a>> {
        let span = self.plain();
        let name = self.str(name);
        self.boxed(IdentifierReference { span, name, symbol_id: None, reference_id: None })
    }

    fn element_name(&mut self, name: &Name) -> JSXElementName<'a> {
        match name {
            Name::Plain(name) => {
                let name = self.identifier(*name);
                JSXElementName::Identifier(self.boxed(name))
            }
            Name::Namespaced(namespace, name) => {
                JSXElementName::NamespacedName(self.namespaced(*namespace, *name))
            }
            Name::Members(root, properties) => match properties.split_last() {
                None => match root {
                    Some(name) => JSXElementName::IdentifierReference(self.reference(*name)),
                    None => {
                        let span = self.plain();
                        JSXElementName::ThisExpression(self.boxed(ThisExpression { span }))
                    }
                },
                Some((last, rest)) => {
                    JSXElementName::MemberExpression(self.member(*root, rest, *last))
                }
            },
        }
    }

    fn member(
        &mut self,
        root: Option<S>,
        properties: &[S],
        last: S,
    ) -> ArenaBox<'a, JSXMemberExpression<'a>> {
        let object = match (properties.split_last(), root) {
            (Some((last, rest)), _) => {
                JSXMemberExpressionObject::MemberExpression(self.member(root, rest, *last))
            }
            (None, Some(name)) => {
                JSXMemberExpressionObject::IdentifierReference(self.reference(name))
            }
            (None, None) => {
                let span = self.plain();
                JSXMemberExpressionObject::ThisExpression(self.boxed(ThisExpression { span }))
            }
        };
        let span = self.plain();
        let property = self.identifier(last);
        self.boxed(JSXMemberExpression { span, object, property })
    }

    fn attribute(&mut self, command: u8, depth: usize) -> Option<JSXAttributeItem<'a>> {
        let span = self.plain();
        let name = match command {
            0x30 => {
                let name = self.name()?;
                let name = self.identifier(name);
                JSXAttributeName::Identifier(self.boxed(name))
            }
            0x31 => {
                let (namespace, name) = (self.name()?, self.name()?);
                JSXAttributeName::NamespacedName(self.namespaced(namespace, name))
            }
            0x32 => {
                let argument = self.host()?;
                let spread = JSXSpreadAttribute { span, argument };
                return Some(JSXAttributeItem::SpreadAttribute(self.boxed(spread)));
            }
            0x33 => {
                let argument = self.literal()?;
                let spread = JSXSpreadAttribute { span, argument };
                return Some(JSXAttributeItem::SpreadAttribute(self.boxed(spread)));
            }
            _ => return None,
        };
        let value = match self.tape.byte()? {
            0x40 => None,
            0x41 => {
                let span = self.plain();
                let value = JSStr::from(self.letters()?);
                Some(JSXAttributeValue::StringLiteral(self.boxed(StringLiteral { span, value })))
            }
            0x42 => {
                let expression = self.host()?;
                Some(JSXAttributeValue::ExpressionContainer(self.container(Some(expression))))
            }
            0x43 => Some(JSXAttributeValue::ExpressionContainer(self.container(None))),
            0x10 => Some(JSXAttributeValue::Element(self.element(depth + 1)?)),
            0x11 => Some(JSXAttributeValue::Fragment(self.fragment(depth + 1)?)),
            _ => return None,
        };
        Some(JSXAttributeItem::Attribute(self.boxed(JSXAttribute { span, name, value })))
    }

    fn literal(&mut self) -> Option<Expression<'a>> {
        let host = Some(self.tape.u16()?);
        let span = self.plain();
        let mut properties = self.list();
        loop {
            let command = self.tape.byte()?;
            if command == 0x35 {
                break;
            }
            let value = match command {
                0x34 | 0x36 => self.host()?,
                _ => return None,
            };
            let key = if command == 0x36 {
                let name = self.span()?;
                PropertyKey::HostNamed(self.str(name))
            } else {
                PropertyKey::HostUnnamed
            };
            let span = self.plain();
            let property = ObjectProperty { span, kind: PropertyKind::Init, key, value };
            properties.push(ObjectPropertyKind::ObjectProperty(self.boxed(property)));
        }
        Some(Expression::ObjectExpression(self.boxed(ObjectExpression { span, properties, host })))
    }

    fn container(
        &mut self,
        expression: Option<Expression<'a>>,
    ) -> ArenaBox<'a, JSXExpressionContainer<'a>> {
        let span = self.plain();
        let expression = match expression {
            Some(expression) => JSXExpression::Expression(expression),
            None => JSXExpression::EmptyExpression(JSXEmptyExpression { span }),
        };
        self.boxed(JSXExpressionContainer { span, expression })
    }

    fn children(&mut self, depth: usize) -> Option<ArenaVec<'a, JSXChild<'a>>> {
        let mut children = self.list();
        loop {
            children.push(match self.tape.byte()? {
                0x1f => return Some(children),
                0x10 => JSXChild::Element(self.element(depth + 1)?),
                0x11 => JSXChild::Fragment(self.fragment(depth + 1)?),
                0x42 => {
                    let expression = self.host()?;
                    JSXChild::ExpressionContainer(self.container(Some(expression)))
                }
                0x43 => JSXChild::ExpressionContainer(self.container(None)),
                0x50 => {
                    let span = self.plain();
                    let value = self.letters()?;
                    JSXChild::Text(self.boxed(JSXText { span, value }))
                }
                0x51 => {
                    let span = self.plain();
                    let expression = self.host()?;
                    JSXChild::Spread(self.boxed(JSXSpreadChild { span, expression }))
                }
                _ => return None,
            });
        }
    }
}
