//! Nodes. What the crate doesn't have: `Expression::Host`, an expression that the host keeps; `host` of an object literal;
//! the keys `HostNamed` and `HostUnnamed` of such a literal's properties.

use oxc_allocator::{ArenaBox, ArenaVec, GetAllocator, ReplaceWith};
use oxc_span::Span;
use oxc_str::{Ident, JSStr, Joined};
use oxc_syntax::{number::NumberBase, reference::ReferenceId, symbol::SymbolId};

pub use crate::match_expression;
pub use oxc_str::Str;

#[derive(Debug)]
pub struct Program<'a> {
    pub body: ArenaVec<'a, Statement<'a>>,
}

#[derive(Debug, Default)]
pub enum Expression<'a> {
    /// Where `replace_with` has taken an expression out.
    #[default]
    Taken,
    /// The host's expression of this number.
    Host(u16),
    BooleanLiteral(BooleanLiteral),
    NullLiteral,
    NumericLiteral(f64),
    StringLiteral(ArenaBox<'a, StringLiteral<'a>>),
    /// `void 0`
    Void0,
    Identifier(ArenaBox<'a, IdentifierReference<'a>>),
    ThisExpression(ThisExpression),
    ImportMeta,
    StaticMemberExpression(ArenaBox<'a, StaticMemberExpression<'a>>),
    ArrayExpression(ArenaBox<'a, ArrayExpression<'a>>),
    ObjectExpression(ArenaBox<'a, ObjectExpression<'a>>),
    CallExpression(ArenaBox<'a, CallExpression<'a>>),
    JSXElement(ArenaBox<'a, JSXElement<'a>>),
    JSXFragment(ArenaBox<'a, JSXFragment<'a>>),
}

impl ReplaceWith for Expression<'_> {}

impl<'a> Expression<'a> {
    pub fn is_jsx(&self) -> bool {
        matches!(self, Self::JSXElement(_) | Self::JSXFragment(_))
    }

    pub fn new_boolean_literal<A: GetAllocator<'a>>(span: Span, value: bool, _: &A) -> Self {
        Self::BooleanLiteral(BooleanLiteral { span, value })
    }

    pub fn new_null_literal<A: GetAllocator<'a>>(_span: Span, _: &A) -> Self {
        Self::NullLiteral
    }

    pub fn new_numeric_literal<A: GetAllocator<'a>>(
        _span: Span,
        value: f64,
        _raw: Option<Str<'a>>,
        _base: NumberBase,
        _: &A,
    ) -> Self {
        Self::NumericLiteral(value)
    }

    pub fn new_string_literal<A: GetAllocator<'a>>(
        span: Span,
        value: impl Into<JSStr<'a>>,
        raw: Option<Str<'a>>,
        allocator: &A,
    ) -> Self {
        let literal = StringLiteral::new(span, value, raw, allocator);
        Self::StringLiteral(ArenaBox::new_in(literal, allocator))
    }

    pub fn new_void_0<A: GetAllocator<'a>>(_span: Span, _: &A) -> Self {
        Self::Void0
    }

    pub fn new_this_expression<A: GetAllocator<'a>>(span: Span, _: &A) -> Self {
        Self::ThisExpression(ThisExpression { span })
    }

    pub fn new_import_meta<A: GetAllocator<'a>>(_span: Span, _: &A) -> Self {
        Self::ImportMeta
    }

    pub fn new_static_member_expression<A: GetAllocator<'a>>(
        span: Span,
        object: Expression<'a>,
        property: IdentifierName<'a>,
        optional: bool,
        allocator: &A,
    ) -> Self {
        MemberExpression::new_static_member_expression(span, object, property, optional, allocator)
            .into()
    }

    pub fn new_array_expression<A: GetAllocator<'a>>(
        span: Span,
        elements: impl IntoIterator<Item = ArrayExpressionElement<'a>>,
        allocator: &A,
    ) -> Self {
        let elements = ArenaVec::from_iter_in(elements, allocator);
        Self::ArrayExpression(ArenaBox::new_in(ArrayExpression { span, elements }, allocator))
    }

    pub fn new_object_expression<A: GetAllocator<'a>>(
        span: Span,
        properties: impl IntoIterator<Item = ObjectPropertyKind<'a>>,
        allocator: &A,
    ) -> Self {
        let properties = ArenaVec::from_iter_in(properties, allocator);
        let object = ObjectExpression { span, properties, host: None };
        Self::ObjectExpression(ArenaBox::new_in(object, allocator))
    }

    pub fn new_call_expression<A: GetAllocator<'a>>(
        span: Span,
        callee: Expression<'a>,
        type_arguments: Option<()>,
        arguments: impl IntoIterator<Item = Argument<'a>>,
        optional: bool,
        allocator: &A,
    ) -> Self {
        Self::new_call_expression_with_pure(
            span,
            callee,
            type_arguments,
            arguments,
            optional,
            false,
            allocator,
        )
    }

    pub fn new_call_expression_with_pure<A: GetAllocator<'a>>(
        span: Span,
        callee: Expression<'a>,
        _type_arguments: Option<()>,
        arguments: impl IntoIterator<Item = Argument<'a>>,
        _optional: bool,
        pure: bool,
        allocator: &A,
    ) -> Self {
        let arguments = ArenaVec::from_iter_in(arguments, allocator);
        let call = CallExpression { span, callee, arguments, pure };
        Self::CallExpression(ArenaBox::new_in(call, allocator))
    }
}

#[derive(Debug)]
pub struct BooleanLiteral {
    pub span: Span,
    pub value: bool,
}

#[derive(Debug)]
pub struct StringLiteral<'a> {
    pub span: Span,
    pub value: JSStr<'a>,
}

impl<'a> StringLiteral<'a> {
    pub fn new<A: GetAllocator<'a>>(
        span: Span,
        value: impl Into<JSStr<'a>>,
        _raw: Option<Str<'a>>,
        _: &A,
    ) -> Self {
        Self { span, value: value.into() }
    }
}

#[derive(Debug)]
pub struct ThisExpression {
    pub span: Span,
}

#[derive(Debug)]
pub struct IdentifierReference<'a> {
    pub span: Span,
    pub name: Ident<'a>,
    /// Set where the reference was made for a binding.
    pub symbol_id: Option<SymbolId>,
    pub reference_id: Option<ReferenceId>,
}

impl<'a> IdentifierReference<'a> {
    pub fn boxed_with_reference_id<A: GetAllocator<'a>>(
        span: Span,
        name: Ident<'a>,
        reference_id: ReferenceId,
        allocator: &A,
    ) -> ArenaBox<'a, Self> {
        let ident = Self { span, name, symbol_id: None, reference_id: Some(reference_id) };
        ArenaBox::new_in(ident, allocator)
    }
}

#[derive(Debug)]
pub struct IdentifierName<'a> {
    pub span: Span,
    pub name: Ident<'a>,
}

impl<'a> IdentifierName<'a> {
    pub fn new<A: GetAllocator<'a>>(span: Span, name: impl Into<Ident<'a>>, _: &A) -> Self {
        Self { span, name: name.into() }
    }
}

#[derive(Debug)]
pub enum MemberExpression<'a> {
    StaticMemberExpression(ArenaBox<'a, StaticMemberExpression<'a>>),
}

#[derive(Debug)]
pub struct StaticMemberExpression<'a> {
    pub span: Span,
    pub object: Expression<'a>,
    pub property: IdentifierName<'a>,
}

impl<'a> MemberExpression<'a> {
    pub fn new_static_member_expression<A: GetAllocator<'a>>(
        span: Span,
        object: Expression<'a>,
        property: IdentifierName<'a>,
        _optional: bool,
        allocator: &A,
    ) -> Self {
        let member = StaticMemberExpression { span, object, property };
        Self::StaticMemberExpression(ArenaBox::new_in(member, allocator))
    }
}

impl<'a> From<MemberExpression<'a>> for Expression<'a> {
    fn from(member: MemberExpression<'a>) -> Self {
        let MemberExpression::StaticMemberExpression(member) = member;
        Self::StaticMemberExpression(member)
    }
}

#[derive(Debug)]
pub struct SpreadElement<'a> {
    pub span: Span,
    pub argument: Expression<'a>,
}

#[derive(Debug)]
pub struct ArrayExpression<'a> {
    pub span: Span,
    pub elements: ArenaVec<'a, ArrayExpressionElement<'a>>,
}

#[derive(Debug)]
pub enum ArrayExpressionElement<'a> {
    SpreadElement(ArenaBox<'a, SpreadElement<'a>>),
    Expression(Expression<'a>),
}

impl<'a> ArrayExpressionElement<'a> {
    pub fn new_spread_element<A: GetAllocator<'a>>(
        span: Span,
        argument: Expression<'a>,
        allocator: &A,
    ) -> Self {
        Self::SpreadElement(ArenaBox::new_in(SpreadElement { span, argument }, allocator))
    }
}

impl<'a> From<Expression<'a>> for ArrayExpressionElement<'a> {
    fn from(expression: Expression<'a>) -> Self {
        Self::Expression(expression)
    }
}

impl<'a> TryFrom<ArrayExpressionElement<'a>> for Expression<'a> {
    type Error = ();
    fn try_from(element: ArrayExpressionElement<'a>) -> Result<Self, ()> {
        match element {
            ArrayExpressionElement::Expression(expression) => Ok(expression),
            ArrayExpressionElement::SpreadElement(_) => Err(()),
        }
    }
}

#[derive(Debug)]
pub enum Argument<'a> {
    SpreadElement(ArenaBox<'a, SpreadElement<'a>>),
    Expression(Expression<'a>),
}

impl<'a> Argument<'a> {
    pub fn new_spread_element<A: GetAllocator<'a>>(
        span: Span,
        argument: Expression<'a>,
        allocator: &A,
    ) -> Self {
        Self::SpreadElement(ArenaBox::new_in(SpreadElement { span, argument }, allocator))
    }

    pub fn new_boolean_literal<A: GetAllocator<'a>>(
        span: Span,
        value: bool,
        allocator: &A,
    ) -> Self {
        Self::Expression(Expression::new_boolean_literal(span, value, allocator))
    }

    pub fn new_this_expression<A: GetAllocator<'a>>(span: Span, allocator: &A) -> Self {
        Self::Expression(Expression::new_this_expression(span, allocator))
    }

    pub fn new_string_literal<A: GetAllocator<'a>>(
        span: Span,
        value: impl Into<JSStr<'a>>,
        raw: Option<Str<'a>>,
        allocator: &A,
    ) -> Self {
        Self::Expression(Expression::new_string_literal(span, value, raw, allocator))
    }
}

impl<'a> From<Expression<'a>> for Argument<'a> {
    fn from(expression: Expression<'a>) -> Self {
        Self::Expression(expression)
    }
}

#[derive(Debug)]
pub struct CallExpression<'a> {
    pub span: Span,
    pub callee: Expression<'a>,
    pub arguments: ArenaVec<'a, Argument<'a>>,
    pub pure: bool,
}

#[derive(Debug)]
pub struct ObjectExpression<'a> {
    pub span: Span,
    pub properties: ArenaVec<'a, ObjectPropertyKind<'a>>,
    pub host: Option<u16>,
}

#[derive(Clone, Copy, Debug)]
pub enum PropertyKind {
    Init,
}

#[derive(Debug)]
pub enum ObjectPropertyKind<'a> {
    ObjectProperty(ArenaBox<'a, ObjectProperty<'a>>),
    SpreadProperty(ArenaBox<'a, SpreadElement<'a>>),
}

#[derive(Debug)]
pub struct ObjectProperty<'a> {
    pub span: Span,
    pub kind: PropertyKind,
    pub key: PropertyKey<'a>,
    pub value: Expression<'a>,
}

impl<'a> ObjectPropertyKind<'a> {
    #[expect(clippy::too_many_arguments)]
    pub fn new_object_property<A: GetAllocator<'a>>(
        span: Span,
        kind: PropertyKind,
        key: PropertyKey<'a>,
        value: Expression<'a>,
        _method: bool,
        _shorthand: bool,
        _computed: bool,
        allocator: &A,
    ) -> Self {
        let property = ObjectProperty { span, kind, key, value };
        Self::ObjectProperty(ArenaBox::new_in(property, allocator))
    }

    pub fn new_spread_property<A: GetAllocator<'a>>(
        span: Span,
        argument: Expression<'a>,
        allocator: &A,
    ) -> Self {
        Self::SpreadProperty(ArenaBox::new_in(SpreadElement { span, argument }, allocator))
    }
}

#[derive(Debug)]
pub enum PropertyKey<'a> {
    StaticIdentifier(IdentifierName<'a>),
    StringLiteral(StringLiteral<'a>),
    /// In a literal of the host's: a property with this name.
    HostNamed(Str<'a>),
    /// In a literal of the host's: a property without a name that is known.
    HostUnnamed,
}

impl<'a> PropertyKey<'a> {
    pub fn new_static_identifier<A: GetAllocator<'a>>(
        span: Span,
        name: impl Into<Ident<'a>>,
        allocator: &A,
    ) -> Self {
        Self::StaticIdentifier(IdentifierName::new(span, name, allocator))
    }

    pub fn new_string_literal<A: GetAllocator<'a>>(
        span: Span,
        value: impl Into<JSStr<'a>>,
        raw: Option<Str<'a>>,
        allocator: &A,
    ) -> Self {
        Self::StringLiteral(StringLiteral::new(span, value, raw, allocator))
    }
}

// ---- statements

#[derive(Debug)]
pub enum Statement<'a> {
    VariableDeclaration(ArenaBox<'a, VariableDeclaration<'a>>),
    ImportDeclaration(ArenaBox<'a, ImportDeclaration<'a>>),
}

#[derive(Clone, Copy, Debug)]
pub enum VariableDeclarationKind {
    Var,
    Let,
}

#[derive(Debug)]
pub struct VariableDeclaration<'a> {
    pub kind: VariableDeclarationKind,
    pub declarations: ArenaVec<'a, VariableDeclarator<'a>>,
}

#[derive(Debug)]
pub struct VariableDeclarator<'a> {
    pub id: BindingPattern<'a>,
    pub init: Option<Expression<'a>>,
}

impl<'a> VariableDeclarator<'a> {
    pub fn new<A: GetAllocator<'a>>(
        _span: Span,
        id: BindingPattern<'a>,
        _type_annotation: Option<()>,
        init: Option<Expression<'a>>,
        _definite: bool,
        _: &A,
    ) -> Self {
        Self { id, init }
    }
}

#[derive(Debug)]
pub struct BindingIdentifier<'a> {
    pub name: Ident<'a>,
    pub symbol_id: SymbolId,
}

#[derive(Debug)]
pub enum BindingPattern<'a> {
    BindingIdentifier(BindingIdentifier<'a>),
}

impl<'a> BindingPattern<'a> {
    pub fn new_binding_identifier_with_symbol_id<A: GetAllocator<'a>>(
        _span: Span,
        name: Ident<'a>,
        symbol_id: SymbolId,
        _: &A,
    ) -> Self {
        Self::BindingIdentifier(BindingIdentifier { name, symbol_id })
    }
}

#[derive(Clone, Copy, Debug)]
pub enum ImportOrExportKind {
    Value,
}

#[derive(Debug)]
pub struct ImportDeclaration<'a> {
    pub specifiers: Option<ArenaVec<'a, ImportDeclarationSpecifier<'a>>>,
    pub source: StringLiteral<'a>,
}

#[derive(Debug)]
pub enum ModuleExportName<'a> {
    IdentifierName(IdentifierName<'a>),
}

impl<'a> ModuleExportName<'a> {
    pub fn new_identifier_name<A: GetAllocator<'a>>(
        span: Span,
        name: impl Into<Ident<'a>>,
        allocator: &A,
    ) -> Self {
        Self::IdentifierName(IdentifierName::new(span, name, allocator))
    }
}

#[derive(Debug)]
pub enum ImportDeclarationSpecifier<'a> {
    ImportSpecifier { imported: ModuleExportName<'a>, local: BindingIdentifier<'a> },
    ImportDefaultSpecifier { local: BindingIdentifier<'a> },
}

impl<'a> ImportDeclarationSpecifier<'a> {
    pub fn new_import_specifier<A: GetAllocator<'a>>(
        _span: Span,
        imported: ModuleExportName<'a>,
        local: BindingIdentifier<'a>,
        _kind: ImportOrExportKind,
        _: &A,
    ) -> Self {
        Self::ImportSpecifier { imported, local }
    }

    pub fn new_import_default_specifier<A: GetAllocator<'a>>(
        _span: Span,
        local: BindingIdentifier<'a>,
        _: &A,
    ) -> Self {
        Self::ImportDefaultSpecifier { local }
    }
}

impl<'a> Statement<'a> {
    pub fn new_variable_declaration<A: GetAllocator<'a>>(
        _span: Span,
        kind: VariableDeclarationKind,
        declarations: impl IntoIterator<Item = VariableDeclarator<'a>>,
        _declare: bool,
        allocator: &A,
    ) -> Self {
        let declarations = ArenaVec::from_iter_in(declarations, allocator);
        let declaration = VariableDeclaration { kind, declarations };
        Self::VariableDeclaration(ArenaBox::new_in(declaration, allocator))
    }

    pub fn new_import_declaration<A: GetAllocator<'a>>(
        _span: Span,
        specifiers: Option<ArenaVec<'a, ImportDeclarationSpecifier<'a>>>,
        source: StringLiteral<'a>,
        _phase: Option<()>,
        _with_clause: Option<()>,
        _kind: ImportOrExportKind,
        allocator: &A,
    ) -> Self {
        let declaration = ImportDeclaration { specifiers, source };
        Self::ImportDeclaration(ArenaBox::new_in(declaration, allocator))
    }
}

// ---- JSX

#[derive(Debug)]
pub struct JSXElement<'a> {
    pub span: Span,
    pub opening_element: ArenaBox<'a, JSXOpeningElement<'a>>,
    pub children: ArenaVec<'a, JSXChild<'a>>,
    pub closing_element: Option<ArenaBox<'a, JSXClosingElement<'a>>>,
}

#[derive(Debug)]
pub struct JSXOpeningElement<'a> {
    pub span: Span,
    pub name: JSXElementName<'a>,
    pub attributes: ArenaVec<'a, JSXAttributeItem<'a>>,
}

#[derive(Debug)]
pub struct JSXClosingElement<'a> {
    pub span: Span,
    pub name: JSXElementName<'a>,
}

#[derive(Debug)]
pub struct JSXFragment<'a> {
    pub span: Span,
    pub children: ArenaVec<'a, JSXChild<'a>>,
}

#[derive(Debug)]
pub struct JSXIdentifier<'a> {
    pub span: Span,
    pub name: Str<'a>,
}

#[derive(Debug)]
pub struct JSXNamespacedName<'a> {
    pub span: Span,
    pub namespace: JSXIdentifier<'a>,
    pub name: JSXIdentifier<'a>,
}

impl JSXNamespacedName<'_> {
    /// In place of `Display`: the same text, with its pieces still known.
    #[expect(clippy::inherent_to_string)]
    pub fn to_string(&self) -> Joined {
        Joined::of(&[&self.namespace.name, ":", &self.name.name])
    }
}

#[derive(Debug)]
pub enum JSXElementName<'a> {
    Identifier(ArenaBox<'a, JSXIdentifier<'a>>),
    IdentifierReference(ArenaBox<'a, IdentifierReference<'a>>),
    NamespacedName(ArenaBox<'a, JSXNamespacedName<'a>>),
    MemberExpression(ArenaBox<'a, JSXMemberExpression<'a>>),
    ThisExpression(ArenaBox<'a, ThisExpression>),
}

impl<'a> JSXElementName<'a> {
    /// The reference that the name begins with.
    pub fn get_identifier(&self) -> Option<&IdentifierReference<'a>> {
        match self {
            Self::IdentifierReference(ident) => Some(ident),
            Self::MemberExpression(member) => member.get_identifier(),
            Self::Identifier(_) | Self::NamespacedName(_) | Self::ThisExpression(_) => None,
        }
    }
}

#[derive(Debug)]
pub struct JSXMemberExpression<'a> {
    pub span: Span,
    pub object: JSXMemberExpressionObject<'a>,
    pub property: JSXIdentifier<'a>,
}

impl<'a> JSXMemberExpression<'a> {
    pub fn get_identifier(&self) -> Option<&IdentifierReference<'a>> {
        match &self.object {
            JSXMemberExpressionObject::IdentifierReference(ident) => Some(ident),
            JSXMemberExpressionObject::MemberExpression(member) => member.get_identifier(),
            JSXMemberExpressionObject::ThisExpression(_) => None,
        }
    }
}

#[derive(Debug)]
pub enum JSXMemberExpressionObject<'a> {
    IdentifierReference(ArenaBox<'a, IdentifierReference<'a>>),
    MemberExpression(ArenaBox<'a, JSXMemberExpression<'a>>),
    ThisExpression(ArenaBox<'a, ThisExpression>),
}

#[derive(Debug)]
pub enum JSXAttributeItem<'a> {
    Attribute(ArenaBox<'a, JSXAttribute<'a>>),
    SpreadAttribute(ArenaBox<'a, JSXSpreadAttribute<'a>>),
}

impl<'a> JSXAttributeItem<'a> {
    pub fn new_attribute<A: GetAllocator<'a>>(
        span: Span,
        name: JSXAttributeName<'a>,
        value: Option<JSXAttributeValue<'a>>,
        allocator: &A,
    ) -> Self {
        Self::Attribute(ArenaBox::new_in(JSXAttribute { span, name, value }, allocator))
    }
}

#[derive(Debug)]
pub struct JSXAttribute<'a> {
    pub span: Span,
    pub name: JSXAttributeName<'a>,
    pub value: Option<JSXAttributeValue<'a>>,
}

impl JSXAttribute<'_> {
    /// Whether the name is the plain name `key`.
    pub fn is_key(&self) -> bool {
        matches!(&self.name, JSXAttributeName::Identifier(ident) if ident.name == "key")
    }
}

#[derive(Debug)]
pub struct JSXSpreadAttribute<'a> {
    pub span: Span,
    pub argument: Expression<'a>,
}

#[derive(Debug)]
pub enum JSXAttributeName<'a> {
    Identifier(ArenaBox<'a, JSXIdentifier<'a>>),
    NamespacedName(ArenaBox<'a, JSXNamespacedName<'a>>),
}

impl<'a> JSXAttributeName<'a> {
    pub fn new_identifier<A: GetAllocator<'a>>(
        span: Span,
        name: impl Into<Str<'a>>,
        allocator: &A,
    ) -> Self {
        Self::Identifier(ArenaBox::new_in(JSXIdentifier { span, name: name.into() }, allocator))
    }
}

#[derive(Debug)]
pub enum JSXAttributeValue<'a> {
    StringLiteral(ArenaBox<'a, StringLiteral<'a>>),
    ExpressionContainer(ArenaBox<'a, JSXExpressionContainer<'a>>),
    Element(ArenaBox<'a, JSXElement<'a>>),
    Fragment(ArenaBox<'a, JSXFragment<'a>>),
}

impl<'a> JSXAttributeValue<'a> {
    pub fn new_expression_container<A: GetAllocator<'a>>(
        span: Span,
        expression: JSXExpression<'a>,
        allocator: &A,
    ) -> Self {
        let container = JSXExpressionContainer { span, expression };
        Self::ExpressionContainer(ArenaBox::new_in(container, allocator))
    }
}

#[derive(Debug)]
pub struct JSXExpressionContainer<'a> {
    pub span: Span,
    pub expression: JSXExpression<'a>,
}

#[derive(Debug)]
pub struct JSXEmptyExpression {
    pub span: Span,
}

#[derive(Debug)]
pub enum JSXExpression<'a> {
    EmptyExpression(JSXEmptyExpression),
    Expression(Expression<'a>),
}

impl<'a> JSXExpression<'a> {
    pub fn into_expression(self) -> Expression<'a> {
        match self {
            Self::Expression(expression) => expression,
            Self::EmptyExpression(_) => unreachable!(),
        }
    }

    pub fn new_this_expression<A: GetAllocator<'a>>(span: Span, allocator: &A) -> Self {
        Self::Expression(Expression::new_this_expression(span, allocator))
    }
}

impl<'a> From<Expression<'a>> for JSXExpression<'a> {
    fn from(expression: Expression<'a>) -> Self {
        Self::Expression(expression)
    }
}

#[derive(Debug)]
pub enum JSXChild<'a> {
    Text(ArenaBox<'a, JSXText<'a>>),
    Element(ArenaBox<'a, JSXElement<'a>>),
    Fragment(ArenaBox<'a, JSXFragment<'a>>),
    ExpressionContainer(ArenaBox<'a, JSXExpressionContainer<'a>>),
    Spread(ArenaBox<'a, JSXSpreadChild<'a>>),
}

#[derive(Debug)]
pub struct JSXText<'a> {
    pub span: Span,
    pub value: Str<'a>,
}

#[derive(Debug)]
pub struct JSXSpreadChild<'a> {
    pub span: Span,
    pub expression: Expression<'a>,
}
