//! Stand-in: the context with the scopes and ancestors that the root tape gives, and bindings counted in order of making.

use oxc_allocator::{Allocator, ArenaBox, GetAllocator};
use oxc_ast::{ast::*, builder::AstBuilder};
use oxc_span::Span;
use oxc_str::Ident;
use oxc_syntax::{
    reference::{ReferenceFlags, ReferenceId},
    symbol::{SymbolFlags, SymbolId},
};

pub mod ast_operations {
    pub trait GatherNodeParts<'a> {}
}

pub trait Traverse<'a, State> {
    fn exit_program(&mut self, _program: &mut Program<'a>, _ctx: &mut TraverseCtx<'a, State>) {}

    fn enter_jsx_opening_element(
        &mut self,
        _element: &mut JSXOpeningElement<'a>,
        _ctx: &mut TraverseCtx<'a, State>,
    ) {
    }

    fn exit_expression(
        &mut self,
        _expression: &mut Expression<'a>,
        _ctx: &mut TraverseCtx<'a, State>,
    ) {
    }
}

#[derive(Clone, Copy, Debug)]
pub enum ScopeFlags {
    Block,
    Arrow,
    Constructor,
    Other,
}

impl ScopeFlags {
    pub fn is_block(self) -> bool {
        matches!(self, Self::Block)
    }

    pub fn is_arrow(self) -> bool {
        matches!(self, Self::Arrow)
    }

    pub fn is_constructor(self) -> bool {
        matches!(self, Self::Constructor)
    }
}

#[derive(Clone, Copy, Debug)]
pub struct ScopeId(usize);

/// Flags of the scopes around the root, innermost first.
#[derive(Default)]
pub struct Scoping {
    pub scopes: Vec<ScopeFlags>,
}

impl Scoping {
    pub fn scope_flags(&self, id: ScopeId) -> ScopeFlags {
        self.scopes[id.0]
    }
}

#[derive(Clone, Copy, Debug)]
pub struct Heritage;

#[derive(Clone, Copy, Debug)]
pub struct ClassWithoutBody {
    pub heritage: Option<Heritage>,
}

impl ClassWithoutBody {
    pub fn heritage(&self) -> &Option<Heritage> {
        &self.heritage
    }
}

#[derive(Clone, Copy, Debug)]
pub enum Ancestor {
    /// The root stands in the body of this class.
    ClassBody(ClassWithoutBody),
    Other,
}

pub struct TraverseCtx<'a, State> {
    pub state: State,
    pub ast: AstBuilder<'a>,
    pub scoping: Scoping,
    /// Nearest first.
    pub ancestors: Vec<Ancestor>,
    /// The base name of each binding, in order of making.
    pub bindings: Vec<String>,
    references: u32,
}

impl<'a, State> GetAllocator<'a> for TraverseCtx<'a, State> {
    fn allocator(&self) -> &'a Allocator {
        self.ast.allocator
    }
}

impl<'a, State> TraverseCtx<'a, State> {
    pub fn new(state: State, allocator: &'a Allocator) -> Self {
        Self {
            state,
            ast: AstBuilder { allocator },
            scoping: Scoping::default(),
            ancestors: Vec::new(),
            bindings: Vec::new(),
            references: 0,
        }
    }

    pub fn alloc<T>(&self, value: T) -> ArenaBox<'a, T> {
        ArenaBox::new_in(value, self)
    }

    pub fn scoping(&self) -> &Scoping {
        &self.scoping
    }

    pub fn ancestor_scopes(&self) -> impl Iterator<Item = ScopeId> + use<State> {
        (0..self.scoping.scopes.len()).map(ScopeId)
    }

    pub fn ancestors(&self) -> impl Iterator<Item = Ancestor> {
        self.ancestors.iter().copied()
    }

    /// Only the number counts here; the name keeps two bindings apart for a reader.
    pub fn generate_uid_in_root_scope(
        &mut self,
        name: &str,
        _flags: SymbolFlags,
    ) -> BoundIdentifier<'a> {
        let symbol_id = SymbolId(u32::try_from(self.bindings.len()).unwrap());
        self.bindings.push(name.to_string());
        let name = Str::from_str_in(&format!("_{name}{}", symbol_id.0), self);
        BoundIdentifier { name, symbol_id }
    }

    pub fn generate_uid_in_current_hoist_scope(&mut self, name: &str) -> BoundIdentifier<'a> {
        self.generate_uid_in_root_scope(name, SymbolFlags::FunctionScopedVariable)
    }

    pub fn generate_uid_in_current_hoist_scope_based_on_node<
        N: ast_operations::GatherNodeParts<'a>,
    >(
        &mut self,
        _node: &N,
    ) -> BoundIdentifier<'a> {
        self.generate_uid_in_current_hoist_scope("node")
    }

    pub fn create_reference_in_current_scope(
        &mut self,
        _name: Ident<'a>,
        _flags: ReferenceFlags,
    ) -> ReferenceId {
        self.references += 1;
        ReferenceId(self.references)
    }

    pub fn delete_reference_for_identifier(&mut self, _ident: &IdentifierReference<'a>) {}

    pub fn create_ident_expr(
        &mut self,
        span: Span,
        name: Ident<'a>,
        symbol_id: Option<SymbolId>,
        flags: ReferenceFlags,
    ) -> Expression<'a> {
        let reference_id = Some(self.create_reference_in_current_scope(name, flags));
        let ident = IdentifierReference { span, name, symbol_id, reference_id };
        Expression::Identifier(self.alloc(ident))
    }
}

#[derive(Clone, Debug)]
pub struct BoundIdentifier<'a> {
    pub name: Ident<'a>,
    pub symbol_id: SymbolId,
}

impl<'a> BoundIdentifier<'a> {
    pub fn create_read_reference<State>(
        &self,
        ctx: &mut TraverseCtx<'a, State>,
    ) -> IdentifierReference<'a> {
        let reference_id =
            Some(ctx.create_reference_in_current_scope(self.name, ReferenceFlags::Read));
        let symbol_id = Some(self.symbol_id);
        IdentifierReference { span: oxc_span::SPAN, name: self.name, symbol_id, reference_id }
    }

    pub fn create_read_expression<State>(
        &self,
        ctx: &mut TraverseCtx<'a, State>,
    ) -> Expression<'a> {
        let ident = self.create_read_reference(ctx);
        Expression::Identifier(ctx.alloc(ident))
    }

    pub fn create_binding_identifier<State>(
        &self,
        _ctx: &TraverseCtx<'a, State>,
    ) -> BindingIdentifier<'a> {
        BindingIdentifier { name: self.name, symbol_id: self.symbol_id }
    }

    pub fn create_binding_pattern<State>(
        &self,
        ctx: &TraverseCtx<'a, State>,
    ) -> BindingPattern<'a> {
        BindingPattern::BindingIdentifier(self.create_binding_identifier(ctx))
    }
}
