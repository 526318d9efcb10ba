//! The original lowering, and a bridge from tapes to its trees and back. README.md has the formats.
#![allow(dead_code, unfulfilled_lint_expectations)]

pub mod measured;
mod reader;
pub mod run;
mod writer;

include!(concat!(env!("OUT_DIR"), "/root.rs"));

pub mod jsx {
    include!(concat!(env!("OUT_DIR"), "/jsx.rs"));
}

pub mod typescript {
    include!(concat!(env!("OUT_DIR"), "/typescript.rs"));
}

pub mod common {
    include!(concat!(env!("OUT_DIR"), "/common.rs"));

    // The rest of this folder can't be had: stand-ins.
    pub mod helper_loader {
        pub struct HelperLoaderStore<'a>(std::marker::PhantomData<&'a ()>);

        impl HelperLoaderStore<'_> {
            pub fn new(_options: &crate::HelperLoaderOptions) -> Self {
                Self(std::marker::PhantomData)
            }
        }
    }

    pub mod statement_injector {
        pub struct StatementInjectorStore<'a>(std::marker::PhantomData<&'a ()>);

        impl StatementInjectorStore<'_> {
            pub fn new() -> Self {
                Self(std::marker::PhantomData)
            }
        }
    }

    pub mod top_level_statements {
        use oxc_ast::ast::Statement;

        pub struct TopLevelStatementsStore<'a> {
            pub statements: Vec<Statement<'a>>,
        }

        impl<'a> TopLevelStatementsStore<'a> {
            pub fn new() -> Self {
                Self { statements: Vec::new() }
            }

            pub fn insert_statement(&mut self, statement: Statement<'a>) {
                self.statements.push(statement);
            }
        }
    }
}

/// Object spread lowering is left out: never called, because no options are given for it.
pub mod es2018 {
    use oxc_ast::ast::Expression;

    use crate::context::TraverseCtx;

    #[derive(Clone, Copy)]
    pub struct ObjectRestSpreadOptions;

    pub struct ObjectRestSpread;

    impl ObjectRestSpread {
        pub fn transform_object_expression<'a>(
            _options: ObjectRestSpreadOptions,
            _expression: &mut Expression<'a>,
            _ctx: &mut TraverseCtx<'a>,
        ) {
            unreachable!();
        }
    }
}

// Options of other transforms that `state.rs` names: stand-ins.

#[derive(Clone, Copy, Default)]
pub struct CompilerAssumptions;

#[derive(Clone, Copy, Default)]
pub struct Module;

#[derive(Default)]
pub struct HelperLoaderOptions;

#[derive(Default)]
pub struct TransformOptions {
    pub env: EnvOptions,
    pub assumptions: CompilerAssumptions,
    pub helper_loader: HelperLoaderOptions,
}

#[derive(Default)]
pub struct EnvOptions {
    pub module: Module,
    pub es2022: Es2022Options,
}

#[derive(Default)]
pub struct Es2022Options {
    pub class_properties: Option<()>,
}

pub use context::TransformCtx;
pub use jsx::options::{JsxOptions, JsxRuntime};
pub use typescript::options::TypeScriptOptions;
