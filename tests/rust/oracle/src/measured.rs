//! A job from tapes to tapes with nothing printed, and its lowering alone, for `bench`.

use std::{
    mem,
    time::{Duration, Instant},
};

use oxc_allocator::{Allocator, ArenaVec};
use oxc_ast::ast::*;
use oxc_span::SourceType;
use oxc_traverse::Traverse;

use crate::{
    JsxOptions, TypeScriptOptions,
    context::TraverseCtx,
    jsx::{comments::update_options_with_comments, jsx_impl::JsxImpl},
    reader::{Nodes, Opening, Root, read_opening, read_root},
    run::{context, records},
    writer::{Calls, Context, Record, Sources, notices},
};

pub struct Job {
    pub text: String,
    pub opening: Vec<u8>,
    pub roots: Vec<Vec<u8>>,
}

/// What a job gave.
#[derive(Debug, Default, PartialEq, Eq)]
pub struct Output {
    pub calls: Vec<u8>,
    pub notices: Vec<u8>,
    pub records: Vec<u8>,
}

fn open<'a>(
    text: &'a str,
    opening: &[u8],
    allocator: &'a Allocator,
) -> Option<(JsxOptions, bool, TraverseCtx<'a>)> {
    let Opening { mut options, module, comments } = read_opening(opening, text)?;
    let ctx = context(text, module, allocator);
    options.conform();
    update_options_with_comments(
        &comments,
        &mut TypeScriptOptions::default(),
        &mut options,
        &ctx.state,
    );
    Some((options, module, ctx))
}

impl Job {
    /// The whole job, from tapes to tapes. In an arena no tree is dropped.
    pub fn run(&self, dropping: bool) -> Option<Output> {
        let allocator = Allocator::default();
        let text = std::str::from_utf8(self.text.as_bytes()).ok()?;
        let (options, module, mut ctx) = open(text, &self.opening, &allocator)?;
        let sources = Sources::new(&options);
        let writing = Context::new(&options, module, text, true);
        let mut lowering = JsxImpl::new(options, None, &ctx.ast, SourceType { module });
        let mut output = Output::default();
        for tape in &self.roots {
            let mut nodes = Nodes::new();
            let root = read_root(tape, text, &allocator, &mut nodes)?;
            ctx.ancestors = root.ancestors;
            ctx.scoping.scopes = root.scopes;
            let mut expression = root.expression;
            lowering.exit_expression(&mut expression, &mut ctx);
            let mut calls = Calls::new(&writing, &nodes);
            calls.expression(&expression).ok()?;
            for (place, symbol) in calls.mentions {
                calls.tape[place] = symbol.0 as u8;
            }
            output.calls.extend_from_slice(&calls.tape);
            output.notices.extend(notices(&ctx.state.take_errors(), &nodes).ok()?);
            if !dropping {
                mem::forget(expression);
            }
        }
        let mut program = Program { body: ArenaVec::new_in(&ctx) };
        lowering.exit_program(&mut program, &mut ctx);
        for record in records(&mut ctx, &sources).ok()? {
            match record {
                Record::Group(source) => output.records.extend([0xb0, source]),
                Record::Import(name, symbol) => {
                    output.records.extend([0xb1, name, symbol.0 as u8]);
                }
                Record::Require(symbol) => output.records.extend([0xb2, symbol.0 as u8]),
                Record::FileName(symbol, place) => {
                    output.records.extend([0xb3, symbol.0 as u8, place]);
                }
            }
        }
        Some(output)
    }

    /// How long the original files alone take: options and comments, each root's tree, the end of the program. Tapes are read before, and
    /// nothing is written.
    pub fn lower(&self, dropping: bool) -> Option<Duration> {
        let allocator = Allocator::default();
        let Opening { mut options, module, comments } = read_opening(&self.opening, &self.text)?;
        let mut ctx = context(&self.text, module, &allocator);
        // One list for all roots, so that a node's number finds its place.
        let mut nodes = Nodes::new();
        let mut roots = Vec::with_capacity(self.roots.len());
        for tape in &self.roots {
            roots.push(read_root(tape, &self.text, &allocator, &mut nodes)?);
        }

        let began = Instant::now();
        options.conform();
        update_options_with_comments(
            &comments,
            &mut TypeScriptOptions::default(),
            &mut options,
            &ctx.state,
        );
        let mut lowering = JsxImpl::new(options, None, &ctx.ast, SourceType { module });
        for Root { ancestors, scopes, expression } in &mut roots {
            mem::swap(&mut ctx.ancestors, ancestors);
            mem::swap(&mut ctx.scoping.scopes, scopes);
            lowering.exit_expression(expression, &mut ctx);
        }
        let mut program = Program { body: ArenaVec::new_in(&ctx) };
        lowering.exit_program(&mut program, &mut ctx);
        let took = began.elapsed();
        if !dropping {
            mem::forget(roots);
        }
        Some(took)
    }
}
