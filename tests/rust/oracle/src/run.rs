//! A case: open the job, lower each root, write the records.

use std::{
    borrow::Cow, env, fmt::Write as _, fs, io::Write as _, path::PathBuf, process::ExitCode,
};

use oxc_allocator::{Allocator, ArenaVec};
use oxc_ast::{ast::*, builder::AstBuilder};
use oxc_span::SourceType;
use oxc_syntax::symbol::SymbolId;
use oxc_traverse::{ScopeFlags, Traverse};

use crate::{
    JsxOptions, TypeScriptOptions,
    common::module_imports::ModuleImportsStore,
    context::TraverseCtx,
    jsx::{comments::update_options_with_comments, jsx_impl::JsxImpl},
    reader::{Node, Nodes, Opening, read_opening, read_root},
    state::TransformState,
    writer::{Calls, Context, Record, Sources, file_name_record, notices, statement_records},
};

const PATH: &str = "sheet.jsx";

/// Room in the target for calls, and in that for notices if no other is given.
const TARGET: usize = 65_536;

/// The bytes that a pragma which fell back takes in the target for notices (C2 S). The Rust has no such notice, so none is written here.
const FALLEN_BACK: usize = 5;

/// How often the switch left something out.
#[derive(Default)]
struct Dropped {
    sources: usize,
    selves: usize,
    cases: usize,
}

pub fn main() -> ExitCode {
    let mut file = None;
    let mut plain_fragments = false;
    let mut notice_room = Some(TARGET);
    let mut arguments = env::args().skip(1);
    while let Some(argument) = arguments.next() {
        match argument.as_str() {
            "--plain-fragments" => plain_fragments = true,
            "--notices" => notice_room = arguments.next().and_then(|room| room.parse().ok()),
            _ => file = Some(argument),
        }
    }
    let (Some(file), Some(notice_room)) = (file, notice_room) else {
        eprintln!("oracle CASES [--plain-fragments] [--notices ROOM]");
        return ExitCode::FAILURE;
    };
    let cases = match fs::read(&file) {
        Ok(cases) => cases,
        Err(error) => {
            eprintln!("{file}: {error}");
            return ExitCode::FAILURE;
        }
    };
    let mut rest = &cases[..];
    let mut dropped = Dropped::default();
    let mut out = std::io::BufWriter::new(std::io::stdout().lock());
    let mut number = 0;
    while !rest.is_empty() {
        let Some(case) = Case::read(&mut rest) else {
            eprintln!("case {number} is cut short");
            return ExitCode::FAILURE;
        };
        // A root that doesn't fit leaves no trace: begin again without it.
        let mut skipped = vec![false; case.roots.len()];
        let answer = loop {
            match case.run(plain_fragments, notice_room, &skipped, &mut dropped) {
                Ok(answer) => break answer,
                Err(root) => skipped[root] = true,
            }
        };
        if write!(out, "case {number}\n{answer}").is_err() {
            return ExitCode::FAILURE;
        }
        number += 1;
    }
    if out.flush().is_err() {
        return ExitCode::FAILURE;
    }
    if plain_fragments {
        eprintln!(
            "left out of fragments' calls: {} A1, {} A2, in {} cases",
            dropped.sources, dropped.selves, dropped.cases
        );
    }
    ExitCode::SUCCESS
}

struct Case<'f> {
    job: &'f [u8],
    text: &'f [u8],
    roots: Vec<&'f [u8]>,
}

fn read_number(rest: &mut &[u8]) -> Option<usize> {
    let (number, tail) = rest.split_first_chunk::<4>()?;
    *rest = tail;
    Some(u32::from_le_bytes(*number) as usize)
}

fn read_bytes<'f>(rest: &mut &'f [u8]) -> Option<&'f [u8]> {
    let len = read_number(rest)?;
    let (bytes, tail) = rest.split_at_checked(len)?;
    *rest = tail;
    Some(bytes)
}

fn hex(bytes: &[u8]) -> String {
    let mut line = String::new();
    for byte in bytes {
        write!(line, " {byte:02x}").unwrap();
    }
    line
}

fn shown(value: Option<&str>) -> String {
    match value {
        None => "-".to_string(),
        Some(text) => {
            text.bytes().fold("'".to_string(), |line, byte| line + &format!("{byte:02x}"))
        }
    }
}

/// What one root gave, its bindings still numbered as they were made.
struct Lowered {
    calls: Vec<u8>,
    mentions: Vec<(usize, SymbolId)>,
    notices: Vec<u8>,
}

impl<'f> Case<'f> {
    fn read(rest: &mut &'f [u8]) -> Option<Self> {
        let job = read_bytes(rest)?;
        let text = read_bytes(rest)?;
        let mut roots = Vec::new();
        for _ in 0..read_number(rest)? {
            roots.push(read_bytes(rest)?);
        }
        Some(Self { job, text, roots })
    }

    /// The answer, or the first root that doesn't fit.
    fn run(
        &self,
        plain_fragments: bool,
        notice_room: usize,
        skipped: &[bool],
        dropped: &mut Dropped,
    ) -> Result<String, usize> {
        let allocator = Allocator::default();
        let Ok(text) = std::str::from_utf8(self.text) else {
            return Ok("opening refused\n".into());
        };
        let Some(Opening { mut options, module, comments }) = read_opening(self.job, text) else {
            return Ok("opening refused\n".into());
        };
        let mut ctx = context(text, module, &allocator);

        // The order: `conform`, comments, `JsxImpl::new`.
        options.conform();
        let mut typescript = TypeScriptOptions::default();
        update_options_with_comments(&comments, &mut typescript, &mut options, &ctx.state);
        let over_ascii = |pragma: &Option<String>| pragma.as_ref().is_some_and(|p| !p.is_ascii());
        if options.runtime.is_classic()
            && (over_ascii(&options.pragma) || over_ascii(&options.pragma_frag))
        {
            return Ok("opening refused\n".into());
        }
        let (settings, fallen_back) = settings(&options, &typescript, module);
        let told = fallen_back * FALLEN_BACK;
        if told > notice_room {
            return Ok("opening refused\n".into());
        }
        let mut answer = format!("opening {settings}\n");

        let sources = Sources::new(&options);
        let writing = Context::new(&options, module, text, plain_fragments);
        let mut lowering = JsxImpl::new(options, None, &ctx.ast, SourceType { module });
        let mut roots = Vec::new();
        let mut lost = Dropped::default();
        let (mut call_fill, mut notice_fill) = (0, told);
        for (index, tape) in self.roots.iter().enumerate() {
            let mut nodes = Nodes::new();
            let root =
                if skipped[index] { None } else { read_root(tape, text, &allocator, &mut nodes) };
            let Some(root) = root else {
                roots.push(None);
                continue;
            };
            ctx.ancestors = root.ancestors;
            ctx.scoping.scopes = root.scopes;
            let mut expression = root.expression;
            lowering.exit_expression(&mut expression, &mut ctx);
            let mut calls = Calls::new(&writing, &nodes);
            let notices = match calls
                .expression(&expression)
                .and_then(|()| notices(&ctx.state.take_errors(), &nodes))
            {
                Ok(notices) => notices,
                Err(what) => return Ok(answer + "unwritten: " + &what + "\n"),
            };
            call_fill += calls.tape.len();
            notice_fill += notices.len();
            if call_fill > TARGET || notice_fill > notice_room {
                return Err(index);
            }
            lost.sources += calls.dropped_sources;
            lost.selves += calls.dropped_selves;
            roots.push(Some(Lowered { calls: calls.tape, mentions: calls.mentions, notices }));
        }
        let mut program = Program { body: ArenaVec::new_in(&ctx) };
        lowering.exit_program(&mut program, &mut ctx);
        let records = match records(&mut ctx, &sources) {
            Ok(records) => records,
            Err(what) => return Ok(answer + "unwritten: " + &what + "\n"),
        };

        // Where a fragment's file name was left out, bindings count by their first mention; else as they were made.
        let mut order: Vec<SymbolId> = Vec::new();
        if lost.sources == 0 {
            order = (0..ctx.bindings.len()).map(|number| SymbolId(number as u32)).collect();
        } else {
            for (_, symbol) in roots.iter().flatten().flat_map(|lowered| &lowered.mentions) {
                if !order.contains(symbol) {
                    order.push(*symbol);
                }
            }
            // Apart from the file name the two orders must be one.
            let made =
                order.iter().filter(|symbol| ctx.bindings[symbol.0 as usize] != "jsxFileName");
            if !made.map(|symbol| symbol.0).is_sorted() {
                return Ok(answer + "unwritten: bindings are mentioned in another order\n");
            }
        }
        let number = |symbol: SymbolId| {
            order.iter().position(|other| *other == symbol).map(|number| number as u8)
        };
        for (index, lowered) in roots.into_iter().enumerate() {
            let Some(mut lowered) = lowered else {
                writeln!(answer, "root {index} refused").unwrap();
                continue;
            };
            for (place, symbol) in lowered.mentions {
                lowered.calls[place] = number(symbol).unwrap();
            }
            writeln!(answer, "root {index} accepted").unwrap();
            writeln!(answer, "calls{}", hex(&lowered.calls)).unwrap();
            writeln!(answer, "notices{}", hex(&lowered.notices)).unwrap();
        }
        let mut tape = Vec::new();
        for record in records {
            match record {
                Record::Group(source) => tape.extend([0xb0, source]),
                Record::Import(name, symbol) => {
                    tape.extend([0xb1, name, number(symbol).unwrap_or(0xff)]);
                }
                Record::Require(symbol) => tape.extend([0xb2, number(symbol).unwrap_or(0xff)]),
                // Only fragments mentioned it, and the switch left that out.
                Record::FileName(symbol, place) => {
                    if let Some(number) = number(symbol) {
                        tape.extend([0xb3, number, place]);
                    }
                }
            }
        }
        writeln!(answer, "records{}", hex(&tape)).unwrap();
        dropped.sources += lost.sources;
        dropped.selves += lost.selves;
        dropped.cases += usize::from(lost.sources + lost.selves != 0);
        Ok(answer)
    }
}

pub(crate) fn context<'a>(
    text: &'a str,
    module: bool,
    allocator: &'a Allocator,
) -> TraverseCtx<'a> {
    let mut state = TransformState::default();
    state.source_path = PathBuf::from(PATH);
    state.source_text = text;
    state.source_type = SourceType { module };
    state.var_declarations.record_entering_statements();
    TraverseCtx::new(state, allocator)
}

/// The settings after comments, and how many pragmas fell back to the default. Pure and the pragmas' forms are private to `JsxImpl`: an empty fragment, lowered apart,
/// shows them.
fn settings(options: &JsxOptions, typescript: &TypeScriptOptions, module: bool) -> (String, usize) {
    let allocator = Allocator::default();
    let mut ctx = context("", module, &allocator);
    ctx.scoping.scopes = vec![ScopeFlags::Other];
    let mut nodes = Nodes::new();
    let span = nodes.add(Node::Fragment, (0, 0));
    let copy = options.clone();
    let writing = Context::new(&copy, module, "", false);
    let mut lowering =
        JsxImpl::new(copy, None, &AstBuilder { allocator: &allocator }, SourceType { module });
    let fragment = JSXFragment { span, children: ArenaVec::new_in(&ctx) };
    let mut expression = Expression::JSXFragment(ctx.alloc(fragment));
    lowering.exit_expression(&mut expression, &mut ctx);
    let Expression::CallExpression(call) = expression else { unreachable!() };
    let Some(Argument::Expression(tag)) = call.arguments.first() else { unreachable!() };
    let form = |which: usize, expression: &Expression<'_>| {
        if !writing.classic {
            return "-".to_string();
        }
        match writing.pragma_form(which, expression) {
            Some((form, tail)) => format!("{form:?}.{tail}").to_lowercase(),
            None => "unwritten".to_string(),
        }
    };
    let forms = [form(0, &call.callee), form(1, tag)];
    let fallen_back = [&options.pragma, &options.pragma_frag]
        .iter()
        .zip(&forms)
        .filter(|(pragma, shown)| pragma.is_some() && *shown == "default.0")
        .count();
    let runtime = match (options.runtime.is_classic(), module) {
        (true, _) => "classic",
        (false, true) => "module",
        (false, false) => "script",
    };
    let owned = |value: &Cow<'static, str>| match value {
        Cow::Borrowed(_) => "-".to_string(),
        Cow::Owned(text) => shown(Some(text)),
    };
    let line = format!(
        "{runtime} plugin {} self {} source {} development {} throw {} pure {} pragma {} {} frag {} {} import {} typescript {} {}",
        u8::from(options.jsx_plugin),
        u8::from(options.jsx_self_plugin),
        u8::from(options.jsx_source_plugin),
        u8::from(options.development),
        u8::from(options.throw_if_namespace),
        u8::from(call.pure),
        shown(options.pragma.as_deref()),
        forms[0],
        shown(options.pragma_frag.as_deref()),
        forms[1],
        shown(options.import_source.as_deref()),
        owned(&typescript.jsx_pragma),
        owned(&typescript.jsx_pragma_frag),
    );
    (line, fallen_back)
}

/// The statements that the store makes, in its order, then the file name's.
pub(crate) fn records<'a>(
    ctx: &mut TraverseCtx<'a>,
    sources: &Sources,
) -> Result<Vec<Record>, String> {
    let mut records = Vec::new();
    let imports = std::mem::take(&mut ctx.state.module_imports.imports);
    for (source, names) in imports {
        let statement = if ctx.state.source_type.is_module() {
            ModuleImportsStore::get_import(source, names, ctx)
        } else {
            ModuleImportsStore::get_require(source, names, None, ctx)
        };
        statement_records(&statement, sources, &mut records)?;
    }
    for statement in &ctx.state.top_level_statements.statements {
        records.push(file_name_record(statement, PATH, 0)?);
    }
    match ctx.state.var_declarations.get_var_statement(&ctx.ast) {
        None => {}
        Some((Some(statement), None)) => records.push(file_name_record(&statement, PATH, 1)?),
        Some(_) => return Err("other declarations".to_string()),
    }
    Ok(records)
}
