#!/usr/bin/env python3
"""How sensitive the comparison is: python3 faults.py CASES ANSWERS [NUMBER...]

Puts one deliberate fault at a time into a copy of the Rust (a folder that is removed again), builds the oracle from it and compares
what it prints for the cases with ANSWERS, which are another program's, as that of crates/replay. The notices of openings, which the Rust has none of, are held to the
model's (compare.py). A fault is seen if the two differ or the run breaks off. OXC_SRC names the original, as for the build.
"""

import itertools
import os
import shutil
import subprocess
import sys
import tempfile

from cases import unpack
from compare import agrees, cases as answers_in, oracle_answers

HERE = os.path.dirname(os.path.abspath(__file__))
IMPL, COMMENTS, SELF, SOURCE = "jsx/jsx_impl.rs", "jsx/comments.rs", "jsx/jsx_self.rs", "jsx/jsx_source.rs"
IMPORTS, OPTIONS = "common/module_imports.rs", "jsx/options.rs"

# what is wrong then, the file, and pairs of old and new text; each old text occurs once
FAULTS = [
    ("jsxs for a sole spread child", IMPL, [("need_jsxs = children_len > 1;", "need_jsxs = true;")]),
    ("the first line's front is trimmed", IMPL, [("first_non_whitespace: Option<usize> = Some(0);", "first_non_whitespace: Option<usize> = None;")]),
    ("lone spread by whether self is allowed", IMPL, [("&& !(self.options.jsx_self_plugin || self.options.jsx_source_plugin)", "&& !(self.options.jsx_self_plugin && JsxSelf::can_add_self_attribute(ctx) || self.options.jsx_source_plugin)")]),
    ("lone spread although another attribute follows", IMPL, [("&& attributes_len == 1", "&& attributes_len <= 2")]),
    ("lone spread of a literal with __proto__", IMPL, [("if !matches!(&argument, Expression::ObjectExpression(o) if has_proto(o))", "if !matches!(&argument, Expression::NullLiteral)")]),
    ("the first key counts", IMPL, [("key_prop = value;", "if key_prop.is_none() { key_prop = value; }")]),
    ("overridden keys are lowered", IMPL, [("key_prop = value;", "if key_prop.is_some() { let _ = self.transform_jsx_attribute_value(key_prop.take(), ctx); } key_prop = value;")]),
    ("no notice of a valueless key", IMPL, [("ctx.state.error(diagnostics::valueless_key(ident.span));", "")]),
    ("a valueless key is the key", IMPL, [("if value.is_none() {", "if value.is_none() && !is_automatic {")]),
    ("any key makes the call classic", IMPL, [("} else if spread && matches!(", "} else if matches!(")]),
    ("a key after a spread changes nothing", IMPL, [("let is_classic = self.bindings.is_classic() || has_key_after_props_spread;", "let is_classic = self.bindings.is_classic();")]),
    ("a namespaced key counts as a key after a spread", IMPL, [("if a.is_key())", "if a.is_key() || matches!(&a.name, JSXAttributeName::NamespacedName(n) if n.namespace.name == \"key\"))")]),
    ("only a leading hyphen makes a string", IMPL, [("if ident.name.contains('-') {", "if ident.name.starts_with('-') {")]),
    ("require of source 0 not in front", IMPL, [("self.add_require_statement(\"react\", source, true, ctx)", "self.add_require_statement(\"react\", source, false, ctx)")]),
    ("front has no effect in the store", IMPORTS, [("entry.shift_insert(0, named_imports);", "entry.insert(named_imports);")]),
    ("pure if one of the two is absent", IMPL, [("(options.import_source.is_none() && options.pragma.is_none())", "(options.import_source.is_none() || options.pragma.is_none())")]),
    ("the callee's import before the tag's", IMPL, [("let argument_expr = if let Some(element_name) = element_name {", "let callee = self.get_create_element(has_key_after_props_spread, need_jsxs, ctx);\n let argument_expr = if let Some(element_name) = element_name {"), ("let callee = self.get_create_element(has_key_after_props_spread, need_jsxs, ctx);\n        Expression::new_call", "Expression::new_call")]),
    ("the callee's import before the children", IMPL, [("let mut need_jsxs = false;", "let mut need_jsxs = false; if is_automatic { let _ = self.get_create_element(false, false, ctx); }")]),
    ("static children from one on", IMPL, [("Argument::new_boolean_literal(SPAN, children_len > 1, ctx)", "Argument::new_boolean_literal(SPAN, children_len > 0, ctx)")]),
    ("reserved roots are in order", IMPL, [("if is_reserved_keyword(root) || !is_identifier_name(root) {", "if !is_identifier_name(root) {")]),
    ("import with any second part", IMPL, [("let [\"meta\", rest @ ..] = tail else {", "let [_, rest @ ..] = tail else {")]),
    ("an empty import source stays empty", IMPL, [("Ok(0) | Err(_) => {", "Err(_) => {")]),
    ("a name that begins with __proto counts as __proto__", IMPL, [("name == \"__proto__\"", "name.starts_with(\"__proto\")")]),
    ("namespaced tags never noticed", IMPL, [("if self.options.throw_if_namespace {", "if false {")]),
    ("an empty container is false", IMPL, [("Expression::new_boolean_literal(e.span, true, ctx)", "Expression::new_boolean_literal(e.span, false, ctx)")]),
    ("an empty container is a child", IMPL, [("JSXExpression::EmptyExpression(_) => None,", "JSXExpression::EmptyExpression(_) => Some(Expression::new_boolean_literal(SPAN, true, ctx)),")]),
    ("lines join without a space", IMPL, [("            buffer.push_str(only_line.as_str());\n            buffer.push(' ');", "            buffer.push_str(only_line.as_str());")]),
    ("from the third line on no space", IMPL, [("            buffer.push(' ');\n        } else if", "        } else if")]),
    ("no void 0 in development", IMPL, [("} else if is_development {\n                arguments.push", "} else if false {\n                arguments.push")]),
    ("classic fragments carry self", IMPL, [("            if is_element {\n                if self.options.jsx_self_plugin", "            if true {\n                if self.options.jsx_self_plugin")]),
    ("__self is not added", IMPL, [("properties.push(JsxSelf::get_object_property_kind_for_jsx_plugin(ctx));", "")]),
    ("Fragment is imported from source 0", IMPL, [("self.import_fragment = Some(self.add_jsx_import_statement(\"Fragment\", ctx));", "let source = get_import_source(self.jsx_runtime_importer.as_str(), self.react_importer_len); self.import_fragment = Some(self.add_import_statement(\"Fragment\", source, ctx));")]),
    ("jsxDEV is imported twice", IMPL, [("self.import_jsxs = Some(id);", "let _ = id; self.import_jsxs = Some(self.add_jsx_import_statement(\"jsxDEV\", ctx));")]),
    ("the file name's place by the source type alone", IMPL, [("if self.bindings.is_classic() || ctx.state.source_type.is_module() {", "if ctx.state.source_type.is_module() {")]),
    ("this.x loses its tail", IMPL, [("(object, parts.iter())\n            }\n            Self::ImportMeta", "(object, parts[..0].iter())\n            }\n            Self::ImportMeta")]),
    ("a star before @ doesn't count", COMMENTS, [("b' ' | b'\\t' | b'\\r' | b'\\n' | b'*'", "b' ' | b'\\t' | b'\\r' | b'\\n'")]),
    ("a rejected @ takes the next byte along", COMMENTS, [("if next4 != b\"@jsx\" {", "if next4 != b\"@jsx\" { if comment_str.is_char_boundary(at_sign_index + 2) { comment_str = &comment_str[at_sign_index + 2..]; continue; }")]),
    ("the JSX pair is set always", COMMENTS, [("if jsx.jsx_plugin || jsx.development {\n                    jsx.pragma =", "if true {\n                    jsx.pragma =")]),
    ("VT doesn't end a value", COMMENTS, [("b' ' | b'\\t' | b'\\r' | b'\\n' | VT | FF", "b' ' | b'\\t' | b'\\r' | b'\\n' | FF")]),
    ("an unknown keyword ends the search", COMMENTS, [("// Unrecognised pragma - search for another\n                continue;", "return None;")]),
    ("an empty value doesn't end the comment", COMMENTS, [("if value.is_empty() { None }", "if value.is_empty() { find_jsx_pragma(comment_str) }")]),
    ("the keyword ends at a line end too", COMMENTS, [("position(|&b| matches!(b, b' ' | b'\\t'))?", "position(|&b| matches!(b, b' ' | b'\\t' | b'\\n'))?")]),
    ("Frag sets the pragma", COMMENTS, [("jsx.pragma_frag = Some(value.to_string());", "jsx.pragma = Some(value.to_string());")]),
    ("arrows end the search for a constructor", SELF, [("if flags.is_block() || flags.is_arrow() {", "if flags.is_block() {")]),
    ("no class counts as a superclass", SELF, [("            }\n        }\n        true\n", "            }\n        }\n        false\n")]),
    ("the outermost class decides", SELF, [("for ancestor in ctx.ancestors() {", "for ancestor in ctx.ancestors().collect::<Vec<_>>().into_iter().rev() {")]),
    ("the column counts from 0", SOURCE, [("(line + 1, column + 1)", "(line + 1, column)")]),
    ("development doesn't turn on the source plugin", OPTIONS, [("            self.jsx_source_plugin = true;\n", "")]),
]


def oracle(source, cases, printed):
    """Writes what an oracle built from this source prints, and says whether it comes to an end."""
    environment = dict(os.environ, OXC_SRC=source, CARGO_TARGET_DIR=os.path.join(HERE, "target", "faults"))
    subprocess.run(["cargo", "build", "--quiet", "--offline", "-j1", "--release"], cwd=HERE, env=environment, check=True,
                   stderr=subprocess.PIPE)
    program = os.path.join(HERE, "target", "faults", "release", "oracle")
    with open(printed, "wb") as out:
        run = subprocess.run([program, cases, "--plain-fragments", "--notices", "1024"], stdout=out, stderr=subprocess.DEVNULL)
    return run.returncode == 0


def differing(cases, printed, answers):
    """In how many cases the two differ."""
    with open(cases, "rb") as file:
        pairs = itertools.zip_longest(oracle_answers(unpack(file.read()), printed), answers_in(answers), fillvalue=[])
    return sum(len(ours) != len(theirs) or not all(map(agrees, ours, theirs)) for ours, theirs in pairs)


def main():
    cases, answers, chosen = *sys.argv[1:3], set(map(int, sys.argv[3:]))
    source = os.environ["OXC_SRC"]
    work = tempfile.TemporaryDirectory()
    printed = os.path.join(work.name, "printed")
    if not oracle(source, cases, printed) or differing(cases, printed, answers):
        sys.exit("the Rust without a fault differs already")
    unseen = []
    for number, (what, file, edits) in enumerate(FAULTS):
        if chosen and number not in chosen:
            continue
        with tempfile.TemporaryDirectory() as folder:
            copy = os.path.join(folder, "src")
            shutil.copytree(source, copy, copy_function=shutil.copyfile)
            os.chmod(copy, 0o755)
            for place, _, _ in os.walk(copy):
                os.chmod(place, 0o755)
            path = os.path.join(copy, file)
            with open(path) as handle:
                text = handle.read()
            for old, new in edits:
                if text.count(old) != 1:
                    sys.exit(f"{number} {what}: the text to change occurs {text.count(old)} times")
                text = text.replace(old, new)
            with open(path, "w") as handle:
                handle.write(text)
            try:
                ended = oracle(copy, cases, printed)
            except subprocess.CalledProcessError as error:
                sys.exit(f"{number} {what}: doesn't build\n{error.stderr.decode()}")
        how_many = differing(cases, printed, answers) if ended else 0
        if ended and not how_many:
            unseen.append(what)
        print(f"{number} {what}:", "breaks off" if not ended else f"{how_many} cases differ" if how_many else "NOT SEEN", flush=True)
    count = len(chosen) if chosen else len(FAULTS)
    print(f"{count} faults, {count - len(unseen)} seen")
    sys.exit(1 if unseen else 0)


if __name__ == "__main__":
    main()
