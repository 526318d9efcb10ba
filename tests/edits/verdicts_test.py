#!/usr/bin/env python3
"""That edits are judged as they should be, and read with the right names: python3 tests/edits/verdicts_test.py

What checks said of edits, cut to the lines that count, and the verdict that each has to get.
"""

import sys

sys.dont_write_bytecode = True
from edits import Edit  # noqa: E402
from functions import Function, HEAD, found_in, type_name  # noqa: E402
import verdicts  # noqa: E402

END = "\nlogic=not-proved\n"
DIFFER = """as printed, the two types first differ where one has `0` (expected), right after `… c.args.span.len)`
  and the other has `c.args.span.start` (found)"""
EXPECTED = "expected type `length c.args.a.now ≡ length c.args.b.now`, but this has type `length c.args.b.now ≤ length c.args.a.now`"
NOTHING = "`rw`: no occurrence of the path's left endpoint in the goal: write the family yourself and transport"
OMEGA = "`omega`: the part `.2.0` of the goal does not follow from what it read. All of that holds, and the part fails, at `lib.ListN.get_or c.args.s.now 0 0` = 192"
GIVE = "give a proof of that as the last argument, `rw L t` (`rw L ?` shows it as a hole's goal), or add what is missing to the list"
NO_GOAL = "`goal.returns-then-span-eq0`: module `Rattle.text.proofs.spans.span_bounds.Goals` has no `returns-then-span-eq0` that can be named from here"
NO_STEP = "record `Rattle.text.proofs.spans.span_bounds.Lts.View.In-Else-span-eq1` has no field `if-span-eq0` (nearest: .if-span-eq1)"
FOLLOWS = "9 declarations that depend on `room`, which was rejected, were not checked: bounds-out-at, overflow_add-out and 7 more"
NOT_ADMITTED = "`returns` was not admitted (it has holes or undetermined implicits, or was rejected), so this cannot be checked"
CALLS = "it calls `text::spans::cuts_at`, which is not proved"
FALSE = "; the facts known there allow values at which this goal is false"
LIMIT = "; `search` gave up at one of its limits"


def error(file, name, message):
    return f"./{file}:13:42: error: `{name}`: {message}\n"


def goal(line, name, more=""):
    return f"note: src/spans.rt:{line}:9: it is not proved that what the function ensures holds when it returns (`{name}`){more}\n"


def fn(path, said):
    return f"fn {path}: {said}\n"


SOURCE = """fn cuts_at(text: &[u8], i: usize) -> bool
    ensures { result ≡ cuts_at text.now i }
{
    false
}

pub fn span_bounds(text: &[u8], span: Span) -> Bounds
    ensures { result ≡ bounds_of text.now span }
{
    Bounds::Good
}

#[cycle(kids)]
fn check(tape: &[u8]) -> usize
{
    0
}

#[cycle(kids)]
fn check_kids(tape: &[u8]) -> usize
{
    0
}
"""
FUNCTIONS = {found[2]: Function("", "text", "spans.rt", found, SOURCE) for found in HEAD.finditer(SOURCE)}
FUNCTIONS["check"].members = FUNCTIONS["check_kids"].members = ["check", "check_kids"]
METHODS = """trait Weigh {
    fn weight(self) -> u8;
}

impl Span {
    pub fn is_empty(self) -> bool
        ensures { result ≡ eqb self.len 0 }
    {
        self.len == 0
    }

    #[inline]
    fn end(self) -> usize {
        self.start + self.len
    }
}

impl<'a> Encode for &'a [u8] {
    ghost bytes = { λ s. s.now };

    fn encode(self, out: &mut [u8], at: usize) -> usize {
        if out.is_empty() {
            return at;
        }
        at + self.len()
    }
}

impl<const N: usize> Encode for [u8; N] {
    fn encode(self, out: &mut [u8], at: usize) -> usize {
        self.as_slice().encode(out, at)
    }
}

impl Weigh for Span {
    fn weight(self) -> u8 {
        1
    }
}

impl TryFrom<u8> for Mode {
    fn try_from(n: u8) -> Result<Mode, u8>
        ensures { result ≡ mode_by n }
    {
        Err(n)
    }
}

impl<'a, T, F: Fn(&T) -> bool> Pass<T> for Parts<'a, F>
where
    F: Copy,
{
    fn pass(&self) -> bool {
        true
    }
}
"""
FOUND = {function.path: function for function in found_in("", "text", "spans.rt", METHODS)}
# a method, whether it is exported, its first line and the one behind its last, and where its proof stands
PLACES = [
    ("text::spans::Span::is_empty", True, 6, 11, "proofs/spans/Span/is_empty"),
    ("text::spans::Span::end", False, 12, 16, "proofs/spans/Span/end"),
    ("text::spans::RefSliceU8Encode::encode", True, 21, 27, "proofs/spans/RefSliceU8Encode/encode"),
    ("text::spans::ArrayU8Encode::encode", True, 30, 33, "proofs/spans/ArrayU8Encode/encode"),
    ("text::spans::SpanWeigh::weight", False, 36, 39, "proofs/spans/SpanWeigh/weight"),
    ("text::spans::ModeTryFromU8::try_from", True, 42, 47, "proofs/spans/ModeTryFromU8/try_from"),
    ("text::spans::PartsPass::pass", True, 53, 56, "proofs/spans/PartsPass/pass"),
]
TYPES = [("Span", "Span"), ("u16", "U16"), ("Pen<'_>", "Pen"), ("&'a [u8]", "RefSliceU8"), ("[u8; N]", "ArrayU8"), ("crate::Place", "Place"), ("()", "Unit"), ("(u8, &[u8])", "Tuple2U8RefSliceU8")]
FUNCTIONS.update((function.path, function) for function in FOUND.values())
SLICE, ARRAY = "text::spans::RefSliceU8Encode::encode", "text::spans::ArrayU8Encode::encode"
BOUNDS, CUTS, KIDS = "proofs/spans/span_bounds/Answers.antt", "proofs/spans/cuts_at/Answers.antt", "proofs/spans/+kids/Answers.antt"
NOT = fn("text::spans::span_bounds", "not proved")
OFFERED = fn("text::spans::span_bounds", "no proof: expected answers in ./proofs/spans/span_bounds/Answers.antt; `search` did not prove `returns`")
CASES = [
    ("two sides differ", "span_bounds", error(BOUNDS, "returns-then-end-text", DIFFER) + NOT, "refused"),
    ("a fact of another form", "span_bounds", error(BOUNDS, "returns", EXPECTED) + NOT, "refused"),
    ("nothing to rewrite", "span_bounds", error(BOUNDS, "returns", NOTHING) + NOT, "refused"),
    ("what is left of a rewriting", "span_bounds", error(BOUNDS, "returns", GIVE) + NOT, "refused"),
    ("numbers at which it fails", "span_bounds", error(BOUNDS, "returns", OMEGA) + NOT, "refused"),
    ("a goal that is gone", "span_bounds", error(BOUNDS, "returns-then-span-eq0", NO_GOAL) + goal(9, "returns-then-span-eq1", LIMIT) + NOT, "broken"),
    ("a step that is gone", "span_bounds", error(BOUNDS, "returns", NO_STEP) + NOT, "broken"),
    ("a goal that fails and a step that is gone", "span_bounds", error(BOUNDS, "returns-then-text-end", DIFFER) + error(BOUNDS, "returns", NO_STEP) + NOT, "broken"),
    ("a goal that is gone, and values at which another is false", "span_bounds", error(BOUNDS, "returns-then-span-eq0", NO_GOAL) + goal(9, "returns-then-span-eq1", FALSE) + NOT, "refused"),
    ("words that are not known", "span_bounds", error(BOUNDS, "returns", "`_` was not determined") + NOT, "broken"),
    ("a syntax error in a proof", "span_bounds", f"./{BOUNDS}:3:1: error: unexpected `)`\n" + NOT, "broken"),
    ("a goal without an answer", "span_bounds", goal(7, "returns") + OFFERED, "refused"),
    ("the same, told by its function alone", "span_bounds", OFFERED, "refused"),
    ("a goal of another function", "span_bounds", goal(1, "returns") + fn("text::spans::cuts_at", "not proved") + fn("text::spans::span_bounds", "proved"), "open"),
    ("a goal elsewhere in the source", "span_bounds", goal(90, "returns") + NOT, "open"),
    ("an error that only follows", "span_bounds", error(BOUNDS, "returns", NOT_ADMITTED) + error(BOUNDS, "bounds-out-at", FOLLOWS) + NOT, "open"),
    ("another function's error", "span_bounds", error(CUTS, "returns", DIFFER) + fn("text::spans::span_bounds", "no proof: " + CALLS), "open"),
    ("its own beside a callee's", "span_bounds", error(BOUNDS, "returns", DIFFER) + fn("text::spans::span_bounds", "not proved; " + CALLS), "refused"),
    ("another module's function of that name", "span_bounds", error("proofs/bytes/span_bounds/Answers.antt", "returns", DIFFER), "open"),
    ("a member of a cycle", "check_kids", error(KIDS, "check_kids-returns", DIFFER), "refused"),
    ("another member of it", "check", error(KIDS, "check_kids-returns", DIFFER), "open"),
    ("a measure of it", "check", error(KIDS.replace("Answers", "Invariants"), "decreases-check", DIFFER), "refused"),
    ("a method", SLICE, error("proofs/spans/RefSliceU8Encode/encode/Answers.antt", "returns", DIFFER), "refused"),
    ("a method's goal", SLICE, goal(25, "returns") + fn(SLICE, "not proved"), "refused"),
    ("a method of another type", SLICE, error("proofs/spans/ArrayU8Encode/encode/Answers.antt", "returns", DIFFER), "open"),
    ("its goal", SLICE, goal(31, "returns") + fn(ARRAY, "not proved"), "open"),
    ("a law", None, error("proofs/Boundaries.antt", "cuts_from", DIFFER) + error("proofs/Boundaries.antt", "boundary_next", FOLLOWS), "refused"),
    ("a name that is not there", None, error("proofs/Boundaries.antt", "cuts_from", "`calls_of` is not in scope"), "broken"),
    ("an example before a law", None, error("proofs/Boundaries.antt", "cuts_from", "`x` is not in scope") + error("specs/Examples.antt", "bounds", DIFFER), "refused"),
    ("an example that is proved in proofs/", None, error("proofs/Boundaries.antt", "cuts_from", "`x` is not in scope") + error("proofs/Examples.antt", "computed", DIFFER), "refused"),
    ("a definition that is no antt", None, "./specs/Spans.antt:5:1: error: unexpected `)`\n", "broken"),
    ("a goal behind a definition", None, goal(7, "returns") + OFFERED, "refused"),
    ("nothing", None, "", "open"),
]

# an answer, whose it is, and how it reads where `if-s-i` is `if-s-b`
NAMES = {"if-s-i": "if-s-b", "returns-then-s-i": "returns-then-s-b"}
RENAMED = [
    ("a goal and a step", "cuts_at", "pub returns-then-s-i : goal.returns-then-s-i\nreturns-then-s-i c = f c.if-s-i.true", "pub returns-then-s-b : goal.returns-then-s-b\nreturns-then-s-b c = f c.if-s-b.true"),
    ("whole names alone", "cuts_at", "pub bounds-s-i : goal.bounds-s-i\nbounds-s-i c = c.if-s-i-ge2.true", "pub bounds-s-i : goal.bounds-s-i\nbounds-s-i c = c.if-s-i-ge2.true"),
    ("another member's answer", "check", "pub check_kids-returns : goal.x\ncheck_kids-returns c = c.if-s-i.true", "pub check_kids-returns : goal.x\ncheck_kids-returns c = c.if-s-i.true"),
    ("its own", "check_kids", "pub check_kids-returns : goal.x\ncheck_kids-returns c = c.if-s-i.true", "pub check_kids-returns : goal.x\ncheck_kids-returns c = c.if-s-b.true"),
]


def main():
    for what, name, said, wanted in CASES:
        said = "\n" + said + END
        found = verdicts.of_function(said, FUNCTIONS[name]) if name else verdicts.of_definition(said)
        if found.kind != wanted:
            raise SystemExit(f"{what}: {found.kind}, not {wanted}")
    edit = Edit.__new__(Edit)
    edit.names = NAMES
    for what, name, text, wanted in RENAMED:
        if edit.renamed(text, FUNCTIONS[name]) != wanted:
            raise SystemExit(f"{what}: {edit.renamed(text, FUNCTIONS[name])}")
    for path, *wanted in PLACES:
        function = FOUND.get(path)
        found = function and [function.exported, function.lines.start, function.lines.stop, function.folders()[0]]
        if found != wanted:
            raise SystemExit(f"{path}: {found}, not {wanted}")
    for text, wanted in TYPES:
        if type_name(text) != wanted:
            raise SystemExit(f"{text}: {type_name(text)}, not {wanted}")
    cases = CASES, RENAMED, PLACES, TYPES
    print(f"verdicts on edits: {sum(map(len, cases))} as they should be")


if __name__ == "__main__":
    main()
