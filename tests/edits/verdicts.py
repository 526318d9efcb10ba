"""What a check says of an edit: refused because a fact fails, broken, or neither.

An edit shows something only where a goal of the function (or law) that it concerns does not hold. The check tells that in three ways: an answer or a law is no
proof of what it is for; a goal without an answer is not proved; or values are known at which the goal is false. A name that isn't there, a goal or a step that the
edited code calls otherwise, a syntax error show nothing: such an edit is broken, unless values were found, or else its comment `# names:` has the new names.
"""

import re

# an error is a line, and more that are indented
ERROR = re.compile(r"^(\S+?):\d+:\d+: error: (?:`([^`]*)`: )?(.*(?:\n  .*)*)$", re.M)
# what follows from another refusal
FOLLOWS = re.compile(r"declarations? that depends? on `|was not admitted \(|so this cannot be checked")
# what says that a goal doesn't hold: two sides that differ, a rewriting that finds nothing to rewrite, a tactic that fails
FAILS = re.compile(
    r"the two (?:types|sides|values) |expected type|does not hold|no occurrence of the path's (?:left|right) endpoint in the goal|no part of the goal|give a proof of that as the last argument"
    r"|does not follow|no proof |found no|did not prove|gave up"
)
# what says that the proof's text no longer fits the code's shape, or that the edit itself is no Rattle or antt
SHAPE = re.compile(r"has no `|has no field|is not in scope|not found|^unexpected|^expected (?!type)|already brought in|can be named from here")
# a goal of the function whose line comes next, by its place in the source and its name
LEFT = re.compile(r"^note: (src/\S+?):(\d+):\d+: it is not proved that .*?\(`([^`]+)`\)(.*)$")
LINE = re.compile(r"^(?:fn|struct|enum|impl|trait|closure|type) (\S+): ")
UNPROVED = re.compile(r"`search` did not prove (.*)$")
FALSE = "the facts known there allow values at which this goal is false"
# where examples stand that are computed from definitions
EXAMPLES = ("specs/", "proofs/Examples.antt")


class Verdict:
    """`kind` is refused, broken or open; `why` is where and by which words."""

    def __init__(self, kind, why):
        self.kind, self.why = kind, why


def errors(said):
    """Errors that don't follow from others: file, declaration, message, in the order of the check."""
    return [(file.removeprefix("./"), name or "", message) for file, name, message in ERROR.findall(said) if not FOLLOWS.search(message)]


def by_error(file, name, message):
    """A declaration's first error."""
    why = f"{file}: {name}: {' '.join(message.split())[:90]}"
    return Verdict("refused" if name and FAILS.search(message) and not SHAPE.search(message) else "broken", why)


def goals(said, function):
    """The function's goals that are not proved, and whether values are known at which they are false."""
    notes = []
    for line in said.split("\n"):
        left, end = LEFT.match(line), LINE.match(line)
        if left:
            notes.append((left[1], int(left[2]), left[3], FALSE in left[4]))
        elif end and end[1] == function.path:
            unproved = UNPROVED.search(line)
            named = re.findall(r"`([^`]+)`", unproved[1]) if unproved else []
            here = [note for note in notes if note[0] == f"src/{function.file}" and note[1] in function.lines]
            return [(goal, is_false) for _, _, goal, is_false in here] + [(goal, False) for goal in named if goal not in [note[2] for note in here]]
        elif end:
            notes = []
    return []


def of_function(said, function):
    """The verdict of a check on an edit of this function's body."""
    left = goals(said, function)
    for goal, is_false in left:
        if is_false:
            return Verdict("refused", f"{function.path}: {goal}: {FALSE}")
    own = []
    for file, name, message in errors(said):
        folder, _, last = file.rpartition("/")
        if folder in function.folders() and last in ("Answers.antt", "Invariants.antt", "Proof.antt") and function.owns(name):
            own.append(by_error(file, name, message))
    if own:
        # a name that is gone makes the others doubtful, though it may not be the first
        return next((each for each in own if each.kind == "broken"), own[0])
    if left:
        return Verdict("refused", f"{function.path}: {left[0][0]} is not proved")
    return Verdict("open", "")


def of_definition(said):
    """The verdict of a check on an edit of a definition: the first error of all counts, an example's that is computed from it before a law's."""
    found = sorted(errors(said), key=lambda error: not error[0].startswith(EXAMPLES))
    if found:
        return by_error(*found[0])
    for line in said.split("\n"):
        left = LEFT.match(line)
        if left:
            return Verdict("refused", f"{left[1]}: {left[3]} is not proved")
    return Verdict("open", "")
