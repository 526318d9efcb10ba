"""A job's state outside the program: its packed bytes, and which states are forged, read from the specification a second time.

The layout is that of crates/packing/specs/Packed.antt. What is forged was written from the specification's list ("Turned away"), not from the
definitions or the code. Used by the expected.py of test programs.
"""

from model import CREATE, DEV, FILE, FRAGMENT, JSX, JSXS, Settings, form_of

SIZE, PLACES, MOST = 102, 8, 8
ROOTS = ["default", "this", "importmeta", "identifier"]
SPANS = ["pragma", "frag", "importing", "ts", "tsfrag"]
FLAGS = ["plugin", "self", "source", "classic", "dev", "throw", "pure_option", "module"]


class State:
    """Settings as model.py has them, the records in use as (thing, binding), how many the state says it has, and both fills."""

    def __init__(self, settings, records=(), calls=0, notices=0, count=None):
        self.settings, self.records, self.calls, self.notices = settings, list(records), calls, notices
        self.count = len(self.records) if count is None else count


def mode(settings):
    return "classic" if settings.classic else "module" if settings.module else "script"


def packed(state):
    s = state.settings
    out = bytes([sum(getattr(s, name) << bit for bit, name in enumerate(FLAGS))])
    for name in SPANS:
        span = getattr(s, name)
        out += bytes([span is not None]) + b"".join(number.to_bytes(2, "little") for number in span or (0, 0))
    out += bytes([s.pure, ["module", "script", "classic"].index(mode(s))])
    for form in s.forms:
        root, tail = form.split(".") if form != "-" else ("default", 0)
        out += bytes([ROOTS.index(root)]) + int(tail).to_bytes(8, "little")
    for (source, name), binding in state.records + [((None, FILE), 0)] * (PLACES - len(state.records)):
        out += bytes([2, 0, 0, binding] if source is None else [1, source, 0, binding] if name is None else [0, source, name, binding])
    return out + b"".join(number.to_bytes(8, "little") for number in (state.count, state.calls, state.notices))


def unpacked(data):
    """The state of bytes that are a state's."""
    assert len(data) == SIZE
    s = Settings()
    for bit, name in enumerate(FLAGS):
        setattr(s, name, data[0] >> bit & 1)
    for number, name in enumerate(SPANS):
        present, *span = data[1 + 5 * number:6 + 5 * number]
        setattr(s, name, (span[0] + 256 * span[1], span[2] + 256 * span[3]) if present else None)
    # the mode alone says what is called; flags that disagree with it change nothing
    s.pure, s.classic, s.module = data[26], int(data[27] == 2), int(data[27] == 0)
    s.forms = [f"{ROOTS[data[at]]}.{int.from_bytes(data[at + 1:at + 9], 'little')}" for at in (28, 37)]
    count, calls, notices = [int.from_bytes(data[at:at + 8], "little") for at in (78, 86, 94)]
    records = []
    for at in range(46, 46 + 4 * min(count, PLACES), 4):
        kind, source, name, binding = data[at:at + 4]
        records.append(([(source, name), (source, None), (None, FILE)][kind], binding))
    return State(s, records, calls, notices, count)


def bears_out(text, span):
    """Whether a span lies within the text and cuts no character."""
    if span is None:
        return True
    start, end = span[0], span[0] + span[1]
    return end <= len(text) and all(place == len(text) or text[place] & 0xC0 != 0x80 for place in (start, end))


def bears_out_form(text, settings, span, form):
    """Whether the text gives this form of a pragma. A classic job has none with a byte over 7F, since its opening is refused (5), so that no form fits one."""
    if not settings.classic:
        return form in ("-", "default.0")
    if span is not None and any(byte > 0x7F for byte in text[span[0]:span[0] + span[1]]):
        return False
    return (form if form != "-" else "default.0") == form_of(text, span)


def can_bind(settings):
    """What jobs with these settings can import, require or name."""
    things = [(None, FILE)] if settings.source else []
    if mode(settings) == "module":
        runtime = [DEV] if settings.dev else [JSX, JSXS]
        return things + [(0, CREATE)] + [(1, name) for name in [FRAGMENT] + runtime]
    return things + ([(0, None), (1, None)] if mode(settings) == "script" else [])


def is_forged(text, state):
    """The specification's list, without the fills, which only a root compares with its targets."""
    s = state.settings
    if state.count > MOST or not all(bears_out(text, getattr(s, name)) for name in SPANS):
        return True
    things = [thing for thing, _ in state.records]
    return (
        not all(bears_out_form(text, s, span, form) for span, form in zip((s.pragma, s.frag), s.forms))
        or [binding for _, binding in state.records] != list(range(len(things)))
        or len(set(things)) != len(things)
        or any(thing not in can_bind(s) for thing in things)
    )
