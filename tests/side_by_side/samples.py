"""Sheets written as JSX, each with its root tapes beside it, written by hand."""


class Tapes:
    """Spans are those of a word's first occurrence in the source, places those of a piece of source; E counts what the host keeps."""

    def __init__(self, source):
        self.source, self.expressions = source, []

    def span(self, word):
        start = self.source.encode().index(word.encode())
        return start.to_bytes(2, "little") + len(word.encode()).to_bytes(2, "little")

    def place(self, piece):
        before = self.source[:self.source.index(piece)].split("\n")
        return (len(before) - 1).to_bytes(4, "little") + len(before[-1]).to_bytes(4, "little")

    def kept(self, code):
        self.expressions.append(code)
        return (len(self.expressions) - 1).to_bytes(2, "little")

    # ---- roots and nodes

    def root(self, code, node, heritage=0, scopes=(3,)):
        """The JSX that is replaced, and its tape."""
        return code, bytes([0x01, heritage]) + b"".join(bytes([0x02, kind]) for kind in scopes) + node

    def element(self, piece, name, attributes=b"", children=b""):
        return b"\x10" + self.place(piece) + name + attributes + b"\x1e" + children + b"\x1f"

    def fragment(self, piece, children=b""):
        return b"\x11" + self.place(piece) + children + b"\x1f"

    # ---- names

    def string(self, name):
        return b"\x20" + self.span(name)

    def identifier(self, name, *members):
        return b"\x21" + self.span(name) + b"".join(b"\x25" + self.span(member) for member in members)

    def this(self, *members):
        return b"\x22" + b"".join(b"\x25" + self.span(member) for member in members)

    def namespaced(self, namespace, name):
        return b"\x23" + self.span(namespace) + self.span(name)

    # ---- attributes and their values

    def plain(self, name, value):
        return b"\x30" + self.span(name) + value

    def pair(self, namespace, name, value):
        return b"\x31" + self.span(namespace) + self.span(name) + value

    def spread(self, code):
        return b"\x32" + self.kept(code)

    def literal(self, code, *properties):
        """Each property with the name that `prop_name` gives, or None."""
        tape = b"\x33" + self.kept(code)
        for property_code, name in properties:
            tape += b"\x34" + self.kept(property_code) if name is None else b"\x36" + self.kept(property_code) + self.span(name)
        return tape + b"\x35"

    NONE, EMPTY = b"\x40", b"\x43"

    def quoted(self, value):
        return b"\x41" + self.span(value)

    # ---- expressions, also as children; texts; spread children

    def expression(self, code):
        return b"\x42" + self.kept(code)

    def text(self, letters):
        return b"\x50" + self.span(letters)

    def spread_child(self, code):
        return b"\x51" + self.kept(code)


# flag bits of the opening tape
PLUGIN, SELF, SOURCE, CLASSIC, DEVELOPMENT, THROW, PURE, MODULE = (1 << bit for bit in range(8))


class Sample:
    def __init__(self, name, source, roots, flags=PLUGIN | MODULE, comment=None):
        tapes = Tapes(source)
        self.name, self.source, self.flags = name, source, flags
        self.roots = roots(tapes)
        self.expressions = tapes.expressions
        self.job = b"\x61" + flags.to_bytes(2, "little") + (b"\x60" + tapes.span(comment) if comment else b"")


CONSTRUCTOR = """class C extends B {
  constructor() { super(); x = <a />; }
  m() { x = <b />; }
}"""

SAMPLES = [
    Sample("text lines", "x = <p>\n  one\n  two  {three}  four\n\n</p>;", lambda t: [
        t.root("<p>\n  one\n  two  {three}  four\n\n</p>", t.element("<p>", t.string("p"), b"",
            t.text("\n  one\n  two  ") + t.expression("three") + t.text("  four\n\n")))]),
    Sample("text with a tab, and U+00A0 at a line's end", "x = <p>one\ttwo\u00a0\n  three</p>;", lambda t: [
        t.root("<p>one\ttwo\u00a0\n  three</p>", t.element("<p>", t.string("p"), b"", t.text("one\ttwo\u00a0\n  three")))]),
    Sample("a key before a spread", 'x = <a key="1" {...p} b />;', lambda t: [
        t.root('<a key="1" {...p} b />', t.element("<a", t.string("a"),
            t.plain("key", t.quoted("1")) + t.spread("p") + t.plain("b", t.NONE)))]),
    Sample("a key after a spread, and the order of imports", 'x = <a {...p} key="1" />; y = <b c={<d />} />;', lambda t: [
        t.root('<a {...p} key="1" />', t.element("<a", t.string("a"), t.spread("p") + t.plain("key", t.quoted("1")))),
        t.root("<d />", t.element("<d", t.string("d"))),
        t.root("<b c={<d />} />", t.element("<b", t.string("b"), t.plain("c", t.expression("<d />"))))]),
    Sample("a key without a value", "x = <a key />;", lambda t: [
        t.root("<a key />", t.element("<a", t.string("a"), t.plain("key", t.NONE)))]),
    Sample("a sole spread child", "x = <a>{...b}</a>;", lambda t: [
        t.root("<a>{...b}</a>", t.element("<a", t.string("a"), b"", t.spread_child("b")))]),
    Sample("a fragment", "x = <>{one}<a /></>;", lambda t: [
        t.root("<>{one}<a /></>", t.fragment("<>", t.expression("one") + t.element("<a", t.string("a"))))]),
    Sample("a fragment in development", "x = <><a /></>;", lambda t: [
        t.root("<><a /></>", t.fragment("<>", t.element("<a", t.string("a"))))], PLUGIN | MODULE | DEVELOPMENT),
    Sample("namespaced names", 'x = <a:b c:d="1" e-f />;', lambda t: [
        t.root('<a:b c:d="1" e-f />', t.element("<a", t.namespaced("a", "b"),
            t.pair("c", "d", t.quoted("1")) + t.plain("e-f", t.NONE)))]),
    Sample("namespaced names, throw_if_namespace", "x = <a:b />;", lambda t: [
        t.root("<a:b />", t.element("<a", t.namespaced("a", "b")))], PLUGIN | MODULE | THROW),
    Sample("member names", "x = <a.b.c><this.d /><E /></a.b.c>;", lambda t: [
        t.root("<a.b.c><this.d /><E /></a.b.c>", t.element("<a", t.identifier("a", "b", "c"), b"",
            t.element("<this", t.this("d")) + t.element("<E", t.identifier("E"))))]),
    Sample("self and source in a derived class, automatic", CONSTRUCTOR, lambda t: [
        t.root("<a />", t.element("<a", t.string("a")), 2, (2,)),
        t.root("<b />", t.element("<b", t.string("b")), 2, (3,))], PLUGIN | MODULE | DEVELOPMENT),
    Sample("self and source in a derived class, classic", CONSTRUCTOR, lambda t: [
        t.root("<a />", t.element("<a", t.string("a")), 2, (2,)),
        t.root("<b />", t.element("<b", t.string("b")), 2, (3,))], PLUGIN | MODULE | CLASSIC | SELF | SOURCE),
    Sample("a pragma within a line of a comment, and what is pure", "/* see @jsx h */ x = <a>b</a>;", lambda t: [
        t.root("<a>b</a>", t.element("<a", t.string("a"), b"", t.text("b")))], PLUGIN | MODULE | CLASSIC, " see @jsx h "),
    Sample("an import source, and what is pure", "/* @jsxImportSource preact */ x = <a>b</a>;", lambda t: [
        t.root("<a>b</a>", t.element("<a", t.string("a"), b"", t.text("b")))], PLUGIN | MODULE, " @jsxImportSource preact "),
    Sample("a lone classic spread", "x = <a {...p} />; y = <b {...{c: 1}} />; z = <d {...{}} {...{}} />;", lambda t: [
        t.root("<a {...p} />", t.element("<a", t.string("a"), t.spread("p"))),
        t.root("<b {...{c: 1}} />", t.element("<b", t.string("b"), t.literal("{c: 1}", ("c: 1", "c")))),
        t.root("<d {...{}} {...{}} />", t.element("<d", t.string("d"), t.literal("{}") + t.literal("{}")))], PLUGIN | MODULE | CLASSIC),
    Sample("literals that are spread, one with __proto__", "x = <a {...{b: 1}} {...{__proto__: c}} />;", lambda t: [
        t.root("<a {...{b: 1}} {...{__proto__: c}} />", t.element("<a", t.string("a"),
            t.literal("{b: 1}", ("b: 1", "b")) + t.literal("{__proto__: c}", ("__proto__: c", "__proto__"))))]),
    Sample("a script", 'x = <><a /></>; y = <b {...p} key="1" />;', lambda t: [
        t.root("<><a /></>", t.fragment("<>", t.element("<a", t.string("a")))),
        t.root('<b {...p} key="1" />', t.element("<b", t.string("b"), t.spread("p") + t.plain("key", t.quoted("1"))))], PLUGIN),
    Sample("a script, createElement first", 'x = <a {...p} key="1" />; y = <b />;', lambda t: [
        t.root('<a {...p} key="1" />', t.element("<a", t.string("a"), t.spread("p") + t.plain("key", t.quoted("1")))),
        t.root("<b />", t.element("<b", t.string("b")))], PLUGIN),
    Sample("a heading with a bare ampersand", "x = <h1>Q & A</h1>;", lambda t: [
        t.root("<h1>Q & A</h1>", t.element("<h1", t.string("h1"), b"", t.text("Q & A")))]),
    Sample("ampersands in a text and in a string", 'x = <p title="&#X41;">a && b</p>;', lambda t: [
        t.root('<p title="&#X41;">a && b</p>', t.element("<p", t.string("p"), t.plain("title", t.quoted("&#X41;")), t.text("a && b")))]),
    Sample("a reference to a name that there is not", "x = <p>R&D;</p>;", lambda t: [
        t.root("<p>R&D;</p>", t.element("<p", t.string("p"), b"", t.text("R&D;")))]),
]
