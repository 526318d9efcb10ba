"""Prints call and record tapes as JavaScript, so that they can be read beside what other tools print. Nothing of this is proved."""

import json

IMPORTED = ["Fragment", "createElement", "jsx", "jsxs", "jsxDEV"]
FILE = "/sheet.jsx"


class Printer:
    def __init__(self, sample, opening, records):
        """`opening` is the answer's line on the settings, `records` the record tape."""
        words = opening.split(" ")
        self.text, self.expressions = sample.source.encode(), sample.expressions
        value = lambda at: bytes.fromhex(words[at][1:]).decode() if words[at] != "-" else None
        at = words.index("pragma")
        self.pragmas = [value(at + 1) or "React.createElement", value(at + 4) or "React.Fragment"]
        for which, form in enumerate((words[at + 2], words[at + 5])):
            if form.startswith("default"):
                self.pragmas[which] = ["React.createElement", "React.Fragment"][which]
        base = value(words.index("import") + 1) or "react"
        development = words[words.index("development") + 1] == "1"
        self.sources = [base, base + ("/jsx-dev-runtime" if development else "/jsx-runtime")]
        self.done, self.head = {}, self.records(records)

    # ---- what stands in front

    def records(self, tape):
        self.bindings, statements, at, source = {}, [], 0, 0
        while at < len(tape):
            code = tape[at]
            if code == 0xB0:
                source, at = tape[at + 1], at + 2
                statements.append([source])
            elif code == 0xB1:
                name = IMPORTED[tape[at + 1]]
                self.bindings[tape[at + 2]] = "_" + name
                statements[-1].append(f"{name} as _{name}")
                at += 3
            elif code == 0xB2:
                self.bindings[tape[at + 1]] = ["_react", "_reactJsxRuntime"][source]
                statements[-1].append(self.bindings[tape[at + 1]])
                at += 2
            else:
                self.bindings[tape[at + 1]] = "_jsxFileName"
                statements.insert(0 if tape[at + 2] == 0 else len(statements), f"var _jsxFileName = {json.dumps(FILE)};")
                at += 3
        lines = []
        for statement in statements:
            if isinstance(statement, str):
                lines.append(statement)
            elif " as " in statement[1]:
                lines.append(f"import {{ {', '.join(statement[1:])} }} from {json.dumps(self.sources[statement[0]])};")
            else:
                lines.append(f"var {statement[1]} = require({json.dumps(self.sources[statement[0]])});")
        return lines

    # ---- calls

    def u16(self):
        self.at += 2
        return int.from_bytes(self.tape[self.at - 2:self.at], "little")

    def u32(self):
        return self.u16() + self.u16() * 65536

    def span(self):
        start, size = self.u16(), self.u16()
        return self.text[start:start + size].decode()

    def byte(self):
        self.at += 1
        return self.tape[self.at - 1]

    def peek(self):
        return self.tape[self.at]

    def expression(self):
        """An expression of the host's. JSX within it was a root of its own."""
        code = self.expressions[self.u16()]
        for jsx, call in self.done.items():
            code = code.replace(jsx, call)
        return code

    def call(self, tape):
        self.tape, self.at = tape, 0
        printed = self.value()
        assert self.at == len(tape)
        return printed

    def value(self):
        code = self.byte()
        if code == 0x80:
            return self.automatic() if self.byte() else self.classic()
        if code == 0x8A:
            return json.dumps(self.letters(), ensure_ascii=False)
        if code in (0x90, 0x91, 0x92, 0x88):
            return {0x90: "true", 0x91: "false", 0x92: "void 0", 0x88: "null"}[code]
        if code in (0x94, 0x89):
            return self.expression()
        if code == 0x9C:
            return "..." + self.expression()
        if code == 0x98:
            return self.pragmas[self.byte()]
        printed = {0x93: lambda: "this", 0x96: lambda: self.bindings[self.byte()], 0x97: self.span}[code]()
        while self.at < len(self.tape) and self.peek() in (0x99, 0xA3):
            printed += "." + (IMPORTED[self.byte()] if self.byte() == 0x99 else self.span())
        return printed

    def letters(self):
        printed = ""
        while True:
            code = self.byte()
            if code == 0x8D:
                return printed
            printed += {0x8B: self.span, 0x8C: lambda: " ", 0x8E: lambda: ":"}[code]()

    def source(self):
        name, line, column = self.bindings[self.byte()], self.u32(), self.u32()
        return f"{{ fileName: {name}, lineNumber: {line}, columnNumber: {column} }}"

    def object(self):
        self.byte()
        properties = []
        while True:
            code = self.byte()
            if code == 0x82:
                return "{" + ", ".join(properties) + "}"
            if code == 0x83:
                properties.append(self.span() + ": " + self.value())
            elif code == 0x84:
                self.byte()
                properties.append(json.dumps(self.letters()) + ": " + self.value())
            elif code == 0x86:
                properties.append("..." + self.expression())
            elif code == 0x87:
                properties.append(self.expression())
            elif code == 0xA1:
                properties.append("__source: " + self.source())
            elif code == 0xA2:
                properties.append("__self: this")
            else:
                items = []
                while self.peek() != 0x9B:
                    items.append(self.value())
                self.byte()
                properties.append("children: " + ("[" + ", ".join(items) + "]" if self.byte() else items[0]))

    def ended(self, arguments):
        self.byte()
        tag = self.value()
        self.byte()
        callee = self.value()
        self.byte()
        pure = "/* @__PURE__ */ " if self.byte() else ""
        return f"{pure}{callee}({', '.join([tag, *arguments])})"

    def automatic(self):
        arguments = [self.object()]
        while self.peek() != 0x9E:
            if self.peek() == 0x9D:
                self.byte()
                arguments.append(self.value())
            elif self.peek() == 0xA1:
                self.byte()
                arguments.append(self.source())
            elif self.peek() == 0xA2:
                self.byte()
                arguments.append("this")
            else:
                arguments.append(self.value())
        return self.ended(arguments)

    def classic(self):
        arguments = [self.object() if self.peek() == 0x81 else self.value()]
        while self.peek() != 0x9E:
            arguments.append(self.value())
        return self.ended(arguments)


def notices(text, tape):
    at, lines = 0, []
    while at < len(tape):
        spans = [tape[at + 1:at + 5], tape[at + 5:at + 9]] if tape[at] == 0xC1 else [tape[at + 1:at + 5]]
        words = []
        for span in spans:
            start, size = int.from_bytes(span[:2], "little"), int.from_bytes(span[2:], "little")
            words.append(text[start:start + size].decode())
        said = {0xC0: "key without value", 0xC1: "namespaced tag " + ":".join(words), 0xC2: f"pragma not valid at byte {start}: `{words[0]}`"}
        lines.append("notice: " + said[tape[at]])
        at += 1 + 4 * len(spans)
    return lines


def printed(sample, answer):
    """The sample's program with its JSX replaced, from an answer's lines; or what was refused."""
    for line in answer:
        if " refused" in line or line.startswith("unwritten"):
            return line
    tapes = {word: [bytes.fromhex(line[len(word):]) for line in answer if line.split(" ")[0] == word] for word in ("calls", "notices", "records")}
    printer = Printer(sample, answer[0], tapes["records"][0])
    for (code, _), tape in zip(sample.roots, tapes["calls"]):
        printer.done[code] = printer.call(tape)
    program = sample.source
    # an outer root comes after those within it
    for code, call in reversed(printer.done.items()):
        program = program.replace(code, call)
    told = [line for tape in tapes["notices"] for line in notices(printer.text, tape)]
    return "\n".join(printer.head + [program]), told
