#!/usr/bin/env python3
"""The number of nodes of a module's text, as crates/ivory_tree/specs/Nodes.antt defines them, for texts that are right by the grammar of
docs/LANGUAGE.md. `python3 bench/nodes.py FILE` prints it."""
import re
import sys

TOKEN = re.compile(r"--[^\n]*|/\*.*?\*/|\s+|(\w+|->|[+*-]%|<<|>>|&&|\|\||[=!<>]=|.)", re.DOTALL)
INTEGERS = {f"{sign}int{width}_t" for sign in ("", "u") for width in (8, 16, 32, 64)}
OPERATORS = set("|| && | ^ & == != < <= > >= << >> + - +% -% * / % *%".split())


class Nodes:
    """The tokens that are left; each method reads one form and gives its nodes, itself included."""

    def __init__(self, text):
        self.tokens = [token for token in TOKEN.findall(text) if token]
        self.at = 0

    def sees(self, *wanted):
        return self.at < len(self.tokens) and self.tokens[self.at] in wanted

    def take(self):
        self.at += 1
        return self.tokens[self.at - 1]

    def skip(self, *wanted):
        for token in wanted:
            if self.take() != token:
                raise SyntaxError(f"{token} is wanted before {self.tokens[self.at:self.at + 5]}")

    def has(self, token):
        seen = self.sees(token)
        self.at += seen
        return seen

    def row(self, form, close):
        """Forms with commas between them, up to a bracket."""
        count = 0
        while not self.has(close):
            count += form()
            self.has(",")
        return count

    def module(self):
        self.skip("module")
        self.take()
        self.skip(";")
        count = 0
        while self.at < len(self.tokens):
            count += self.item()
        return count

    def item(self):
        self.has("const")
        self.has("export")
        return {"bitdata": self.bit_data, "struct": self.struct, "area": self.area_item, "import": self.imported, "proc": self.procedure}[self.take()]()

    def bit_data(self):
        self.at += 3
        self.skip("{")
        return 1 + self.row(self.bit_field, "}")

    def bit_field(self):
        self.at += 3
        return 1

    def struct(self):
        self.take()
        self.skip("{")
        count = 1
        while not self.has("}"):
            self.take()
            self.skip(":")
            count += 1 + self.area()
            self.skip(";")
        return count

    def area_item(self):
        return 1 + self.named_area()

    def named_area(self):
        """An area behind its name, and its first value, up to the semicolon."""
        self.take()
        self.skip(":")
        count = self.area() + (self.init() if self.has("=") else 0)
        self.skip(";")
        return count

    def imported(self):
        count = self.header()
        self.skip(";")
        return 1 + count

    def procedure(self):
        count = 1 + self.header()
        while self.sees("requires", "ensures"):
            self.take()
            count += 1 + self.enclosed()
        return count + self.block()

    def header(self):
        """Parameters and the type of the result; a header is no node of its own."""
        self.take()
        self.skip("(")
        count = self.row(self.parameter, ")")
        return count + (self.type() if self.has("->") else 0)

    def parameter(self):
        self.take()
        self.skip(":")
        return 1 + self.type()

    def type(self):
        self.has("const")
        if self.has("ref"):
            self.take()
            return 1 + self.area()
        if self.take() == "ix":
            self.at += 3
        return 1

    def area(self):
        if self.has("["):
            self.take()
            self.skip("]")
            return 1 + self.area()
        if self.has("struct"):
            self.take()
            return 1
        return 1 + self.type()

    def init(self):
        return 1 + (self.row(self.init, "}") if self.has("{") else self.expression())

    def block(self):
        self.skip("{")
        count = 1
        while not self.has("}"):
            count += self.statement()
        return count

    def statement(self):
        form = self.take()
        if form in ("map", "upto", "downto"):
            self.at += 6
            return 1 + (self.expression() if self.has("last") or self.has("first") else 0) + self.block()
        if form in ("forever", "noalloc", "nobreak", "noreturn"):
            return 1 + self.block()
        if form == "if":
            return self.choice()
        count = self.simple(form)
        self.skip(";")
        return 1 + count

    def choice(self):
        count = 1 + self.expression() + self.block()
        if not self.has("else"):
            return count
        return count + (1 + self.choice() if self.has("if") else self.block())

    def simple(self, form):
        """What stands in a statement that ends with a semicolon, the semicolon of an `alloc` left."""
        if form == "let":
            self.take()
            self.skip("=")
            return self.call() if self.sees_call() else self.expression()
        if form == "alloc":
            count = self.named_area()
            self.at -= 1
            return count
        if form == "*":
            count = self.postfix()
            self.skip("=")
            return count + self.expression()
        if form == "copy":
            count = self.postfix()
            self.skip(",")
            return count + self.postfix()
        if form == "assert":
            return self.enclosed()
        if form == "break" or form == "return" and self.sees(";"):
            return 0
        if form == "return":
            return self.expression()
        self.at -= 1
        return self.call()

    def sees_call(self):
        name, bracket = self.tokens[self.at], self.tokens[self.at + 1]
        return bracket == "(" and name not in INTEGERS and re.match(r"(?!(toix|wrapix|bits|raw|set)$)[A-Za-z_]", name)

    def call(self):
        self.take()
        self.skip("(")
        return 1 + self.row(self.expression, ")")

    def enclosed(self):
        self.skip("(")
        count = self.expression()
        self.skip(")")
        return count

    def expression(self):
        count = self.prefix()
        while self.at < len(self.tokens) and self.tokens[self.at] in OPERATORS:
            self.take()
            count += 1 + self.prefix()
        if self.has("?"):
            count += 1 + self.expression()
            self.skip(":")
            count += self.expression()
        return count

    def prefix(self):
        if self.sees("-") and self.tokens[self.at + 1][0].isdigit():
            self.at += 2
            return 1
        if self.sees("-", "~", "!", "*"):
            self.take()
            return 1 + self.prefix()
        return self.postfix()

    def postfix(self):
        count = self.primary()
        while self.sees(".", "["):
            if self.take() == ".":
                self.take()
                count += 1
            else:
                count += 1 + self.expression()
                self.skip("]")
        return count

    def primary(self):
        token = self.take()
        if token == "(":
            self.at -= 1
            return self.enclosed()
        if token in INTEGERS or token == "raw":
            return 1 + self.enclosed()
        if token in ("toix", "wrapix", "bits"):
            self.at += 3
            return 1 + self.closed()
        if token == "set":
            self.skip("(")
            count = self.expression()
            self.at += 3
            return 1 + count + self.closed()
        return 1

    def closed(self):
        count = self.expression()
        self.skip(")")
        return count


def nodes(text):
    return Nodes(text).module()


if __name__ == "__main__":
    with open(sys.argv[1]) as file:
        print(nodes(file.read()))
