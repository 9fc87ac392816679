"""Lays out lines of Go as gofmt does: the blanks in expressions, which depend on how deep an operator stands.

The rules are those of binaryExpr, cutoff and walkBinary in the package go/printer, for what the translated functions
have: operators, calls, conversions, slices. Lines come with their tabs.
"""
import re

TOKEN = re.compile(
    r'\s*("(?:\\.|[^"\\])*"|[A-Za-z_][\w.]*|0x[0-9a-f]+|\d+|&\^|<<|>>|==|!=|<=|>=|&&|\|\||[-+*/%&|^<>!()\[\],:])'
)
PRECEDENCE = {
    "||": 1, "&&": 2, "==": 3, "!=": 3, "<": 3, "<=": 3, ">": 3, ">=": 3, "+": 4, "-": 4, "|": 4, "^": 4,
    "*": 5, "/": 5, "%": 5, "<<": 5, ">>": 5, "&": 5, "&^": 5,
}  # fmt: skip
UNARY = 6
ASSIGNMENT = re.compile(r"(\t*)([\w.*]+(?:, [\w.*]+)*) (:?=|\|=) (.*)$")


# An expression is a tuple: ("name", text), ("unary", operator, operand), ("binary", operator, left, right),
# ("paren", operand), ("call", function, arguments) or ("slice", operand, bounds), of which a bound may be missing.


class Parser:
    """Reads expressions."""

    def __init__(self, text):
        self.tokens, self.at = [], 0
        while self.at < len(text):
            found = TOKEN.match(text, self.at)
            if not found:
                raise ValueError(text)
            self.tokens.append(found[1])
            self.at = found.end()
        self.tokens.append("")
        self.at = 0

    def next(self):
        self.at += 1
        return self.tokens[self.at - 1]

    def is_next(self, *tokens):
        return self.tokens[self.at] in tokens

    def rows(self, end):
        """Expressions with commas between them, up to a token."""
        made = []
        while not self.is_next(end):
            made.append(self.binary(1))
            if not self.is_next(end):
                self.next()
        self.next()
        return made

    def binary(self, least):
        left = self.unary()
        while PRECEDENCE.get(self.tokens[self.at], 0) >= least:
            operator = self.next()
            left = ("binary", operator, left, self.binary(PRECEDENCE[operator] + 1))
        return left

    def unary(self):
        if self.is_next("-", "!", "^", "&", "*"):
            operator = self.next()
            return ("unary", operator, self.unary())
        return self.primary()

    def primary(self):
        if self.is_next("("):
            self.next()
            made = ("paren", self.binary(1))
            self.next()
        else:
            made = ("name", self.next())
        while self.is_next("(", "["):
            made = ("call", made, self.rows(")")) if self.next() == "(" else self.slice(made)
        return made

    def slice(self, operand):
        bounds = [None]
        while not self.is_next("]"):
            if self.is_next(":"):
                self.next()
                bounds.append(None)
            else:
                bounds[-1] = self.binary(1)
        self.next()
        return ("slice", operand, bounds)


def walked(it):
    """Whether an expression has operators of precedence 4 and 5 in a row, and which precedence needs blanks so that two
    operators aren't read as one."""
    _, operator, left, right = it
    has, problem = {PRECEDENCE[operator]}, 0
    if left[0] == "binary" and PRECEDENCE[left[1]] >= PRECEDENCE[operator]:
        more, problem = walked(left)
        has |= more
    if right[0] == "binary" and PRECEDENCE[right[1]] > PRECEDENCE[operator]:
        more, other = walked(right)
        has, problem = has | more, max(problem, other)
    elif right[0] == "unary" and operator + right[1] in ("/*", "&&", "&^"):
        problem = 5
    elif right[0] == "unary" and operator + right[1] in ("++", "--"):
        problem = max(problem, 4)
    return has, problem


def cutoff(it, depth):
    """From which precedence on operators have no blanks."""
    has, problem = walked(it)
    if problem:
        return problem + 1
    if {4, 5} <= has:
        return 5 if depth == 1 else 4
    return 6 if depth == 1 else 4


def printed(it, depth):
    """The text of an expression."""
    kind = it[0]
    if kind == "name":
        return it[1]
    if kind == "unary":
        return it[1] + printed(it[2], depth)
    if kind == "paren":
        return printed(it[1], depth) if it[1][0] == "paren" else f"({printed(it[1], max(depth - 1, 1))})"
    if kind == "call":
        depth += len(it[2]) > 1
        return f"{printed(it[1], depth)}({', '.join(printed(one, depth) for one in it[2])})"
    if kind == "slice":
        return f"{printed(it[1], 1)}[{printed_bounds(it[2], depth)}]"
    _, operator, left, right = it
    precedence = PRECEDENCE[operator]
    blank = " " if precedence < cutoff(it, depth) else ""
    is_same = left[0] == "binary" and PRECEDENCE[left[1]] == precedence
    return f"{printed(left, depth + (not is_same))}{blank}{operator}{blank}{printed(right, depth + 1)}"


def printed_bounds(bounds, depth):
    texts = ["" if it is None else printed(it, depth + 1) for it in bounds]
    has_operator = any(it is not None and it[0] == "binary" for it in bounds)
    if depth <= 1 and has_operator and sum(it is not None for it in bounds) > 1:
        return " : ".join(texts)
    return ":".join(texts)


def expressions(text, depth=1):
    return ", ".join(printed(it, depth) for it in Parser(text).rows(""))


def clause(text):
    """The expression of `if` or `switch`, which needs no parentheses."""
    it = Parser(text).rows("")[0]
    while it[0] == "paren":
        it = it[1]
    return printed(it, 1)


def laid_out(line):
    """One line, as gofmt has it."""
    bare = line.lstrip("\t")
    indent = line[: len(line) - len(bare)]
    if found := re.match(r"(if|switch) (.*) \{$", bare):
        return f"{indent}{found[1]} {clause(found[2])} {{"
    if found := re.match(r"return (.+)$", bare):
        return f"{indent}return {expressions(found[1])}"
    if found := ASSIGNMENT.match(line):
        are_many = "," in found[2] and len(Parser(found[4]).rows("")) > 1
        return f"{indent}{found[2]} {found[3]} {expressions(found[4], 1 + are_many)}"
    if re.match(r"[\w.]+\(", bare) and bare.endswith(")"):
        return f"{indent}{expressions(bare)}"
    return line


def lay_out(text):
    return "\n".join(laid_out(line) for line in text.split("\n"))
