"""The equations of definitions, read as functions of what their names stand for."""
import re
from collections import namedtuple

from netlist import constant
from values import Function, Later, applied, branch

# `.x` of a field stands behind its record without a space, and is one word.
WORD = re.compile(r"0x[0-9A-Fa-f]+|\d+|\[\]|&&|\|\||==|\+\+|-ℤ|(?<=\S)\.\w[\w']*"
                  r"|[λ∷→(){},;=:.+\-*/%^]|[^\W\d][\w']*")
# Operators by how tightly they bind, and how much tighter the operand on their right has to.
OPERATORS = ((("||",), 0), (("&&",), 0), (("==",), 1), (("∷", "++"), 0), (("+", "-", "-ℤ"), 1),
             (("*", "/", "%"), 1), (("^",), 1))
ATOM = re.compile(r"(?!(?:then|else|in|if|let|λ)$)(?:\(|\[\]|\w)")  # how one begins
Equation = namedtuple("Equation", "patterns body")
Pattern = namedtuple("Pattern", "name parts")  # a constructor, or a name that it binds


class Reader:
    """One reading of the words of an equation; a term is a function of the names that are bound,
    each with its value, and `named` gives that of any other.
    """

    def __init__(self, text, named):
        text, self.named = re.sub("--.*", "", text), named
        unknown = WORD.sub("", text).strip()
        if unknown:
            raise SyntaxError(f"no word of a definition: {unknown!r} in {text!r}")
        self.others = iter(WORD.findall(text))
        self.word = next(self.others, "")  # the one that is read next, "" at the end

    def take(self, wanted=None):
        word, self.word = self.word, next(self.others, "")
        if word != wanted and (wanted is not None or not word):
            raise SyntaxError(f"{word!r} in place of {wanted or 'another word'!r}")
        return word

    def takes(self, word):
        """Whether this word stands here, and then passes it."""
        return self.word == word and self.take() == word

    def until(self, end, part, between=None):
        """The parts up to a word, with another one between them where that is named."""
        found = []
        while not self.takes(end):
            found.append(part())
            if between and self.word != end:
                self.take(between)
        return found

    def behind(self, word):
        self.take(word)
        return self.term()

    def equation(self):
        self.take()
        found = Equation(self.until("=", self.pattern), self.term())
        self.take("")
        return found

    def pattern(self):
        if not self.takes("("):
            return Pattern(self.take(), [])
        first, *others = self.until(")", self.pattern)
        if others[:1] == [Pattern("∷", [])]:
            return Pattern("∷", [first, *others[1:]])
        return Pattern(first.name, others)

    def term(self, level=0):
        if self.takes("λ"):
            name, body = self.take(), self.behind(".")
            return lambda bound: Function("λ", 1, lambda each: body({**bound, name: each}))
        if self.takes("if"):
            test, true, false = self.term(), self.behind("then"), self.behind("else")
            return lambda bound: branch(test(bound), Later(true, bound), Later(false, bound))
        if self.takes("let"):
            name, _ = self.take(), self.until("=", self.take)  # (its type)
            value, body = self.term(), self.behind("in")
            return lambda bound: body({**bound, name: Later(value, bound)})
        return self.operation(level)

    def operation(self, level):
        if level == len(OPERATORS):
            return self.application()
        operators, tighter = OPERATORS[level]
        found = self.operation(level + 1)
        while self.word in operators:
            found = self.call(self.name(self.take()), [found, self.term(level + tighter)])
        return found

    def application(self):
        function, arguments = self.atom(), []
        while ATOM.match(self.word):
            arguments.append(self.atom())
        return self.call(function, arguments)

    def call(self, function, arguments):
        return lambda bound: applied(function(bound), [Later(each, bound) for each in arguments])

    def atom(self):
        if not ATOM.match(self.word):
            raise SyntaxError(f"{self.word!r} in place of a term")
        word = self.take()
        if word == "(":
            parts = self.until(")", self.term, ",")
            found = self.record(None, dict(zip("0123", parts))) if parts[1:] else parts[0]
        elif word == "record":
            changed = None if self.word == "{" else self.atom()
            self.take("{")
            fields = self.until("}", lambda: (self.take(), self.behind("=")), ";")
            found = self.record(changed, dict(fields))
        else:
            found = self.name(word)
        while re.match(r"\.\w", self.word):
            found = self.field(found, self.take()[1:])
        return found

    def name(self, word):
        if word[0].isdigit():
            return lambda bound: constant(int(word, 0))
        return lambda bound: bound[word].get() if word in bound else self.named(word)

    def field(self, record, name):
        return lambda bound: record(bound)[name].get()

    def record(self, changed, fields):
        return lambda bound: {**(changed(bound) if changed else {}), **{
            name: Later(value, bound) for name, value in fields.items()}}
