"""Which names a text of definitions cites: all that stand in it but those that it binds itself, by
patterns, parameters, fields, `λ`, `let` and `←`, each as far as it reaches.
"""
import re

TOKEN = re.compile(r'"(?:[^"\\]|\\.)*"|(?:--|//).*|[(){}\[\];,]|[^\s(){}\[\];,"]+|\n')
CLOSED = {"(": ")", "{": "}", "[": "]"}
BRACKETS = (*CLOSED, *CLOSED.values())


def tokens_of(text):
    """The words of a text, without comments and strings, and the ends of its lines. The dot that
    ends the names behind a `λ` is a word of its own.
    """
    found = []
    for token in TOKEN.findall(text):
        if token.startswith(("--", "//", '"')):
            continue
        if len(token) > 1 and token[-1] == "." and token[-2] != ".":
            found += [token[:-1], "."]
        else:
            found.append(token)
    return found


class Reading:
    """One reading of the words of a text. `is_variant` says of a name whether it is of a type's
    variant, which a pattern cites and does not bind.
    """

    def __init__(self, tokens, is_variant, bound=()):
        self.tokens, self.is_variant = tokens, is_variant
        self.scopes, self.waiting, self.cited = [set(bound)], [], []

    def cite(self, token):
        if not any(token.split(".")[0] in scope for scope in self.scopes):
            self.cited.append(token)

    def bind(self, names):
        """Binds the names of a pattern, and cites the variants in it."""
        for name in names:
            if self.is_variant(name):
                self.cite(name)
            else:
                self.scopes[-1].add(name)

    def until(self, at, ends):
        """The words from a place up to the first of these."""
        last = at
        while last < len(self.tokens) and self.tokens[last] not in ends:
            last += 1
        return self.tokens[at:last]

    def terms(self, at=0):
        """Reads all words from this place on, and gives what they cite."""
        while at < len(self.tokens):
            at = self.after(at)
        return self.cited

    def after(self, at):
        """Reads what begins with the word at a place, and gives the place behind it."""
        token = self.tokens[at]
        if token in CLOSED:
            return self.after_opening(at)
        if token in CLOSED.values() and len(self.scopes) > 1:
            self.scopes.pop()
        elif token == "λ":
            names = self.until(at + 1, (".",))
            self.bind(names)
            return at + 1 + len(names)
        elif token == "let":
            self.waiting.append(self.until(at + 1, ("=", ":")))
            return at + 1 + len(self.waiting[-1])
        elif token == "in" and self.waiting:
            self.bind(self.waiting.pop())
        elif token == "pub":
            names = self.until(at + 1, (":",))
            self.bind(names)
            return at + 1 + len(names)
        elif token in ("do", "\n"):
            if token == "do":
                self.cite(token)
            names = self.until(at + 1, ("\n", "do"))
            if "←" in names:
                self.bind(names[:names.index("←")])
                return at + 1 + names.index("←")
        elif token == ";":
            return self.after_label(at + 1)
        else:
            self.cite(token)
        return at + 1

    def after_opening(self, at):
        """The names of `(a b : T)` reach to the end of what is around it."""
        names = self.until(at + 1, (":", "=", "\n", ";", "λ", *BRACKETS))
        behind = at + 1 + len(names)
        is_binder = behind < len(self.tokens) and self.tokens[behind] == ":"
        if is_binder:
            self.bind(names)
        self.scopes.append(set())
        return behind if is_binder else self.after_label(at + 1)

    def after_label(self, at):
        """Behind the name of a field in `{ a = .. }`, if one stands here."""
        behind = at
        while self.tokens[behind:behind + 1] == ["\n"]:
            behind += 1
        return behind + 2 if self.tokens[behind + 1:behind + 2] == ["="] else at


def term_citations(text, is_variant, bound=()):
    """What a term cites, or a declaration of a record or of variants."""
    return Reading(tokens_of(text), is_variant, bound).terms()


def equation_citations(text, is_variant):
    """What an equation cites: the patterns before `=` bind their names."""
    reading = Reading(tokens_of(text), is_variant)
    patterns = reading.until(0, ("=",))
    reading.bind(patterns)
    return reading.terms(len(patterns) + 1)
