"""What the definitions of specs/ come to, by their equations."""
import re
from functools import lru_cache, partial

from definitions import Crates
from equations import Reader
from netlist import FALSE, TRUE, negation, operation
from values import Data, Function, Opaque, call_text, data, of_each, replaced

# What the definitions take from the standard library.
LIBRARY = {
    "++": ["++ [] ys = ys", "++ (x ∷ xs) ys = x ∷ (xs ++ ys)"],
    "map": ["map f [] = []", "map f (x ∷ xs) = f x ∷ map f xs"],
    "list_any": ["list_any f [] = false", "list_any f (x ∷ xs) = f x || list_any f xs"],
    "list_all": ["list_all f [] = true", "list_all f (x ∷ xs) = f x && list_all f xs"],
    "is_some": ["is_some None = false", "is_some (Some x) = true"],
    "is_none": ["is_none None = true", "is_none (Some x) = false"],
    "option_or": ["option_or None other = other", "option_or (Some x) other = Some x"],
    "option_to_list": ["option_to_list None = []", "option_to_list (Some x) = x ∷ []"],
}
CONSTRUCTORS = ("[]", "∷", "None", "Some")  # of the library


def combined(operator, left, right):
    """`&&` and `||` ask for their second operand where the first does not decide."""
    if (operator, left.get()) in (("&&", FALSE), ("||", TRUE)):
        return left.get()
    return operation(operator, left.get(), right.get())


OPERATIONS = {"nat_le": "<=", "nat_lt": "<", **{
    sign: sign for sign in ("&&", "||", "==", "+", "-", "*", "/", "%", "^")}}
BUILT_IN = {
    "true": TRUE, "false": FALSE, "not": Function("not", 1, lambda one: negation(one.get())),
    **{name: Function(name, 2, partial(combined, sign)) for name, sign in OPERATIONS.items()},
}


class Scope:
    """The names of a file of specs/, of the library alone where there is no file."""

    def __init__(self, evaluation, file=None):
        self.evaluation, self.file = evaluation, file
        self.value = lru_cache(None)(self.find)

    def constructor(self, name):
        """The constructor that a name is of, None where it is of none."""
        if self.file and self.file.is_variant(name):
            return self.file.imports.get(name, ([], name))[1]
        return name if name in CONSTRUCTORS else None

    def find(self, name):
        constructor = self.constructor(name)
        if constructor:
            return data(constructor)
        if name in BUILT_IN:
            return BUILT_IN[name]
        if name in LIBRARY:
            return self.evaluation.library.defined(name, LIBRARY[name])
        definition = self.file and self.file.find(name)
        if not definition:
            raise NameError(f"nothing is called {name}")
        text = definition.file.text_of(definition.lines)
        _, *equations = re.split(r"\n(?=[^\s-])", text)  # (a comment stays with those before it)
        return self.evaluation.scope(definition.file).defined(definition.name, equations)

    def defined(self, name, texts):
        """What equations define: a function, or a value."""
        equations = [Reader(text, self.value).equation() for text in texts]
        arity = len(equations[0].patterns)
        if not arity:
            return equations[0].body({})
        return Function(name, arity, lambda *arguments: self.chosen(name, equations, arguments))

    def chosen(self, name, equations, arguments):
        """By the first equation that fits; of data with several alternatives by that of each."""
        for patterns, body in equations:
            bound = {}
            misfit = self.misfit(patterns, arguments, bound)
            if misfit is None:
                return body(bound)
            if isinstance(misfit, Opaque):
                text = call_text(name, arguments)
                return self.evaluation.registers.get(text, Opaque(text))
            if isinstance(misfit, Data):
                return of_each(misfit, lambda one: self.chosen(
                    name, equations, [replaced(each, misfit, one) for each in arguments]))
        raise ValueError(f"no equation of {name} fits")

    def misfit(self, patterns, arguments, bound):
        """What keeps patterns from fitting: an unknown value, FALSE, or None; binds their names."""
        for pattern, argument in zip(patterns, arguments):
            wanted = self.constructor(pattern.name)
            if not wanted:
                bound[pattern.name] = argument
                continue
            value = argument.get()
            if isinstance(value, Opaque) or len(value.alternatives) > 1:
                return value
            _, constructor, values = value.alternatives[0]
            found = FALSE if wanted != constructor else self.misfit(pattern.parts, values, bound)
            if found is not None:
                return found
        return None


class Evaluation:
    """`registers` are the values that stand for functions of the unknown list, by their texts."""

    def __init__(self):
        self.crates, self.registers = Crates(), {}
        self.library = Scope(self)
        self.scope = lru_cache(None)(partial(Scope, self))  # (of a file)

    def named(self, crate, module, name):
        return self.scope(self.crates.specs(crate, module)).value(name)
