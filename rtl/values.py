"""Values of definitions where some of what they are of is not known: wires in place of numbers and
Booleans, data of which wires say the constructor, and a list of which nothing is known.
"""
from collections import namedtuple

from netlist import FALSE, TRUE, choice, conjunction, disjunction, negation

Opaque = namedtuple("Opaque", "text")  # a list, or a function of one, of which nothing is known
Data = namedtuple("Data", "alternatives")
Alternative = namedtuple("Alternative", "guard constructor arguments")
Function = namedtuple("Function", "name arity call given", defaults=((),))


class Later:
    """A value that is computed when it is asked for."""

    def __init__(self, compute, *arguments, value=None):
        self.compute, self.arguments, self.value = compute, arguments, value

    def get(self):
        if self.compute:
            self.value, self.compute = self.compute(*self.arguments), None
        return self.value


def known(value):
    return Later(None, value=value)


def data(constructor, *arguments):
    return Data([Alternative(TRUE, constructor, list(arguments))])


def applied(function, arguments):
    """Of a constructor, the data that it makes of them."""
    while arguments:
        if isinstance(function, Data):
            return data(function.alternatives[0].constructor, *arguments)
        given = [*function.given, *arguments]
        if len(given) < function.arity:
            return function._replace(given=tuple(given))
        arguments = given[function.arity:]
        function = function.call(*given[:function.arity])
    return function


def called(function, *values):
    return applied(function, [known(value) for value in values])


def branch(guard, true, false):
    """One of two values that are computed later."""
    if guard in (TRUE, FALSE):
        return (true if guard is TRUE else false).get()
    left, right = true.get(), false.get()
    if left is right:
        return left
    if isinstance(left, dict):
        return {name: Later(branch, guard, left[name], right[name]) for name in left}
    return merged(guard, left, right) if isinstance(left, Data) else choice(guard, left, right)


def merged(guard, left, right):
    """Data that are one where the guard holds, else the other."""
    found = {}
    for side, value in ((guard, left), (negation(guard), right)):
        for own, constructor, arguments in value.alternatives:
            own = conjunction(side, own)
            if constructor in found:
                other, _, others = found[constructor]
                arguments = [Later(branch, other, *each) for each in zip(others, arguments)]
                own = disjunction(other, own)
            if own is not FALSE:
                found[constructor] = Alternative(own, constructor, arguments)
    return Data([*found.values()])


def of_each(some, value_of):
    """The value of a function of data, by that of each alternative."""
    *others, (_, found) = ((each.guard, value_of(Data([each._replace(guard=TRUE)])))
                           for each in some.alternatives)
    for guard, value in others:
        found = branch(guard, known(value), known(found))
    return found


def replaced(later, target, one):
    """A value in which this one stands in the place of some data."""
    value = later.value  # (None where it is not computed yet)
    if value is target:
        return known(one)
    if not isinstance(value, Data) or len(value.alternatives) > 1:
        return later
    _, constructor, arguments = value.alternatives[0]
    return known(data(constructor, *(replaced(each, target, one) for each in arguments)))


def call_text(name, arguments):
    """A call, with `?` for each argument that is no function, and none of what is not known."""
    texts = [call_text(each.name, each.given) if isinstance(each, Function)
             else getattr(each, "text", "?") for each in (later.get() for later in arguments)]
    return f"({' '.join([name, *texts])})" if texts else name
