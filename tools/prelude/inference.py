"""The types that the short notation leaves out: those that the constants and variables force."""

from notation import Binder, Name, Value, need
from terms import (Abstraction, Application, Bound, Constant, Free, TypeConstructor, TypeVariable,
                   function_type, type_variables)


class Hole:
    """A type that isn't known yet."""
    filled = None


def known(type_):
    """The type behind filled holes."""
    while isinstance(type_, Hole) and type_.filled is not None:
        type_ = type_.filled
    return type_


def unify(first, second):
    first, second = known(first), known(second)
    if first is second:
        return
    if isinstance(first, Hole):
        first.filled = second
    elif isinstance(second, Hole):
        second.filled = first
    else:
        unify_constructors(first, second)


def unify_constructors(first, second):
    need(TypeVariable not in (type(first), type(second)), 'types differ')
    need(first.name == second.name, 'types differ')
    for pair in zip(first.arguments, second.arguments):
        unify(*pair)


def without_holes(type_):
    type_ = known(type_)
    need(not isinstance(type_, Hole), 'a type is not forced')
    if isinstance(type_, TypeVariable):
        return type_
    return TypeConstructor(type_.name, tuple(map(without_holes, type_.arguments)))


def with_holes(type_, holes):
    """The type with the holes in place of its variables, by their names."""
    if isinstance(type_, TypeVariable):
        return holes[type_.name]
    arguments = tuple(with_holes(each, holes) for each in type_.arguments)
    return TypeConstructor(type_.name, arguments)


class Inference:
    """Answers for a tree its type, and a function that makes its term once all types are known."""

    def __init__(self, theory, variables):
        self.theory, self.variables = theory, variables

    def infer(self, tree, around=()):
        """`around` has the names and types of the binders around, the innermost first."""
        match tree:
            case Name(name, types):
                return self.bound(name, around) or self.free(name) or self.constant(name, types)
            case Value(function, argument):
                return self.value(self.infer(function, around), self.infer(argument, around))
            case Binder(name, type_, body):
                type_ = type_ or Hole()
                body_type, make = self.infer(body, ((name, type_), *around))
                abstraction = lambda: Abstraction(without_holes(type_), make())
                return function_type(type_, body_type), abstraction

    def bound(self, name, around):
        for index, (each, type_) in enumerate(around):
            if each == name:
                return type_, lambda: Bound(index)

    def free(self, name):
        if type_ := self.variables.get(name):
            return type_, lambda: Free(name, type_)

    def constant(self, name, types):
        need(name in self.theory.constants, 'no variable or constant ' + name)
        type_ = self.theory.constants[name]
        holes = {each: Hole() for each in type_variables(type_)}
        for hole, written in zip(holes.values(), types):
            unify(hole, written)
        make = lambda: Constant(name, tuple(map(without_holes, holes.values())))
        return with_holes(type_, holes), make

    def value(self, function, argument):
        type_ = Hole()
        unify(function[0], function_type(argument[0], type_))
        return type_, lambda: Application(function[1](), argument[1]())


def term_of(tree, theory, variables, type_=None):
    """The tree's term over free variables, which are given by names and types.

    `type_` is the term's own type, or None where its parts force it.
    """
    found, make = Inference(theory, variables).infer(tree)
    if type_ is not None:
        unify(found, type_)
    return make()
