r"""The short notation of statements and proofs, read.

    types    a -> b, a~b for a -> b -> bool, prod a b; other names are type variables
    terms    f x y, s = t, p --> q, all x y. p, ex x. p, \x y. t, \x:a -> b. t,
             and c[a] for a constant at a type argument

`->` and `-->` are right associative, and `-->` is weaker than `=`. The bodies of binders reach as
far as can be. `inference.py` finds the types that are left out.
"""

import re
from typing import NamedTuple

from terms import TypeConstructor, TypeVariable, function_type, relation_type


class BadNotation(Exception):
    """What is wrong with a text in the short notation."""


def need(condition, *told):
    if not condition:
        raise BadNotation(*told)


TOKEN = re.compile(r'-->|->|\w+|[()\[\]\\.,=~:]')


class Name(NamedTuple):
    """A variable or a constant, with the type arguments that are written."""
    name: str
    types: list


class Value(NamedTuple):
    """A function at an argument."""
    function: object
    argument: object


class Binder(NamedTuple):
    name: str
    type: object         # None where it isn't written
    body: object


def operation(name, *arguments):
    tree = Name(name, [])
    for argument in arguments:
        tree = Value(tree, argument)
    return tree


def binder_names(tree):
    """The names of all binders, in the order of the text."""
    match tree:
        case Name():
            return []
        case Value(function, argument):
            return binder_names(function) + binder_names(argument)
        case Binder(name, _, body):
            return [name, *binder_names(body)]


class Reader:
    def __init__(self, text, theory):
        self.tokens, self.at, self.theory = TOKEN.findall(text), 0, theory
        need(''.join(self.tokens) == re.sub(r'\s', '', text), 'a character of no token', text)

    def peek(self):
        return self.tokens[self.at] if self.at < len(self.tokens) else None

    def take(self):
        token = self.peek()
        need(token is not None, 'the end is too early', self.tokens)
        self.at += 1
        return token

    def accept(self, token):
        found = self.peek() == token
        self.at += found
        return found

    def expect(self, token):
        need(self.accept(token), token + ' is wanted', self.tokens[self.at:])

    def whole(self, read):
        found = read()
        need(self.peek() is None, 'something stands behind the end', self.tokens[self.at:])
        return found

    # -- types

    def type(self):
        type_ = self.argument_type()
        if self.accept('~'):
            type_ = relation_type(type_, self.argument_type())
        return function_type(type_, self.type()) if self.accept('->') else type_

    def argument_type(self):
        """A constructor with its arguments, or a simple type."""
        arity = self.theory.types.get(self.peek(), 0)
        if not arity:
            return self.simple_type()
        return TypeConstructor(self.take(), tuple(self.simple_type() for _ in range(arity)))

    def simple_type(self):
        """A name, or a type in parentheses."""
        if self.accept('('):
            type_ = self.type()
            self.expect(')')
            return type_
        name = self.take()
        return TypeConstructor(name, ()) if name in self.theory.types else TypeVariable(name)

    # -- terms

    def term(self):
        tree = self.equation()
        return operation('imp', tree, self.term()) if self.accept('-->') else tree

    def equation(self):
        tree = self.application()
        return operation('eq', tree, self.application()) if self.accept('=') else tree

    def application(self):
        tree = self.simple_term()
        while self.peek() not in (None, ')', '-->', '='):
            tree = Value(tree, self.simple_term())
        return tree

    def simple_term(self):
        """A name, a term in parentheses, or a binder with its body."""
        if self.accept('('):
            tree = self.term()
            self.expect(')')
            return tree
        if self.accept('\\'):
            return self.binders(lambda binder: binder)
        name = self.take()
        if name in ('all', 'ex') and self.sees_binders():
            return self.binders(lambda binder: operation(name, binder))
        return Name(name, self.type_arguments())

    def sees_binders(self):
        """Whether names and a dot stand next."""
        return re.match(r'(\w+ )+\.', ' '.join(self.tokens[self.at:]))

    def type_arguments(self):
        if not self.accept('['):
            return []
        type_ = self.type()
        self.expect(']')
        return [type_]

    def binders(self, wrap):
        """Names with or without types, a dot and the body; `wrap` is done to each binder."""
        names = []
        while not self.accept('.'):
            names.append((self.take(), self.type() if self.accept(':') else None))
        tree = self.term()
        for name, type_ in reversed(names):
            tree = wrap(Binder(name, type_, tree))
        return tree


def read_type(text, theory):
    reader = Reader(text, theory)
    return reader.whole(reader.type)


def read_variables(text, theory):
    """`x : a, R : a~b` as a dictionary of names and types."""
    pairs = [each.split(' : ') for each in text.split(',')] if text else []
    return {name.strip(): read_type(type_, theory) for name, type_ in pairs}


def read_tree(text, theory):
    reader = Reader(text, theory)
    return reader.whole(reader.term)
