"""Definitions and laws of the tables as terms of a theory, and as they are printed."""

from typing import NamedTuple

from inference import term_of
from notation import binder_names, read_tree, read_type, read_variables
from printing import show_term
from terms import BOOL, Free, Node, universal


class Statement(NamedTuple):
    variables: list      # free variables
    term: Node           # the statement, closed by `all` over them
    names: list          # the names of all its binders, in the order of the text

    def show(self):
        return show_term(self.term, self.names)


def read_statement(theory, variables, text):
    types = read_variables(variables, theory)
    tree = read_tree(text, theory)
    term, free = term_of(tree, theory, types, BOOL), [Free(*each) for each in types.items()]
    for variable in reversed(free):
        term = universal(variable, term)
    return Statement(free, term, [*types, *binder_names(tree)])


class Body(NamedTuple):
    """The body of a definition."""
    type: Node
    term: Node
    names: list          # as above

    def show(self):
        return show_term(self.term, self.names)


def read_body(theory, definition):
    type_ = read_type(definition.type, theory)
    tree = read_tree(definition.body(), theory)
    return Body(type_, term_of(tree, theory, {}, type_), binder_names(tree))
