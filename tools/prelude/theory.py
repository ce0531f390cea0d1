"""A theory: the declared types and constants, and the named statements."""

from terms import (BOOL, Abstraction, Application, Bound, Constant, Free, TypeVariable, constant,
                   equation, function_type, has_free_variable, instantiate_type, is_function_type,
                   term_type_variables, type_variables)


class Refused(Exception):
    """What can't be added to a theory, or has no type."""


def need(condition, reason):
    if not condition:
        raise Refused(reason)


class Theory:
    def __init__(self):
        any_type = TypeVariable('a')
        predicate = function_type(any_type, BOOL)
        self.types = {'bool': 0, 'fun': 2}        # name -> number of arguments
        self.constants = {                        # name -> type
            'eq': function_type(any_type, any_type, BOOL),
            'imp': function_type(BOOL, BOOL, BOOL),
            'all': function_type(predicate, BOOL),
            'eps': function_type(predicate, any_type),
        }
        self.statements = {}                      # label -> term
        self.closed_types = {}                    # terms without outer binders -> their types

    # -- types

    def check_type(self, type_):
        if isinstance(type_, TypeVariable):
            return
        need(type_.name in self.types, 'UnknownType ' + type_.name)
        need(self.types[type_.name] == len(type_.arguments), 'Arity ' + type_.name)
        for argument in type_.arguments:
            self.check_type(argument)

    def type_of(self, term, around=()):
        """The type of a term. `around` has the types of the binders around it, innermost first."""
        if around:
            return self.find_type(term, around)
        if term not in self.closed_types:
            self.closed_types[term] = self.find_type(term, around)
        return self.closed_types[term]

    def find_type(self, term, around):
        match term:
            case Free(_, type_):
                self.check_type(type_)
                return type_
            case Bound(index):
                return around[index]
            case Constant():
                return self.type_of_constant(term)
            case Application(head, argument):
                types = self.type_of(head, around), self.type_of(argument, around)
                return self.type_of_value(*types)
            case Abstraction(type_, body):
                self.check_type(type_)
                return function_type(type_, self.type_of(body, (type_, *around)))

    def type_of_constant(self, term):
        need(term.name in self.constants, 'UnknownConst ' + term.name)
        declared = self.constants[term.name]
        names = type_variables(declared)
        need(len(names) == len(term.types), 'TypeArgs ' + term.name)
        for argument in term.types:
            self.check_type(argument)
        return instantiate_type(declared, dict(zip(names, term.types)))

    def type_of_value(self, head, argument):
        need(is_function_type(head) and head.arguments[0] is argument, 'Mismatch')
        return head.arguments[1]

    def generic(self, name):
        """The constant at its declared type."""
        return constant(name, *map(TypeVariable, type_variables(self.constants[name])))

    # -- what can be added

    def add_type(self, name, arity):
        need(name not in self.types, 'Duplicate ' + name)
        self.types[name] = arity

    def add_constant(self, name, type_):
        self.check_type(type_)
        need(name not in self.constants, 'Duplicate ' + name)
        self.constants[name] = type_

    def add_statement(self, label, term):
        need(self.type_of(term) is BOOL, 'NotBool')
        need(not has_free_variable(term), 'OpenTerm')
        need(label not in self.statements, 'Duplicate ' + label)
        self.statements[label] = term

    def add_definition(self, name, type_, body):
        """The constant, and its equation under the label NAME_def."""
        need(self.type_of(body) is type_, 'Mismatch')
        need(not has_free_variable(body), 'OpenTerm')
        loose = set(term_type_variables(body)) - set(type_variables(type_))
        need(not loose, 'LooseTypeVar')
        self.add_constant(name, type_)
        self.add_statement(name + '_def', equation(type_, self.generic(name), body))
