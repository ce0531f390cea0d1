"""Derived rules, and instances of theorems.

A proof calls a derived rule with terms and with theorems of its premises. The steps are made on the
spot; or, where it's switched, the rule is derived once in the lemma, for variables, and each use is
an instance of that. `shortest.py` chooses for each lemma what is switched.
"""

from contextlib import contextmanager
from functools import cached_property

from printing import show_term, show_type
from terms import (Application, Free, TypeVariable, has_variable, instantiate_type, match_type,
                   term_type_variables, type_variables, universal_parts)
from theorem import (AT_HAND, THEORY, allE, allI, assume, declare, impI, inst, mp, statement, thm,
                     tinst, type_of)


# ---------------------------------------------------------------- several steps of one rule

def discharge(a, *premises):
    """p1 --> .. --> pn --> q, from q."""
    for p in reversed(premises):
        a = implication_behind(a, p) or impI(p, a)
    return a


def implication_behind(a, p):
    """p --> q, where the theorem q was made of that and of p."""
    if a.rule == 'mp' and a.premises[1].conclusion is p and p not in a.premises[0].hypotheses:
        return a.premises[0]


def generalize(a, *variables):
    """all x1 .. xn. p, from p."""
    for x in reversed(variables):
        a = allI(x, a)
    return a


def at(a, *terms):
    """p at the terms, from all x1 .. xn. p."""
    for t in terms:
        a = allE(t, a)
    return a


# ---------------------------------------------------------------- instances

def at_types(a, types):
    """All type variables replaced at once, by single steps in an order that keeps them apart."""
    there = {name for each in (a.conclusion, *a.hypotheses) for name in term_type_variables(each)}
    left = {name: type_ for name, type_ in types.items()
            if name in there and type_ is not TypeVariable(name)}
    while left:
        name = next((each for each in left if is_free_of(left[each], left.keys() - {each})), None)
        if name is None:         # a cycle: the first one goes by another name for a while
            name = next(iter(left))
            left['z' + name] = left.pop(name)
            a = tinst(name, TypeVariable('z' + name), a)
        else:
            a = tinst(name, left.pop(name), a)
    return a


def is_free_of(type_, names):
    return not names & set(type_variables(type_))


def at_terms(a, variables, terms):
    """All the free variables replaced at once; no hypothesis has one of them.

    It's done by `inst` where some order keeps them apart.
    """
    given = a
    left = [(x, t) for x, t in zip(variables, terms) if x is not t]
    while left:
        ready = [(x, t) for x, t in left
                 if not any(has_variable(t, other) for other, _ in left if other is not x)]
        if not ready:
            return at(generalize(given, *variables), *terms)
        a = inst(*ready[0], a)
        left.remove(ready[0])
    return a


class NoInstance(Exception):
    """Terms whose types are no instance of what they are put for."""


def matching_types(patterns, terms):
    """The types for type variables by which the patterns are the types of the terms."""
    types = {}
    for pattern, t in zip(patterns, terms):
        if not match_type(pattern, type_of(t), types):
            raise NoInstance('%s at %s' % (show_type(pattern), show_term(t)))
    return types


def types_of_instance(variables, terms):
    """The types for type variables that give the variables the types of the terms."""
    return matching_types([x.type for x in variables], terms)


def instance(a, variables, terms):
    """The terms, at their types, for all the free variables of a theorem."""
    types = types_of_instance(variables, terms)
    moved = [Free(x.name, instantiate_type(x.type, types)) for x in variables]
    return at_terms(at_types(a, types), moved, terms)


def is_there(label):
    """Whether there is an earlier lemma of this label."""
    return label in THEORY.statements


def law(label, *terms):
    """An earlier lemma at terms, whose types tell its type variables."""
    a = thm(label)
    types = matching_types(types_of_binders(a.conclusion), terms)
    return at(at_types(a, types), *terms)


def types_of_binders(term):
    """The types of the variables over which a statement is closed, one by one."""
    while parts := universal_parts(term):
        type_, predicate = parts
        yield type_
        term = predicate.body


# ---------------------------------------------------------------- derived rules

def is_switched(name):
    """Whether the lemma at hand goes the other of two ways, of which this is the name."""
    AT_HAND.used.add(name)
    return name in AT_HAND.switched


class DerivedRule:
    """What premises give, for all terms in place of the variables.

    `proof` takes the terms, then theorems of the premises.
    """

    def __init__(self, name, variables, premises, proof):
        self.name, self.variables, self.premises, self.proof = name, variables, premises, proof

    def __call__(self, *given):
        if not self.is_once():
            return self.proof(*given)
        count = len(self.variables)
        return mp(instance(self.theorem(), self.variables, given[:count]), *given[count:])

    def is_once(self):
        return is_switched(self.name)

    def theorem(self):
        """p1 --> .. --> pn --> q, for the variables themselves."""
        if self.name not in AT_HAND.derived:
            a = self.proof(*self.variables, *map(assume, self.premises))
            AT_HAND.derived[self.name] = discharge(a, *self.premises)
        return AT_HAND.derived[self.name]


class Fact(DerivedRule):
    """A derived rule under the hypotheses of the lemma at hand.

    It's called with theorems of its premises, which tell the terms. Where it has no premise, it's
    called with the terms.
    """

    def __call__(self, *given):
        terms = self.terms(given) if self.premises else []
        return super().__call__(*terms, *given)

    def terms(self, theorems):
        found = {}
        for premise, a in zip(self.premises, theorems):
            match_variables(premise, a.conclusion, self.variables, found)
        return [found[x] for x in self.variables]


def match_variables(pattern, term, variables, found):
    """Puts the terms that stand for variables of the pattern into the dictionary."""
    if pattern in variables:
        found[pattern] = term
    elif isinstance(pattern, Application):
        match_variables(pattern.head, term.head, variables, found)
        match_variables(pattern.argument, term.argument, variables, found)


class GeneralRule(DerivedRule):
    """A rule for all lemmas, whose variables and premises are texts in the short notation."""

    def __init__(self, variables, premises, proof):
        self.texts = variables, premises
        self.name, self.proof = proof.__name__, proof

    @cached_property
    def variables(self):
        with own_scope():
            return declare(self.texts[0])

    @cached_property
    def premises(self):
        with own_scope():
            declare(self.texts[0])
            return [statement(each) for each in self.texts[1]]


@contextmanager
def own_scope():
    """Variables that are declared inside are unknown outside, and the other way round."""
    outside, AT_HAND.scope = AT_HAND.scope, {}
    yield
    AT_HAND.scope = outside


def derived_rule(variables, *premises):
    """Makes a derived rule of a proof."""
    return lambda proof: GeneralRule(variables, premises, proof)
