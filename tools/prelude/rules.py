"""The twenty rules.

A rule is a function of the theory, of its own arguments and of the sequents that it uses. It gives
a sequent, or raises Wrong with the reason.
"""

from typing import NamedTuple

from terms import (BOOL, Abstraction, Application, Bound, Free, Node, abstract, constant, equation,
                   equation_parts, function_type, has_variable, implication, implication_parts,
                   instantiate, is_eta_redex, is_function_type, lift, open_body, replace, universal,
                   universal_parts, without_repeats)


class Sequent(NamedTuple):
    hypotheses: tuple
    conclusion: Node


class Wrong(Exception):
    """The reason why a rule gives nothing."""


RULES = {}           # a rule's word -> its function
ARGUMENTS = {}       # a rule's word -> the kinds of its arguments, in the order of the text


def rule(kinds):
    """The kinds are term, type, name, type_variable, label and, always last, line."""
    def add(function):
        word = function.__name__.rstrip('_')
        RULES[word], ARGUMENTS[word] = function, kinds.split()
        return function
    return add


def apply_rule(theory, word, arguments, premises):
    return RULES[word](theory, *arguments, *premises)


# ---------------------------------------------------------------- tests

def need(condition, reason):
    if not condition:
        raise Wrong(reason)


def need_bool(theory, term):
    need(theory.type_of(term) is BOOL, 'NotBool')


def need_parts(parts, reason):
    need(parts is not None, reason)
    return parts


def need_equation(sequent):
    return need_parts(equation_parts(sequent.conclusion), 'NotEquation')


def need_implication(sequent):
    return need_parts(implication_parts(sequent.conclusion), 'NotImplication')


def need_not_free(variable, sequent):
    need(not any(has_variable(each, variable) for each in sequent.hypotheses),
         'VariableInHypothesis')


def union(hypotheses, more):
    """The hypotheses, then those of `more` that aren't there yet."""
    return without_repeats((*hypotheses, *more))


def join(first, second, conclusion):
    """The conclusion under the hypotheses of both."""
    return Sequent(union(first.hypotheses, second.hypotheses), conclusion)


# ---------------------------------------------------------------- the rules

@rule('term')
def assume(theory, p):
    need_bool(theory, p)
    return Sequent((p,), p)


@rule('term line')
def weaken(theory, p, given):
    need_bool(theory, p)
    return Sequent(union(given.hypotheses, (p,)), given.conclusion)


@rule('term')
def refl(theory, t):
    return Sequent((), equation(theory.type_of(t), t, t))


@rule('line')
def sym(theory, given):
    type_, s, t = need_equation(given)
    return Sequent(given.hypotheses, equation(type_, t, s))


@rule('line line')
def trans(theory, first, second):
    type_, r, s = need_equation(first)
    _, middle, t = need_equation(second)
    need(s is middle, 'MiddleDiffers')
    return join(first, second, equation(type_, r, t))


@rule('line line')
def cong(theory, functions, values):
    function, f, g = need_equation(functions)
    type_, a, b = need_equation(values)
    need(is_function_type(function) and function.arguments[0] is type_, 'TypeDiffers')
    equal = equation(function.arguments[1], Application(f, a), Application(g, b))
    return join(functions, values, equal)


@rule('name type line')
def abs_(theory, name, type_, given):
    value_type, s, t = need_equation(given)
    x = Free(name, type_)
    need_not_free(x, given)
    equal = equation(function_type(type_, value_type), abstract(x, s), abstract(x, t))
    return Sequent(given.hypotheses, equal)


@rule('term')
def beta(theory, t):
    need(isinstance(t, Application) and isinstance(t.head, Abstraction), 'NotRedex')
    return Sequent((), equation(theory.type_of(t), t, open_body(t.head.body, t.argument)))


@rule('term')
def eta(theory, t):
    need(is_eta_redex(t), 'NotRedex')
    return Sequent((), equation(theory.type_of(t), t, lift(t.body.head, -1)))


@rule('line line')
def eqmp(theory, equal, given):
    _, p, q = need_equation(equal)
    need(p is given.conclusion, 'MiddleDiffers')
    return join(equal, given, q)


@rule('term line')
def impI(theory, p, given):
    need_bool(theory, p)
    others = tuple(each for each in given.hypotheses if each is not p)
    return Sequent(others, implication(p, given.conclusion))


@rule('line line')
def mp(theory, implies, given):
    p, q = need_implication(implies)
    need(p is given.conclusion, 'MiddleDiffers')
    return join(implies, given, q)


@rule('name type line')
def allI(theory, name, type_, given):
    x = Free(name, type_)
    need_not_free(x, given)
    return Sequent(given.hypotheses, universal(x, given.conclusion))


@rule('term line')
def allE(theory, t, given):
    type_, p = need_parts(universal_parts(given.conclusion), 'NotForall')
    need(theory.type_of(t) is type_, 'TypeDiffers')
    return Sequent(given.hypotheses, value_at(p, t))


def value_at(p, t):
    """p opened by t where p is an abstraction, else p t."""
    return open_body(p.body, t) if isinstance(p, Abstraction) else Application(p, t)


@rule('line line')
def iff(theory, forth, back):
    p, q = need_implication(forth)
    other_q, other_p = need_implication(back)
    need(p is other_p and q is other_q, 'MiddleDiffers')
    return join(forth, back, equation(BOOL, p, q))


@rule('name type term line')
def inst(theory, name, type_, t, given):
    need(theory.type_of(t) is type_, 'TypeDiffers')
    return change(given, lambda term: replace(term, Free(name, type_), t))


@rule('type_variable type line')
def tinst(theory, name, type_, given):
    return change(given, lambda term: instantiate(term, {name: type_}))


def change(given, function):
    """The sequent with the function of each term, without repeated hypotheses."""
    hypotheses = without_repeats(function(each) for each in given.hypotheses)
    return Sequent(hypotheses, function(given.conclusion))


@rule('term')
def select(theory, p):
    function = theory.type_of(p)
    need(is_function_type(function) and function.arguments[1] is BOOL, 'TypeDiffers')
    type_ = function.arguments[0]
    x, chosen = Bound(0), Application(constant('eps', type_), lift(p, 1))
    holds = implication(Application(lift(p, 1), x), Application(lift(p, 1), chosen))
    return Sequent((), Application(constant('all', type_), Abstraction(type_, holds)))


FALSE = Application(constant('all', BOOL), Abstraction(BOOL, Bound(0)))


@rule('term')
def ccontr(theory, p):
    need_bool(theory, p)
    return Sequent((), implication(implication(implication(p, FALSE), FALSE), p))


@rule('label')
def thm(theory, label):
    need(label in theory.statements, 'UnknownLabel')
    return Sequent((), theory.statements[label])
