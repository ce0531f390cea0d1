"""Derived rules of conjunction and existence."""

from derived import derived_rule, discharge, generalize
from equations import as_value, fold, reduce, right_side, unfold, unfolding
from rules import value_at
from terms import (BOOL, Abstraction, Application, Free, apply, constant, head_and_arguments,
                   implication, implication_parts, universal_parts)
from theorem import allE, assume, eqmp, mp, select, sym, type_of


# ---------------------------------------------------------------- conjunction

def conjunction_of(p, q):
    return apply(constant('and'), p, q)


def parts(a):
    """p and q, from and p q."""
    _, (p, q) = head_and_arguments(a.conclusion)
    return p, q


@derived_rule('p : bool, q : bool', 'p', 'q')
def and_intro(p, q, of_p, of_q):
    r = Free('r', BOOL)
    gives_r = implication(p, implication(q, r))
    a = discharge(mp(assume(gives_r), of_p, of_q), gives_r)
    return fold(conjunction_of(p, q), generalize(a, r))


@derived_rule('p : bool, q : bool', 'and p q')
def and_left(p, q, both):
    return mp(allE(p, unfold(both)), discharge(assume(p), p, q))


@derived_rule('p : bool, q : bool', 'and p q')
def and_right(p, q, both):
    return mp(allE(q, unfold(both)), discharge(assume(q), p, q))


def conjunction(a, *more):
    """The conjunction of two or more theorems, nested to the right."""
    b = conjunction(*more) if len(more) > 1 else more[0]
    return and_intro(a.conclusion, b.conclusion, a, b)


def left(a):
    """p, from and p q."""
    return and_left(*parts(a), a)


def right(a):
    """q, from and p q."""
    return and_right(*parts(a), a)


def halves(a):
    """The unfolded parts of a theorem that is defined as a conjunction."""
    both = unfold(a)
    return unfold(left(both)), unfold(right(both))


def with_parts(a, use):
    """From and p q: use(p |- p, q |- q) without these hypotheses."""
    p, q = parts(a)
    b = use(assume(p), assume(q))
    return mp(allE(b.conclusion, unfold(a)), discharge(b, p, q))


# ---------------------------------------------------------------- existence

def type_of_argument(p):
    return type_of(p).arguments[0]


def existence(p):
    return Application(constant('ex', type_of_argument(p)), p)


def choice(p):
    """eps p"""
    return Application(constant('eps', type_of_argument(p)), p)


@derived_rule('P : a -> bool, x : a', 'P x')
def ex_intro(p, x, holds):
    q = Free('q', BOOL)
    definition = unfolding(existence(p))                # ex p = (all q. (all x. p x --> q) --> q)
    _, body = universal_parts(right_side(definition))
    gives_q, _ = implication_parts(value_at(body, q))
    a = discharge(mp(allE(x, assume(gives_q)), holds), gives_q)
    return eqmp(sym(definition), generalize(a, q))


@derived_rule('P : a -> bool', 'ex P')
def ex_choice(p, some):
    return mp(allE(Application(p, choice(p)), unfold(some)), select(p))


def exists(p, t, a):
    """ex p, from p at t."""
    return ex_intro(p, t, as_value(p, t, a))


def chosen(a):
    """p at eps p, from ex p."""
    p = a.conclusion.argument
    b = ex_choice(p, a)
    return reduce(b) if isinstance(p, Abstraction) else b


def chosen_one(a):
    """eps p, and p at eps p, from ex p."""
    return choice(a.conclusion.argument), chosen(a)


def with_some(a, x, use):
    """From ex p: use(p at x |- p at x), which doesn't have the variable x."""
    p = a.conclusion.argument
    h = assume(Application(p, x))
    b = use(reduce(h) if isinstance(p, Abstraction) else h)
    return mp(allE(b.conclusion, unfold(a)), generalize(discharge(b, h.conclusion), x))
