"""Derived rules of relations between functions, and of composed relations."""

from connectives import type_of_argument, with_parts, with_some
from derived import at, derived_rule, discharge, generalize, law
from equations import unfold
from terms import Free, apply, head_and_arguments
from theorem import assume, mp


# ---------------------------------------------------------------- functions

def related_values(a, x, y, b):
    """S (f x) (g y), from rel_fun R S f g and R x y."""
    _, terms = head_and_arguments(a.conclusion)
    return mp(law('rel_fun_app', *terms, x, y), a, b)


def related_functions(R, S, f, g, x, y, body):
    """rel_fun R S f g, where body(R x y |- R x y) is S (f x) (g y), for variables x and y."""
    related = apply(R, x, y)
    a = generalize(discharge(body(assume(related)), related), x, y)
    return mp(law('rel_fun_abs', R, S, f, g), a)


# ---------------------------------------------------------------- composition

def composed(a, b):
    """relcompp R S x z, from R x y and S y z."""
    _, (*_, x, y) = head_and_arguments(a.conclusion)
    z = b.conclusion.argument
    return mp(law('relcompp_intro', relation_of(a), relation_of(b), x, y, z), a, b)


def relation_of(a):
    """R, from R x y."""
    return a.conclusion.head.head


@derived_rule('R : a~b, S : b~c, x : a, z : c, q : bool',
              'relcompp R S x z', 'all y. R x y --> S y z --> q')
def relcompp_elim(R, S, x, z, q, related, gives_q):
    y = Free('y', type_of_argument(S))
    return between_by_definition(related, y, lambda r, s: mp(at(gives_q, y), r, s))


def between_by_definition(a, y, use):
    return with_some(unfold(a), y, lambda both: with_parts(both, use))


def between(a, y, use):
    """From relcompp R S x z: use(R x y, S y z), which doesn't have the variable y."""
    if not relcompp_elim.is_once():
        return between_by_definition(a, y, use)
    _, (R, S, x, z) = head_and_arguments(a.conclusion)
    r, s = apply(R, x, y), apply(S, y, z)
    b = use(assume(r), assume(s))
    return relcompp_elim(R, S, x, z, b.conclusion, a, generalize(discharge(b, r, s), y))
