"""Derived rules of equations and definitions."""

from derived import DerivedRule, at_types, types_of_instance
from terms import (Abstraction, Application, Free, equation_parts, head_and_arguments,
                   is_eta_redex)
from theorem import (PARAMETERS, THEORY, abs_, assume, beta, cong, eqmp, eta, iff, impI, refl, sym,
                     thm, trans)


def left_side(a):
    return equation_parts(a.conclusion)[1]


def right_side(a):
    return equation_parts(a.conclusion)[2]


# ---------------------------------------------------------------- equal functions, equal values

def values(a, *terms):
    """f t1 .. tn = g t1 .. tn, from f = g."""
    for t in terms:
        a = cong(a, refl(t))
    return a


def opened_values(a, *terms):
    """The same, where each abstraction on the right side is opened."""
    for t in terms:
        a = values(a, t)
        if isinstance(right_side(a).head, Abstraction):
            a = trans(a, beta(right_side(a)))
    return a


def at_equals(f, a):
    """f s = f t, from s = t."""
    return cong(refl(f), a)


def extend(x, a):
    r"""(\x. s) = (\x. t), from s = t. A side that is \x. f x gives f."""
    a = abs_(x, a)
    left, right = left_side(a), right_side(a)
    if is_eta_redex(left):
        a = trans(sym(eta(left)), a)
    return trans(a, eta(right)) if is_eta_redex(right) else a


def both_ways(p, q, forth, back):
    """p = q, from the function `forth` of p |- p, which gives q, and the function `back`."""
    return iff(impI(p, forth(assume(p))), impI(q, back(assume(q))))


# ---------------------------------------------------------------- redexes

def reduce(a):
    """The contractum, from a redex."""
    return eqmp(beta(a.conclusion), a)


def as_value(p, t, a):
    """p t, from p opened by t where p is an abstraction, else from p t itself."""
    return eqmp(sym(beta(Application(p, t))), a) if isinstance(p, Abstraction) else a


def from_predicate(a):
    """all p, from all x. p x."""
    return eqmp(at_equals(a.conclusion.head, eta(a.conclusion.argument)), a)


# ---------------------------------------------------------------- definitions

def unfolding(t):
    """c t1 .. tn = the body of c's definition at t1 .. tn."""
    constant, terms = head_and_arguments(t)
    return unfolding_rule(constant.name, len(terms))(*terms)


def unfolding_rule(name, count):
    variables = parameters(name)[:count]

    def proof(*terms):
        definition = at_types(thm(name + '_def'), types_of_instance(variables, terms))
        return opened_values(definition, *terms)
    return DerivedRule('unfold_' + name, variables, [], proof)


def parameters(name):
    """The variables of a constant's definition."""
    type_, variables = THEORY.constants[name], []
    for each in PARAMETERS[name]:
        argument, type_ = type_.arguments
        variables.append(Free(each, argument))
    return variables


def unfold(a):
    """The body of c's definition at t1 .. tn, from c t1 .. tn."""
    return eqmp(unfolding(a.conclusion), a)


def fold(t, a):
    """t, which is c t1 .. tn, from the body of c's definition at t1 .. tn."""
    return eqmp(sym(unfolding(t)), a)
