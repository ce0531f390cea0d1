"""Rules of equality and quantifiers over related types."""

from connectives import choice, chosen, exists, halves, chosen_one, with_some
from derived import at, discharge, generalize
from equations import (at_equals, both_ways, fold, from_predicate, right_side, unfold, values)
from relations import related_functions, related_values
from terms import Application
from theorem import assume, beta, declare, eqmp, mp, statement, sym, term, trans
from topic import Topic

TOPIC = Topic('Equality and quantifiers over related types')


def over_predicates(A, R, f, g, body):
    """rel_fun (rel_fun A eq) R f g, where body(P, Q, same) is R (f P) (g Q).

    There same(x, y, A x y) is P x = Q y.
    """
    P, Q = declare('P : a -> bool, Q : b -> bool')
    return related_functions(
        term('rel_fun A eq[bool]'), R, f, g, P, Q,
        lambda related: body(P, Q, lambda x, y, xy: related_values(related, x, y, xy)))


@TOPIC.lemma('x = y gives the equality of what they are related to by right uniqueness, and the '
             'other way by left uniqueness.')
def eq_transfer(A):
    x, x1, y, y1 = declare('x : a, x1 : b, y : a, y1 : b')
    premise = statement('bi_unique A')
    left_unique, right_unique = halves(assume(premise))

    def first(xx):                                                      # A x x1
        def second(yy):                                                 # A y y1
            def forth(equal):
                return mp(at(right_unique, x, x1, y1), xx,
                          eqmp(values(at_equals(A, sym(equal)), y1), yy))

            def back(equal):
                return mp(at(left_unique, x, y, x1), xx,
                          eqmp(at_equals(Application(A, y), sym(equal)), yy))
            return both_ways(statement('x = y'), statement('x1 = y1'), forth, back)
        return related_functions(A, term('eq[bool]'), term('eq x'), term('eq x1'), y, y1, second)
    related = related_functions(A, term('rel_fun A eq[bool]'), term('eq[a]'), term('eq[b]'),
                                x, x1, first)
    return discharge(related, premise)


@TOPIC.lemma('Each y has a related x and each x a related y, where both predicates agree.')
def all_transfer(A):
    x, y = declare('x : a, y : b')
    premise = statement('bi_total A')
    from_x, from_y = halves(assume(premise))

    def body(P, Q, same):
        def forth(each):
            holds = with_some(at(from_y, y), x, lambda xy: eqmp(same(x, y, xy), at(each, x)))
            return from_predicate(generalize(holds, y))

        def back(each):
            holds = with_some(at(from_x, x), y, lambda xy: eqmp(sym(same(x, y, xy)), at(each, y)))
            return from_predicate(generalize(holds, x))
        return both_ways(statement('all P'), statement('all Q'), forth, back)
    related = over_predicates(A, term('eq[bool]'), term('all[a]'), term('all[b]'), body)
    return discharge(related, premise)


@TOPIC.lemma('A witness on one side has a related one on the other side.')
def ex_transfer(A):
    premise = statement('bi_total A')
    from_x, from_y = halves(assume(premise))

    def body(P, Q, same):
        def forth(some):
            x = choice(P)
            y, xy = chosen_one(at(from_x, x))
            return exists(Q, y, eqmp(same(x, y, xy), chosen(some)))

        def back(some):
            y = choice(Q)
            x, xy = chosen_one(at(from_y, y))
            return exists(P, x, eqmp(sym(same(x, y, xy)), chosen(some)))
        return both_ways(statement('ex P'), statement('ex Q'), forth, back)
    related = over_predicates(A, term('eq[bool]'), term('ex[a]'), term('ex[b]'), body)
    return discharge(related, premise)


@TOPIC.lemma('Each y has a related x, which is in the domain, and each x of the domain has a '
             'related y.')
def all_bounded(A):
    x, y = declare('x : a, y : b')
    premise = statement('right_total A')
    from_y = unfold(assume(premise))
    bounded = term(r'\P:a -> bool. all x. Domainp A x --> P x')
    in_domain = statement('Domainp A x')

    def body(P, Q, same):
        def forth(each):
            def at_y(xy):
                inside = fold(in_domain, exists(term(r'\y. A x y'), y, xy))
                return eqmp(same(x, y, xy), mp(at(each, x), inside))
            return from_predicate(generalize(with_some(at(from_y, y), x, at_y), y))

        def back(each):
            holds = with_some(unfold(assume(in_domain)), y,
                              lambda xy: eqmp(sym(same(x, y, xy)), at(each, y)))
            return generalize(discharge(holds, in_domain), x)
        opened = beta(Application(bounded, P))
        return trans(opened, both_ways(right_side(opened), statement('all Q'), forth, back))
    related = over_predicates(A, term('eq[bool]'), bounded, term('all[b]'), body)
    return discharge(related, premise)


@TOPIC.lemma('Each y has a related x.')
def all_implies(A):
    y, = declare('y : b')
    premise = statement('right_total A')
    from_y = unfold(assume(premise))

    def body(P, Q, same):
        each = statement('all P')
        x, xy = chosen_one(at(from_y, y))
        holds = eqmp(same(x, y, xy), at(assume(each), x))
        return discharge(from_predicate(generalize(holds, y)), each)
    related = over_predicates(A, term('imp'), term('all[a]'), term('all[b]'), body)
    return discharge(related, premise)
