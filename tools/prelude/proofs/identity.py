"""Laws of id and map_fun, and the quotient by equality."""

from connectives import conjunction, right
from derived import generalize, law
from equations import both_ways, extend, fold, unfolding
from theorem import cong, declare, refl, statement, sym, term, trans
from topic import Topic

TOPIC = Topic('The identity, map_fun, and the quotient by equality')


@TOPIC.lemma('The definition of id, at x.')
def id_apply(x):
    return unfolding(term('id x'))


@TOPIC.lemma('The definition of map_fun, at f, g, h and x.')
def map_fun_apply(f, g, h, x):
    return unfolding(term('map_fun f g h x'))


@TOPIC.lemma('id undoes id, equality is reflexive, and what Quotient adds to r = s and x = y is '
             'true.')
def id_quotient():
    r, s, x, y = declare('r : a, s : a, x : a, y : a')
    identity, id_r, id_x = refl(term('id[a]')), law('id_apply', r), law('id_apply', x)
    undone = trans(law('id_apply', term('id y')), law('id_apply', y))
    related = both_ways(
        statement('r = s'), statement('and (r = r) (and (s = s) (id r = id s))'),
        lambda equal: conjunction(refl(r), refl(s), cong(identity, equal)),
        lambda both: trans(sym(id_r), right(right(both)), law('id_apply', s)))
    corresponding = both_ways(
        statement('x = y'), statement('and (x = x) (id x = y)'),
        lambda equal: conjunction(refl(x), trans(id_x, equal)),
        lambda both: trans(sym(id_x), right(both)))
    return fold(statement('Quotient eq[a] id id eq'), conjunction(
        generalize(undone, y), generalize(refl(term('id y')), y), generalize(related, r, s),
        extend(x, extend(y, corresponding))))
