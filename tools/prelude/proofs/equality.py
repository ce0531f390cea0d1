"""The six properties of equality."""

from connectives import conjunction, exists
from derived import discharge, generalize
from equations import fold
from theorem import assume, declare, refl, statement, sym, term, thm, trans
from topic import Topic

TOPIC = Topic('The properties of equality')


@TOPIC.lemma('x is equal to x.')
def left_total_eq():
    x, = declare('x : a')
    some = exists(term(r'\y. x = y'), x, refl(x))
    return fold(statement('left_total eq[a]'), generalize(some, x))


@TOPIC.lemma('y is equal to y.')
def right_total_eq():
    y, = declare('y : a')
    some = exists(term(r'\x. x = y'), y, refl(y))
    return fold(statement('right_total eq[a]'), generalize(some, y))


@TOPIC.lemma('x = z and z = y give x = y.')
def left_unique_eq():
    x, y, z = declare('x : a, y : a, z : a')
    p, q = statement('x = z'), statement('y = z')
    unique = discharge(trans(assume(p), sym(assume(q))), p, q)
    return fold(statement('left_unique eq[a]'), generalize(unique, x, y, z))


@TOPIC.lemma('y = x and x = z give y = z.')
def right_unique_eq():
    x, y, z = declare('x : a, y : a, z : a')
    p, q = statement('x = y'), statement('x = z')
    unique = discharge(trans(sym(assume(p)), assume(q)), p, q)
    return fold(statement('right_unique eq[a]'), generalize(unique, x, y, z))


@TOPIC.lemma('Equality is left total and right total.')
def bi_total_eq():
    return fold(statement('bi_total eq[a]'),
                conjunction(thm('left_total_eq'), thm('right_total_eq')))


@TOPIC.lemma('Equality is left unique and right unique.')
def bi_unique_eq():
    return fold(statement('bi_unique eq[a]'),
                conjunction(thm('left_unique_eq'), thm('right_unique_eq')))
