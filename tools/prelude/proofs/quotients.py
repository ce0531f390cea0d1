"""What a quotient gives."""

from connectives import exists, with_some
from derived import discharge, generalize
from equations import both_ways, extend, fold, unfolding
from quotient import Quotient
from relations import related_functions
from terms import Application
from theorem import assume, declare, eqmp, refl, statement, sym, term, trans
from topic import Topic

TOPIC = Topic('What a quotient gives')


@TOPIC.lemma('The second part of Quotient.')
def quotient_rep(R, A, B, T):
    premise = statement('Quotient R A B T')
    return discharge(Quotient(assume(premise)).part(2), premise)


@TOPIC.lemma('The fourth part of Quotient, from the right to the left.')
def quotient_lift(R, A, B, T, t, c):
    premises = [statement('Quotient R A B T'), statement('R t t'), statement('c = A t')]
    quotient, related, equal = map(assume, premises)
    return discharge(Quotient(quotient).corresponding(related, sym(equal)), *premises)


@TOPIC.lemma('B y is related to y.')
def quotient_right_total(R, A, B, T):
    y, = declare('y : b')
    premise = statement('Quotient R A B T')
    quotient = Quotient(assume(premise))
    some = exists(term(r'\x. T x y'), Application(B, y), quotient.of_rep(y))
    return discharge(fold(statement('right_total T'), generalize(some, y)), premise)


@TOPIC.lemma('A x is y by T x y, and A x1 is y1 by T x1 y1; R relates x and x1 where these are '
             'equal.')
def quotient_rel(R, A, B, T):
    x, y, x1, y1 = declare('x : a, y : b, x1 : a, y1 : b')
    premise = statement('Quotient R A B T')
    quotient = Quotient(assume(premise))

    def first(xy):
        def second(xy1):
            image, image1 = quotient.image(xy), quotient.image(xy1)
            return both_ways(
                statement('R x x1'), statement('y = y1'),
                lambda related: trans(sym(image), quotient.equal(related), image1),
                lambda equal: quotient.related(
                    quotient.self_related(xy), quotient.self_related(xy1),
                    trans(image, equal, sym(image1))))
        return related_functions(T, term('eq[bool]'), Application(R, x), term('eq y'), x1, y1,
                                 second)
    related = related_functions(T, term('rel_fun T eq[bool]'), R, term('eq[b]'), x, y, first)
    return discharge(related, premise)


@TOPIC.lemma('By quotient_rel, y = y is R x x, and R x x is y = z.')
def quotient_right_unique(R, A, B, T):
    x, y, z = declare('x : a, y : b, z : b')
    premise, p, q = statement('Quotient R A B T'), statement('T x y'), statement('T x z')
    quotient, xy, xz = Quotient(assume(premise)), assume(p), assume(q)
    equal = eqmp(trans(sym(quotient.same(xy, xy)), quotient.same(xy, xz)), refl(y))
    unique = generalize(discharge(equal, p, q), x, y, z)
    return discharge(fold(statement('right_unique T'), unique), premise)


@TOPIC.lemma('x is related to some y where R x x holds, and then to A x.')
def quotient_domain(R, A, B, T):
    x, y = declare('x : a, y : b')
    premise = statement('Quotient R A B T')
    quotient = Quotient(assume(premise))

    def forth(some):
        return with_some(some, y, lambda xy: eqmp(sym(quotient.same(xy, xy)), refl(y)))

    def back(xx):
        image = Application(A, x)
        return exists(term(r'\y. T x y'), image, quotient.lift(xx, refl(image)))
    same = both_ways(statement('ex y. T x y'), statement('R x x'), forth, back)
    return discharge(extend(x, trans(unfolding(statement('Domainp T x')), same)), premise)
