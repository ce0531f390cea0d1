"""Laws of types that a predicate defines."""

from connectives import choice, chosen, conjunction, exists, left, right
from derived import Fact, at, discharge, generalize
from equations import at_equals, both_ways, extend, fold, opened_values, unfold, unfolding
from quotient import Quotient, from_parts
from terms import Application, apply
from theorem import assume, declare, eqmp, mp, refl, statement, sym, term, trans
from topic import Topic

TOPIC = Topic('Types that a predicate defines')

INVERSES = ['all y. P (B y)', 'all y. A (B y) = y', 'all r. P r --> B (A r) = r',
            r'T = (\x y. x = B y)']


@TOPIC.lemma('eq_onp P is equality of those with P, where B undoes A.')
def typedef_quotient(P, A, B, T):
    r, s, x, y, u = declare('r : a, s : a, x : a, y : b, u : a')
    premises = [statement(each) for each in INVERSES]
    inside, undone, redone, meaning = map(assume, premises)

    # P u gives eq_onp P u u, and the other way round
    related = Fact('typedef_related', [u], [statement('P u')], lambda u, holds: fold(
        apply(term('eq_onp P'), u, u), conjunction(holds, refl(u))))
    holds = Fact('typedef_holds', [u], [statement('eq_onp P u u')],
                 lambda u, related: left(unfold(related)))

    def rep(of_u):
        """B (A u) = u, from P u."""
        return mp(at(redone, of_u.conclusion.argument), of_u)

    def forth(rs):
        of_r, equal = left(unfold(rs)), right(unfold(rs))
        of_s = eqmp(at_equals(P, equal), of_r)
        return conjunction(related(of_r), related(of_s), at_equals(A, equal))

    def back(both):
        of_r, of_s, equal = holds(left(both)), holds(left(right(both))), right(right(both))
        same = trans(sym(rep(of_r)), at_equals(B, equal), rep(of_s))
        return fold(statement('eq_onp P r s'), conjunction(of_r, same))

    def parts(equal):                                                   # x = B y
        of_x = eqmp(at_equals(P, sym(equal)), at(inside, y))
        return conjunction(related(of_x), trans(at_equals(A, equal), at(undone, y)))

    def from_pair(both):
        return trans(sym(rep(holds(left(both)))), at_equals(B, right(both)))
    definition = both_ways(statement('eq_onp P r s'),
                           statement('and (eq_onp P r r) (and (eq_onp P s s) (A r = A s))'),
                           forth, back)
    corresponding = trans(opened_values(meaning, x, y), both_ways(
        statement('x = B y'), statement('and (eq_onp P x x) (A x = y)'), parts, from_pair))
    quotient = from_parts(
        term('eq_onp P'), A, B, T, undone, generalize(related(at(inside, y)), y),
        generalize(definition, r, s), extend(x, extend(y, corresponding)))
    return discharge(quotient, *premises)


@TOPIC.lemma('x is B y, and y is A (B y).')
def typedef_bi_unique(A, B, T):
    x, x1, y, z, u, w = declare('x : a, x1 : a, y : b, z : b, u : a, w : b')
    premises = [statement(each) for each in (INVERSES[1], INVERSES[3])]
    undone, meaning = map(assume, premises)
    definition = Fact('typedef_meaning', [u, w], [],                    # T u w = (u = B w)
                      lambda u, w: opened_values(meaning, u, w))

    def is_rep(related):
        """x = B y, by T x y."""
        return eqmp(definition(related.head.argument, related.argument), assume(related))
    xy, xz, x1z = statement('T x y'), statement('T x z'), statement('T x1 z')
    same_x = trans(is_rep(xz), sym(is_rep(x1z)))
    same_rep = trans(sym(is_rep(xy)), is_rep(xz))                       # B y = B z
    same_y = trans(sym(at(undone, y)), at_equals(A, same_rep), at(undone, z))
    both = conjunction(
        fold(statement('left_unique T'), generalize(discharge(same_x, xz, x1z), x, x1, z)),
        fold(statement('right_unique T'), generalize(discharge(same_y, xy, xz), x, y, z)))
    return discharge(fold(statement('bi_unique T'), both), *premises)


@TOPIC.lemma('Each B y has P, and each x with P is B (A x).')
def typedef_domain(P, A, B, T):
    x, = declare('x : a')
    premises = [statement(each) for each in INVERSES]
    inside, _, redone, meaning = map(assume, premises)
    at_x, image = opened_values(meaning, x), Application(A, x)          # T x = (\y. x = B y)

    def forth(some):
        y, xy = choice(some.conclusion.argument), chosen(some)
        return eqmp(at_equals(P, sym(eqmp(opened_values(at_x, y), xy))), at(inside, y))

    def back(of_x):
        equal = sym(mp(at(redone, x), of_x))
        return exists(term(r'\y. T x y'), image, eqmp(sym(opened_values(at_x, image)), equal))
    same = both_ways(statement('ex y. T x y'), statement('P x'), forth, back)
    return discharge(extend(x, trans(unfolding(statement('Domainp T x')), same)), *premises)


@TOPIC.lemma('eq_onp P relates B (A x) and x, since A takes both to one value; so they are equal.')
def typedef_rep_abs(P, A, B, T, x):
    premises = [statement('Quotient (eq_onp P) A B T'), statement('eq_onp P x x')]
    quotient, related = Quotient(assume(premises[0])), assume(premises[1])
    image = Application(A, x)
    same = quotient.related(quotient.rep_related(image), related, quotient.undone(image))
    return discharge(right(unfold(same)), *premises)
