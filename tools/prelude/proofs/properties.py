"""Properties of related functions."""

from connectives import chosen, conjunction, exists, left, chosen_one, right
from derived import at, discharge, generalize, law
from equations import as_value, at_equals, extend, fold, reduce, unfold
from relations import related_functions, related_values
from terms import Application
from theorem import assume, beta, cong, declare, eqmp, mp, select, statement, sym, term
from topic import Topic

TOPIC = Topic('Properties of related functions')


def chosen_from(p, t, a):
    """p at eps p, from p at t, where p is an abstraction."""
    return reduce(mp(at(select(p), t), as_value(p, t, a)))


@TOPIC.lemma('To f is related the function that takes y to some z with B (f x) z, where x is '
             'chosen with A x y.')
def fun_left_total(A, B):
    x, y, f = declare('x : a, y : b, f : a -> c')
    premises = [statement('left_unique A'), statement('left_total B')]
    unique, total = [unfold(assume(each)) for each in premises]
    g, e = term(r'\y. eps (\z. B (f (eps (\x. A x y))) z)'), term(r'eps (\x. A x y)')

    def body(xy):
        ey = chosen_from(term(r'\x. A x y'), x, xy)                     # A e y
        same = mp(at(unique, e, x, y), ey, xy)                          # e = x
        value = chosen(at(total, Application(f, e)))                    # B (f e) (eps ..)
        at_x = at_equals(B, at_equals(f, same))
        return eqmp(cong(at_x, sym(beta(Application(g, y)))), value)
    related = related_functions(A, B, f, g, x, y, body)
    some = generalize(exists(term(r'\g. rel_fun A B f g'), g, related), f)
    return discharge(fold(statement('left_total (rel_fun A B)'), some), *premises)


@TOPIC.lemma('To g is related the function that takes x to some z with B z (g y), where y is '
             'chosen with A x y.')
def fun_right_total(A, B):
    x, y, g = declare('x : a, y : b, g : b -> d')
    premises = [statement('right_unique A'), statement('right_total B')]
    unique, total = [unfold(assume(each)) for each in premises]
    f, e = term(r'\x. eps (\z. B z (g (eps (\y. A x y))))'), term(r'eps (\y. A x y)')

    def body(xy):
        xe = chosen_from(term(r'\y. A x y'), y, xy)                     # A x e
        same = mp(at(unique, x, e, y), xe, xy)                          # e = y
        value = chosen(at(total, Application(g, e)))                    # B (eps ..) (g e)
        at_f = at_equals(B, sym(beta(Application(f, x))))
        return eqmp(cong(at_f, at_equals(g, same)), value)
    related = related_functions(A, B, f, g, x, y, body)
    some = generalize(exists(term(r'\f. rel_fun A B f g'), f, related), g)
    return discharge(fold(statement('right_total (rel_fun A B)'), some), *premises)


@TOPIC.lemma('For each x some related y shows that both functions have the same value.')
def fun_left_unique(A, B):
    x, f, g, k = declare('x : a, f : a -> c, g : a -> c, k : b -> d')
    premises = [statement('left_total A'), statement('left_unique B')]
    total, unique = [unfold(assume(each)) for each in premises]
    p, q = statement('rel_fun A B f k'), statement('rel_fun A B g k')
    y, xy = chosen_one(at(total, x))
    fx, gx, ky = Application(f, x), Application(g, x), Application(k, y)
    same = mp(at(unique, fx, gx, ky),
              related_values(assume(p), x, y, xy), related_values(assume(q), x, y, xy))
    all_same = generalize(discharge(extend(x, same), p, q), f, g, k)
    return discharge(fold(statement('left_unique (rel_fun A B)'), all_same), *premises)


@TOPIC.lemma('For each y some related x shows that both functions have the same value.')
def fun_right_unique(A, B):
    y, f, g, k = declare('y : b, f : a -> c, g : b -> d, k : b -> d')
    premises = [statement('right_total A'), statement('right_unique B')]
    total, unique = [unfold(assume(each)) for each in premises]
    p, q = statement('rel_fun A B f g'), statement('rel_fun A B f k')
    x, xy = chosen_one(at(total, y))
    fx, gy, ky = Application(f, x), Application(g, y), Application(k, y)
    same = mp(at(unique, fx, gy, ky),
              related_values(assume(p), x, y, xy), related_values(assume(q), x, y, xy))
    all_same = generalize(discharge(extend(y, same), p, q), f, g, k)
    return discharge(fold(statement('right_unique (rel_fun A B)'), all_same), *premises)


def from_halves(of_a, of_b, A, B):
    """bi_p (rel_fun A B), from what its left and its right half ask of A and of B."""
    premises = [statement('bi_%s A' % of_a), statement('bi_%s B' % of_b)]
    a, b = [unfold(assume(each)) for each in premises]
    both = conjunction(mp(law('fun_left_' + of_b, A, B), left(a), left(b)),
                       mp(law('fun_right_' + of_b, A, B), right(a), right(b)))
    return discharge(fold(statement('bi_%s (rel_fun A B)' % of_b), both), *premises)


@TOPIC.lemma('Both halves stand above.')
def fun_bi_total(A, B):
    return from_halves('unique', 'total', A, B)


@TOPIC.lemma('Both halves stand above.')
def fun_bi_unique(A, B):
    return from_halves('total', 'unique', A, B)
