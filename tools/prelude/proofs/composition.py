"""Laws of composed relations."""

from connectives import conjunction, exists
from derived import discharge
from equations import at_equals, both_ways, extend, fold, values
from relations import between, composed, related_functions, related_values
from terms import Application
from theorem import assume, declare, eqmp, refl, statement, sym, term
from topic import Topic

TOPIC = Topic('The composition of relations')


@TOPIC.lemma('y stands between x and z.')
def relcompp_intro(R, S, x, y, z):
    p, q = statement('R x y'), statement('S y z')
    some = exists(term(r'\y. and (R x y) (S y z)'), y, conjunction(assume(p), assume(q)))
    return discharge(fold(statement('relcompp R S x z'), some), p, q)


@TOPIC.lemma('What stands between x and z is x itself.')
def relcompp_eq_left(T):
    x, y, z = declare('x : a, y : a, z : b')

    def direct(xy, yz):
        return eqmp(values(at_equals(T, sym(xy)), z), yz)
    same = both_ways(statement('relcompp eq T x z'), statement('T x z'),
                     lambda xz: between(xz, y, direct), lambda xz: composed(refl(x), xz))
    return extend(x, extend(z, same))


@TOPIC.lemma('What stands between x and z is z itself.')
def relcompp_eq_right(R):
    x, y, z = declare('x : a, y : b, z : b')

    def direct(xy, yz):
        return eqmp(at_equals(Application(R, x), yz), xy)
    same = both_ways(statement('relcompp R eq x z'), statement('R x z'),
                     lambda xz: between(xz, y, direct), lambda xz: composed(xz, refl(z)))
    return extend(x, extend(z, same))


@TOPIC.lemma('On both sides y and z stand between x and w.')
def relcompp_assoc(R, S, T):
    x, y, z, w = declare('x : a, y : b, z : c, w : d')

    def to_right(xw):
        return between(xw, z, lambda xz, zw: between(
            xz, y, lambda xy, yz: composed(xy, composed(yz, zw))))

    def to_left(xw):
        return between(xw, y, lambda xy, yw: between(
            yw, z, lambda yz, zw: composed(composed(xy, yz), zw)))
    same = both_ways(statement('relcompp (relcompp R S) T x w'),
                     statement('relcompp R (relcompp S T) x w'), to_right, to_left)
    return extend(x, extend(w, same))


@TOPIC.lemma('With g between f and h, and y between x and z, g y stands between f x and h z.')
def rel_fun_distr(R, S, U, V, f, h):
    g, x, y, z = declare('g : b -> d, x : a, y : b, z : e')
    premise = statement('relcompp (rel_fun R S) (rel_fun U V) f h')

    def functions(fg, gh):
        def values_of(xy, yz):
            return composed(related_values(fg, x, y, xy), related_values(gh, y, z, yz))
        return related_functions(term('relcompp R U'), term('relcompp S V'), f, h, x, z,
                                 lambda xz: between(xz, y, values_of))
    return discharge(between(assume(premise), g, functions), premise)
