"""Laws of related functions."""

from derived import at, discharge
from equations import both_ways, extend, fold, unfold
from relations import related_functions, related_values
from theorem import assume, cong, declare, refl, statement, term
from topic import Topic

TOPIC = Topic('Related functions')


@TOPIC.lemma('The definition of rel_fun, at x and y.')
def rel_fun_app(R, S, f, g, x, y):
    premise = statement('rel_fun R S f g')
    return discharge(at(unfold(assume(premise)), x, y), premise)


@TOPIC.lemma('The premise is what rel_fun is defined as.')
def rel_fun_abs(R, S, f, g):
    premise = statement('all x y. R x y --> S (f x) (g y)')
    return discharge(fold(statement('rel_fun R S f g'), assume(premise)), premise)


@TOPIC.lemma('Functions that take equal arguments to equal values are equal.')
def rel_fun_eq():
    f, g, x, y = declare('f : a -> b, g : a -> b, x : a, y : a')

    def forth(related):
        return extend(x, related_values(related, x, x, refl(x)))

    def back(equal):
        return related_functions(term('eq[a]'), term('eq[b]'), f, g, x, y,
                                 lambda xy: cong(equal, xy))
    same = both_ways(statement('rel_fun eq[a] eq[b] f g'), statement('f = g'), forth, back)
    return extend(f, extend(g, same))
