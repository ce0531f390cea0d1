"""Laws of types of classes."""

from connectives import (choice, chosen, conjunction, exists, left, right, type_of_argument)
from derived import Fact, at, discharge, generalize
from equations import as_value, at_equals, both_ways, extend, opened_values, reduce, unfold, values
from quotient import from_parts
from rules import value_at
from terms import Application, Free, apply, implication_parts
from theorem import assume, declare, eqmp, mp, refl, select, statement, sym, trans
from topic import Topic

TOPIC = Topic('Types of classes')

IS_CLASS = r'(\C. ex x. and (R x x) (C = R x))'


def is_class(goal, x, related):
    """The goal IS_CLASS C, from R x x, where C is R x."""
    predicate, C = goal.head, goal.argument
    some = exists(value_at(predicate, C).argument, x, conjunction(related, refl(C)))
    return as_value(predicate, C, some)


@TOPIC.lemma('Some x has R x x, so the chosen one has it, and its class is one.')
def class_nonempty(R):
    premise = statement('part_equivp R')
    some = left(unfold(assume(premise)))
    goal = statement(IS_CLASS + r' (R (eps (\x. R x x)))')
    return discharge(is_class(goal, choice(some.conclusion.argument), chosen(some)), premise)


class PartialEquivalence:
    """What follows from part_equivp R, by symmetry and transitivity."""

    def __init__(self, R, theorem):
        _, rest = left(unfold(theorem)), right(unfold(theorem))
        self.R, self.symmetric, self.transitive = R, left(rest), right(rest)
        self.z = Free('z', type_of_argument(R))

    def swap(self, rs):
        """R s r, from R r s."""
        return mp(at(self.symmetric, rs.conclusion.head.argument, rs.conclusion.argument), rs)

    def chain(self, rs, st):
        """R r t, from R r s and R s t."""
        r, s, t = rs.conclusion.head.argument, rs.conclusion.argument, st.conclusion.argument
        return mp(at(self.transitive, r, s, t), rs, st)

    def left(self, rs):
        """R r r, from R r s."""
        return self.chain(rs, self.swap(rs))

    def right(self, rs):
        """R s s, from R r s."""
        return self.chain(self.swap(rs), rs)

    def same_class(self, rs):
        """R r = R s, from R r s."""
        r, s = rs.conclusion.head.argument, rs.conclusion.argument
        same = both_ways(apply(self.R, r, self.z), apply(self.R, s, self.z),
                         lambda rz: self.chain(self.swap(rs), rz), lambda sz: self.chain(rs, sz))
        return extend(self.z, same)


@TOPIC.lemma('Each L y is R x for some x with R x x, so B y is related to x and R (B y) is L y. '
             'Where A takes r and s to one value, R r is R s, since L undoes K.')
def class_quotient(R, K, L, A, B, T):
    y, r, s, u = declare('y : b, r : a, s : a, u : a')
    premises = [statement(each.replace('IS_CLASS', IS_CLASS)) for each in (
        'part_equivp R', 'all y. IS_CLASS (L y)', 'all y. K (L y) = y',
        'all C. IS_CLASS C --> L (K C) = C', r'A = (\x. K (R x))', r'B = (\y. eps (L y))',
        r'T = (\x y. and (R x x) (A x = y))')]
    equivalence, classes, undone, redone, image, representative, meaning = map(assume, premises)
    equivalence = PartialEquivalence(R, equivalence)
    By, Ly = Application(B, y), Application(L, y)

    def related_to_rep(x, both):
        """and (R (B y) (B y)) (L y = R (B y)), from and (R x x) (L y = R x)."""
        xx, is_class_of_x = left(both), right(both)
        holds_of_x = eqmp(sym(values(is_class_of_x, x)), xx)            # L y x
        chosen_one = mp(at(select(Ly), x), holds_of_x)                  # L y (eps (L y))
        holds_of_rep = eqmp(at_equals(Ly, sym(opened_values(representative, y))), chosen_one)
        related = eqmp(values(is_class_of_x, By), holds_of_rep)         # R x (B y)
        same = trans(is_class_of_x, equivalence.same_class(related))
        return conjunction(equivalence.right(related), same)
    some = reduce(at(classes, y))
    rep = related_to_rep(choice(some.conclusion.argument), chosen(some))
    at_rep = trans(opened_values(image, By), at_equals(K, sym(right(rep))), at(undone, y))

    # A u = K (R u); and L (K (R u)) = R u, from R u u
    of_class = Fact('class_image', [u], [], lambda u: opened_values(image, u))

    def prove_class_back(u, uu):
        redone_class = at(redone, Application(R, u))
        goal, _ = implication_parts(redone_class.conclusion)
        return mp(redone_class, is_class(goal, u, uu))
    class_back = Fact('class_back', [u], [statement('R u u')], prove_class_back)

    def forth(rs):
        same = trans(of_class(r), at_equals(K, equivalence.same_class(rs)), sym(of_class(s)))
        return conjunction(equivalence.left(rs), equivalence.right(rs), same)

    def back(both):
        rr, ss, equal = left(both), left(right(both)), right(right(both))
        equal_classes = trans(sym(of_class(r)), equal, of_class(s))     # K (R r) = K (R s)
        same = trans(sym(class_back(rr)), at_equals(L, equal_classes), class_back(ss))
        return eqmp(sym(values(same, s)), ss)
    definition = both_ways(statement('R r s'),
                           statement('and (R r r) (and (R s s) (A r = A s))'), forth, back)
    quotient = from_parts(R, A, B, T, generalize(at_rep, y), generalize(left(rep), y),
                          generalize(definition, r, s), meaning)
    return discharge(quotient, *premises)
