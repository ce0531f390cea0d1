"""What follows from a theorem Quotient R A B T, and how such a theorem is made."""

from connectives import conjunction, conjunction_of, left, right
from derived import Fact, at, at_types, generalize, is_there, is_switched, law
from equations import (at_equals, both_ways, extend, fold, left_side, opened_values, unfold)
from relations import related_values
from terms import Application, Free, apply, constant, equation, has_variable, head_and_arguments
from theorem import eqmp, inst, mp, refl, sym, trans, type_of


class Quotient:
    """The four parts of a theorem Quotient R A B T, and facts that follow from them.

    In the facts u and v have the type of R, and w has that of the values of A.
    """

    def __init__(self, theorem):
        self.theorem, self.parts = theorem, []
        head, self.terms = head_and_arguments(theorem.conclusion)
        self.raw, self.abstract = head.types
        self.R, self.A, self.B, self.T = self.terms
        u, v, w = Free('u', self.raw), Free('v', self.raw), Free('w', self.abstract)
        uv, uw, vw = apply(self.R, u, v), apply(self.T, u, w), apply(self.T, v, w)
        uu, image_is_w = apply(self.R, u, u), equation(self.abstract, Application(self.A, u), w)

        self.undone = self.fact('undone', [w], [], self.prove_undone)
        self.left = self.fact('left', [u, v], [uv], self.prove_left)
        self.right = self.fact('right', [u, v], [uv], self.prove_right)
        self.equal = self.fact('equal', [u, v], [uv], self.prove_equal)
        self.meaning = self.fact('meaning', [u, w], [], self.prove_meaning)
        self.self_related = self.fact('self_related', [u, w], [uw], self.prove_self_related)
        self.image = self.fact('image', [u, w], [uw], self.prove_image)
        self.corresponding = self.fact('corresponding', [u, w], [uu, image_is_w],
                                       self.prove_corresponding)
        self.of_rep = self.fact('of_rep', [w], [], self.prove_of_rep)
        self.own = self.fact('own', [u, v], [uv], self.prove_own)
        self.other = self.fact('other', [u, v], [uv], self.prove_other)
        self.meet = self.fact('meet', [u, v, w], [uw, vw], self.prove_meet)
        self.pull = self.fact('pull', [u, v, w], [uv, vw], self.prove_pull)

    def fact(self, name, variables, premises, proof):
        return Fact('quotient_' + name, variables, premises, proof)

    # -- the four parts

    def part(self, number):
        """One of the four parts; those before it are made first."""
        while len(self.parts) < number:
            self.rest = right(self.rest) if self.parts else unfold(self.theorem)
            self.parts.append(left(self.rest) if len(self.parts) < 3 else self.rest)
        return self.parts[number - 1]

    def prove_undone(self, w):
        """A (B w) = w"""
        return at(self.part(1), w)

    def rep_related(self, w):
        """R (B w) (B w)"""
        if is_there('quotient_rep') and is_switched('quotient_rep_law'):
            return at(mp(law('quotient_rep', *self.terms), self.theorem), w)
        return at(self.part(2), w)

    def definition(self, u, v):
        """R u v = and (R u u) (and (R v v) (A u = A v))"""
        return at(self.part(3), u, v)

    def prove_meaning(self, u, w):
        """T u w = and (R u u) (A u = w)"""
        return opened_values(self.part(4), u, w)

    # -- what R u v gives, and what gives it

    def prove_left(self, u, v, uv):
        """R u u"""
        return left(eqmp(self.definition(u, v), uv))

    def prove_right(self, u, v, uv):
        """R v v"""
        return left(right(eqmp(self.definition(u, v), uv)))

    def prove_equal(self, u, v, uv):
        """A u = A v"""
        return right(right(eqmp(self.definition(u, v), uv)))

    def related(self, uu, vv, equal):
        """R u v, from R u u, R v v and A u = A v."""
        u, v = uu.conclusion.argument, vv.conclusion.argument
        return eqmp(sym(self.definition(u, v)), conjunction(uu, vv, equal))

    # -- what T u w gives, and what gives it

    def prove_self_related(self, u, w, uw):
        """R u u"""
        return left(eqmp(self.meaning(u, w), uw))

    def prove_image(self, u, w, uw):
        """A u = w"""
        return right(eqmp(self.meaning(u, w), uw))

    def prove_corresponding(self, u, w, uu, equal):
        """T u w, from R u u and A u = w."""
        if is_there('quotient_lift') and is_switched('quotient_lift_law'):
            return self.lift(uu, sym(equal))
        return eqmp(sym(self.meaning(u, w)), conjunction(uu, equal))

    def lift(self, uu, equal):
        """T u w, from R u u and w = A u, by quotient_lift."""
        u, w = uu.conclusion.argument, left_side(equal)
        return mp(law('quotient_lift', *self.terms, u, w), self.theorem, uu, equal)

    # -- the facts of which Quotient is made again in `from_facts`, and one more

    def prove_of_rep(self, w):
        """T (B w) w"""
        return self.corresponding(self.rep_related(w), self.undone(w))

    def prove_own(self, u, v, uv):
        """T u (A u)"""
        return self.corresponding(self.left(uv), refl(Application(self.A, u)))

    def prove_other(self, u, v, uv):
        """T v (A u)"""
        return self.corresponding(self.right(uv), sym(self.equal(uv)))

    def prove_meet(self, u, v, w, uw, vw):
        """R u v"""
        equal = trans(self.image(uw), sym(self.image(vw)))
        return self.related(self.self_related(uw), self.self_related(vw), equal)

    def prove_pull(self, u, v, w, uv, vw):
        """T u w, from R u v and T v w."""
        return self.corresponding(self.left(uv), trans(self.equal(uv), self.image(vw)))

    # -- by quotient_rel

    def same(self, uw, vz):
        """R u v = (w = z), from T u w and T v z."""
        equal = mp(law('quotient_rel', *self.terms), self.theorem)
        for each in uw, vz:
            equal = related_values(equal, each.conclusion.head.argument, each.conclusion.argument,
                                   each)
        return equal


class Copy(Quotient):
    """A second quotient, whose facts are instances of those of a first one over free variables."""

    def __init__(self, first, theorem):
        self.first = first
        super().__init__(theorem)

    def fact(self, name, variables, premises, proof):
        return CopiedFact(name, variables, premises, self)

    def moved(self, a):
        """A theorem about the first quotient, for this one."""
        a = at_types(a, {self.first.raw.name: self.raw, self.first.abstract.name: self.abstract})
        for variable, t in zip(self.first.terms, self.terms):
            here = Free(variable.name, type_of(t))
            if any(has_variable(each, here) for each in (a.conclusion, *a.hypotheses)):
                a = inst(here, t, a)
        return a


class CopiedFact(Fact):
    def __init__(self, name, variables, premises, copy):
        super().__init__('copied_' + name, variables, premises, None)
        self.copy, self.first = copy, getattr(copy.first, name)

    def is_once(self):
        return True

    def theorem(self):
        return self.copy.moved(self.first.theorem())


# ---------------------------------------------------------------- making a quotient

def from_parts(R, A, B, T, *parts):
    """Quotient R A B T, from its four parts."""
    quotient = apply(constant('Quotient', *type_of(A).arguments), R, A, B, T)
    return fold(quotient, conjunction(*parts))


def from_facts(R, A, B, T, names, of_rep, image, own, other, meet):
    """Quotient R A B T, from functions that answer these facts.

    of_rep(y) is T (B y) y; the others take theorems: image(T r y) is A r = y, own(R r s) is
    T r (A r), other(R r s) is T s (A r), and meet(T r y, T s y) is R r s. The three names are those
    of r, s and y.
    """
    a, b = type_of(A).arguments
    r, s, y = [Free(*each) for each in zip(names, (a, a, b))]
    rr, ss, rs, ry = apply(R, r, r), apply(R, s, s), apply(R, r, s), apply(T, r, y)
    same_image = equation(b, Application(A, r), Application(A, s))
    image_is_y = equation(b, Application(A, r), y)

    def parts_of_related(h):
        first, second = own(h), other(h)
        return conjunction(meet(first, first), meet(second, second), sym(image(second)))

    def related(h):
        first, second, equal = own(left(h)), own(left(right(h))), right(right(h))
        return meet(eqmp(at_equals(Application(T, r), equal), first), second)

    def parts_of_corresponding(h):
        return conjunction(meet(h, h), image(h))

    def corresponding(h):
        return eqmp(at_equals(Application(T, r), right(h)), own(left(h)))
    definition = both_ways(rs, conjunction_of(rr, conjunction_of(ss, same_image)),
                           parts_of_related, related)
    meaning = both_ways(ry, conjunction_of(rr, image_is_y), parts_of_corresponding, corresponding)
    return from_parts(R, A, B, T, generalize(image(of_rep(y)), y),
                      generalize(meet(of_rep(y), of_rep(y)), y), generalize(definition, r, s),
                      extend(r, extend(y, meaning)))
