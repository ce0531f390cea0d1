"""Quotients of function types, and composed quotients."""

from connectives import conjunction, left, right
from derived import Fact, at, discharge, law
from equations import at_equals, extend, fold, unfold, unfolding, values
from quotient import Copy, Quotient, from_facts
from relations import between, composed, related_functions, related_values
from terms import Application, apply
from theorem import assume, cong, declare, eqmp, mp, refl, statement, sym, term, trans
from topic import Topic

TOPIC = Topic('Compound quotients')

TWO_QUOTIENTS = ['Quotient R1 A1 B1 T1', 'Quotient R2 A2 B2 T2']


def two_quotients(premises):
    """The quotients that the first two premises speak of."""
    first = Quotient(assume(premises[0]))
    return first, Copy(first, assume(premises[1]))


@TOPIC.lemma('Related functions take related arguments to related values; this gives the facts '
             'about the correspondence of which Quotient is made.')
def fun_quotient(R1, A1, B1, T1, R2, A2, B2, T2):
    premises = [statement(each) for each in TWO_QUOTIENTS]
    first, second = two_quotients(premises)
    x, x1, y, f, g, h = declare('x : a, x1 : a, y : c, f : a -> b, g : a -> b, h : c -> d')
    R, T = term('rel_fun R1 R2'), term('rel_fun T1 T2')
    A, B = term('map_fun B1 A2'), term('map_fun A1 B2')
    rep_y, image_x = Application(B1, y), Application(A1, x)

    def of_rep(h):
        def value(xy):                                                  # T1 x y
            at_x = sym(law('map_fun_apply', A1, B2, h, x))              # B2 (h (A1 x)) = B h x
            at_y = at_equals(h, first.image(xy))
            of_value = second.of_rep(Application(h, image_x))
            return eqmp(cong(at_equals(T2, at_x), at_y), of_value)
        return related_functions(T1, T2, Application(B, h), h, x, y, value)

    def image(f, h, fh):
        value = second.image(related_values(fh, rep_y, y, first.of_rep(y)))
        return extend(y, trans(law('map_fun_apply', B1, A2, f, y), value))

    def at_image(f, value):
        """T2 z (A f y), from T2 z (A2 (f (B1 y)))."""
        return eqmp(at_equals(value.conclusion.head, sym(law('map_fun_apply', B1, A2, f, y))),
                    value)

    def own(f, g, fg):
        def value(xy):                                                  # T1 x y
            to_rep = related_values(fg, x, rep_y, first.meet(xy, first.of_rep(y)))
            at_rep = related_values(fg, rep_y, rep_y, first.rep_related(y))
            return at_image(f, second.pull(to_rep, second.other(at_rep)))
        return related_functions(T1, T2, f, Application(A, f), x, y, value)

    def other(f, g, fg):
        def value(xy):                                                  # T1 x y
            from_rep = related_values(fg, rep_y, x, first.meet(first.of_rep(y), xy))
            return at_image(f, second.other(from_rep))
        return related_functions(T1, T2, g, Application(A, f), x, y, value)

    def meet(f, g, h, fh, gh):
        def value(xx):                                                  # R1 x x1
            return second.meet(related_values(fh, x, image_x, first.own(xx)),
                               related_values(gh, x1, image_x, first.other(xx)))
        return related_functions(R1, R2, f, g, x, x1, value)
    fg, fh, gh = apply(R, f, g), apply(T, f, h), apply(T, g, h)
    facts = [Fact('compound_image', [f, h], [fh], image), Fact('compound_own', [f, g], [fg], own),
             Fact('compound_other', [f, g], [fg], other),
             Fact('compound_meet', [f, g, h], [fh, gh], meet)]
    return discharge(from_facts(R, A, B, T, 'fgh', of_rep, *facts), *premises)


@TOPIC.lemma('With the elements that stand between, the facts about both correspondences give '
             'those of which Quotient is made.')
def quotient_compose(R1, A1, B1, T1, R2, A2, B2, T2):
    premises = [statement(each) for each in TWO_QUOTIENTS]
    first, second = two_quotients(premises)
    r, s, y, y1, z = declare('r : a, s : a, y : b, y1 : b, z : c')
    R, T = term('relcompp T1 (relcompp R2 (conversep T1))'), term('relcompp T1 T2')
    A, B = term('comp A2 A1'), term('comp B1 B2')

    def image_by(xy):
        """A x = A2 y, from T1 x y."""
        x = xy.conclusion.head.argument
        return trans(unfolding(Application(A, x)), at_equals(A2, first.image(xy)))

    def of_rep(z):
        related = composed(first.of_rep(Application(B2, z)), second.of_rep(z))
        return eqmp(values(at_equals(T, sym(unfolding(Application(B, z)))), z), related)

    def image(r, z, rz):
        return between(rz, y, lambda ry, yz: trans(image_by(ry), second.image(yz)))

    def own_and_other(r, s, rs):
        """and (T r (A r)) (T s (A r)), from R r s."""
        def related(ry, yy, sy):                                        # T1 r y, R2 y y1, T1 s y1
            same = sym(image_by(ry))                                    # A2 y = A r
            return conjunction(
                eqmp(at_equals(Application(T, r), same), composed(ry, second.own(yy))),
                eqmp(at_equals(Application(T, s), same), composed(sy, second.other(yy))))
        return between(rs, y, lambda ry, ys: between(
            ys, y1, lambda yy, backwards: related(ry, yy, unfold(backwards))))

    def meet(r, s, z, rz, sz):
        def related(ry, yz, sy, y1z):                           # T1 r y, T2 y z, T1 s y1, T2 y1 z
            backwards = fold(apply(term('conversep T1'), y1, s), sy)
            return composed(ry, composed(second.meet(yz, y1z), backwards))
        return between(rz, y, lambda ry, yz: between(
            sz, y1, lambda sy, y1z: related(ry, yz, sy, y1z)))
    rs, rz, sz = apply(R, r, s), apply(T, r, z), apply(T, s, z)
    both = Fact('compound_both', [r, s], [rs], own_and_other)
    quotient = from_facts(
        R, A, B, T, 'rsz', of_rep, Fact('compound_image', [r, z], [rz], image),
        lambda related: left(both(related)), lambda related: right(both(related)),
        Fact('compound_meet', [r, s, z], [rz, sz], meet))
    return discharge(quotient, *premises)


@TOPIC.lemma('By fun_quotient t corresponds to its image, so t x corresponds to the value of the '
             'image at A1 x, and to A2 (t x) too.')
def abs_eq_step(R1, A1, B1, T1, R2, A2, B2, T2, t, x):
    premises = [statement(each) for each in (*TWO_QUOTIENTS, 'rel_fun R1 R2 t t', 'R1 x x')]
    of_first, of_second, tt, xx = map(assume, premises)
    first, second = Quotient(of_first), Quotient(of_second)
    functions = law('fun_quotient', *first.terms, *second.terms)
    functions = Quotient(mp(functions, of_first, of_second))
    image, image_x, value = Application(functions.A, t), Application(A1, x), Application(t, x)
    image_of_value = Application(A2, value)
    at_image = related_values(functions.lift(tt, refl(image)), x, image_x,
                              first.lift(xx, refl(image_x)))            # T2 (t x) (image (A1 x))
    at_value = second.lift(related_values(tt, x, x, xx), refl(image_of_value))
    unique = unfold(mp(law('quotient_right_unique', *second.terms), of_second))
    same = mp(at(unique, value, Application(image, image_x), image_of_value), at_image, at_value)
    return discharge(same, *premises)
