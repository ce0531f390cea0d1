"""The constants that the prelude defines, in the text's order and in the short notation."""

from typing import NamedTuple


class Definition(NamedTuple):
    left: str            # the constant with its parameters
    type: str
    right: str
    meaning: str

    def name(self):
        return self.left.split()[0]

    def parameters(self):
        return self.left.split()[1:]

    def body(self):
        """The right side as a function of the parameters."""
        names = ' '.join(self.parameters())
        return r'\%s. %s' % (names, self.right) if names else self.right

    def show(self):
        return '%s := %s' % (self.left, self.right)


DEFINITIONS = [
    Definition('true', 'bool', r'(\p:bool. p) = (\p:bool. p)', 'Truth: an equation that holds.'),
    Definition('false', 'bool', 'all p. p', 'Falsehood: that every statement holds.'),
    Definition('not p', 'bool -> bool', 'p --> false', 'p gives falsehood.'),
    Definition('and p q', 'bool -> bool -> bool', 'all r. (p --> q --> r) --> r',
               'Both hold: whatever p and q give together holds.'),
    Definition('or p q', 'bool -> bool -> bool', 'all r. (p --> r) --> (q --> r) --> r',
               'One of them holds: whatever p gives, and q gives too, holds.'),
    Definition('ex P', '(a -> bool) -> bool', 'all q. (all x. P x --> q) --> q',
               'P holds of something: whatever P x gives for each x holds.'),
    Definition('id x', 'a -> a', 'x', 'The identity.'),
    Definition('comp g f x', '(b -> c) -> (a -> b) -> a -> c', 'g (f x)',
               'The composition of two functions.'),
    Definition('map_fun f g h x', '(c -> a) -> (b -> d) -> (a -> b) -> c -> d', 'g (h (f x))',
               'The function h with f before it and g behind it.'),
    Definition('rel_fun R S f g', 'a~c -> b~d -> (a -> b) -> (c -> d) -> bool',
               'all x y. R x y --> S (f x) (g y)',
               'f and g take arguments related by R to values related by S.'),
    Definition('relcompp R S x z', 'a~b -> b~c -> a~c', 'ex y. and (R x y) (S y z)',
               'The composition of two relations: some y stands between x and z.'),
    Definition('conversep R y x', 'a~b -> b~a', 'R x y', 'The relation, read backwards.'),
    Definition('eq_onp P x y', '(a -> bool) -> a~a', 'and (P x) (x = y)',
               'Equality of those of which P holds.'),
    Definition('Domainp R x', 'a~b -> a -> bool', 'ex y. R x y', 'x is related to something.'),
    Definition('left_total R', 'a~b -> bool', 'all x. ex y. R x y',
               'Each x is related to some y.'),
    Definition('right_total R', 'a~b -> bool', 'all y. ex x. R x y',
               'To each y some x is related.'),
    Definition('left_unique R', 'a~b -> bool', 'all x y z. R x z --> R y z --> x = y',
               'To each z at most one x is related.'),
    Definition('right_unique R', 'a~b -> bool', 'all x y z. R x y --> R x z --> y = z',
               'Each x is related to at most one y.'),
    Definition('bi_total R', 'a~b -> bool', 'and (left_total R) (right_total R)',
               'Total on both sides.'),
    Definition('bi_unique R', 'a~b -> bool', 'and (left_unique R) (right_unique R)',
               'Unique on both sides.'),
    Definition('part_equivp R', 'a~a -> bool',
               'and (ex x. R x x) (and (all x y. R x y --> R y x) '
               '(all x y z. R x y --> R y z --> R x z))',
               'Something is related to itself, and R is symmetric and transitive.'),
    Definition('Quotient R A B T', 'a~a -> (a -> b) -> (b -> a) -> a~b -> bool',
               'and (all y. A (B y) = y) (and (all y. R (B y) (B y)) '
               '(and (all r s. R r s = and (R r r) (and (R s s) (A r = A s))) '
               r'(T = (\x y. and (R x x) (A x = y)))))',
               'b is the quotient of a by R, with the abstraction A, the representation B and the '
               'correspondence T: A undoes B; R relates each B y to itself; R relates two elements '
               'where it relates each to itself and A takes both to one value; and T relates such '
               'an element to that value.'),
]
