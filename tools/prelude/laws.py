"""What the prelude states, in the text's order and in the short notation.

A statement is closed by `all` over its variables, in their order.
"""

from typing import NamedTuple


class Law(NamedTuple):
    registration: str    # the command that registers it: law, rule, property or none
    label: str
    variables: str
    statement: str


QUOTIENT = 'R : a~a, A : a -> b, B : b -> a, T : a~b'
TYPEDEF = 'P : a -> bool, A : a -> b, B : b -> a, T : a~b'
FUNCTION_QUOTIENTS = ('R1 : a~a, A1 : a -> c, B1 : c -> a, T1 : a~c, '
                      'R2 : b~b, A2 : b -> d, B2 : d -> b, T2 : b~d')
CHAINED_QUOTIENTS = ('R1 : a~a, A1 : a -> b, B1 : b -> a, T1 : a~b, '
                     'R2 : b~b, A2 : b -> c, B2 : c -> b, T2 : b~c')

TWO_QUOTIENTS = 'Quotient R1 A1 B1 T1 --> Quotient R2 A2 B2 T2 --> '
INVERSES = (r'(all y. P (B y)) --> (all y. A (B y) = y) --> (all r. P r --> B (A r) = r) '
            r'--> T = (\x y. x = B y) --> ')
IS_CLASS = r'(\C. ex x. and (R x x) (C = R x))'

PART_1 = [
    Law('law', 'rel_fun_app', 'R : a~c, S : b~d, f : a -> b, g : c -> d, x : a, y : c',
        'rel_fun R S f g --> R x y --> S (f x) (g y)'),
    Law('law', 'rel_fun_abs', 'R : a~c, S : b~d, f : a -> b, g : c -> d',
        '(all x y. R x y --> S (f x) (g y)) --> rel_fun R S f g'),
    Law('law', 'rel_fun_eq', '', 'rel_fun eq[a] eq[b] = eq'),
    Law('law', 'left_total_eq', '', 'left_total eq[a]'),
    Law('law', 'right_total_eq', '', 'right_total eq[a]'),
    Law('law', 'left_unique_eq', '', 'left_unique eq[a]'),
    Law('law', 'right_unique_eq', '', 'right_unique eq[a]'),
    Law('law', 'bi_total_eq', '', 'bi_total eq[a]'),
    Law('law', 'bi_unique_eq', '', 'bi_unique eq[a]'),
    Law('law', 'id_apply', 'x : a', 'id x = x'),
    Law('law', 'map_fun_apply', 'f : c -> a, g : b -> d, h : a -> b, x : c',
        'map_fun f g h x = g (h (f x))'),
    Law('law', 'id_quotient', '', 'Quotient eq[a] id id eq'),
    Law('law', 'relcompp_intro', 'R : a~b, S : b~c, x : a, y : b, z : c',
        'R x y --> S y z --> relcompp R S x z'),
    Law('law', 'relcompp_eq_left', 'T : a~b', 'relcompp eq T = T'),
    Law('law', 'relcompp_eq_right', 'R : a~b', 'relcompp R eq = R'),
    Law('law', 'relcompp_assoc', 'R : a~b, S : b~c, T : c~d',
        'relcompp (relcompp R S) T = relcompp R (relcompp S T)'),
    Law('law', 'rel_fun_distr', 'R : a~b, S : c~d, U : b~e, V : d~k, f : a -> c, h : e -> k',
        'relcompp (rel_fun R S) (rel_fun U V) f h --> rel_fun (relcompp R U) (relcompp S V) f h'),
]

PART_2 = [
    Law('rule', 'eq_transfer', 'A : a~b', 'bi_unique A --> rel_fun A (rel_fun A eq) eq eq'),
    Law('rule', 'all_transfer', 'A : a~b', 'bi_total A --> rel_fun (rel_fun A eq) eq all all'),
    Law('rule', 'ex_transfer', 'A : a~b', 'bi_total A --> rel_fun (rel_fun A eq) eq ex ex'),
    Law('none', 'all_bounded', 'A : a~b',
        r'right_total A --> rel_fun (rel_fun A eq) eq (\P. all x. Domainp A x --> P x) all'),
    Law('none', 'all_implies', 'A : a~b', 'right_total A --> rel_fun (rel_fun A eq) imp all all'),
    Law('property', 'fun_left_total', 'A : a~b, B : c~d',
        'left_unique A --> left_total B --> left_total (rel_fun A B)'),
    Law('property', 'fun_right_total', 'A : a~b, B : c~d',
        'right_unique A --> right_total B --> right_total (rel_fun A B)'),
    Law('property', 'fun_left_unique', 'A : a~b, B : c~d',
        'left_total A --> left_unique B --> left_unique (rel_fun A B)'),
    Law('property', 'fun_right_unique', 'A : a~b, B : c~d',
        'right_total A --> right_unique B --> right_unique (rel_fun A B)'),
    Law('property', 'fun_bi_total', 'A : a~b, B : c~d',
        'bi_unique A --> bi_total B --> bi_total (rel_fun A B)'),
    Law('property', 'fun_bi_unique', 'A : a~b, B : c~d',
        'bi_total A --> bi_unique B --> bi_unique (rel_fun A B)'),
]

PART_3 = [
    Law('law', 'quotient_rep', QUOTIENT, 'Quotient R A B T --> (all y. R (B y) (B y))'),
    Law('law', 'quotient_lift', QUOTIENT + ', t : a, c : b',
        'Quotient R A B T --> R t t --> c = A t --> T t c'),
    Law('law', 'quotient_right_total', QUOTIENT, 'Quotient R A B T --> right_total T'),
    Law('law', 'quotient_rel', QUOTIENT, 'Quotient R A B T --> rel_fun T (rel_fun T eq) R eq'),
    Law('law', 'quotient_right_unique', QUOTIENT, 'Quotient R A B T --> right_unique T'),
    Law('law', 'quotient_domain', QUOTIENT, r'Quotient R A B T --> Domainp T = (\x. R x x)'),
    Law('law', 'typedef_quotient', TYPEDEF, INVERSES + 'Quotient (eq_onp P) A B T'),
    Law('law', 'typedef_bi_unique', 'A : a -> b, B : b -> a, T : a~b',
        r'(all y. A (B y) = y) --> T = (\x y. x = B y) --> bi_unique T'),
    Law('law', 'typedef_domain', TYPEDEF, INVERSES + 'Domainp T = P'),
    Law('law', 'typedef_rep_abs', TYPEDEF + ', x : a',
        'Quotient (eq_onp P) A B T --> eq_onp P x x --> B (A x) = x'),
    Law('law', 'class_nonempty', 'R : a~a',
        r'part_equivp R --> %s (R (eps (\x. R x x)))' % IS_CLASS),
    Law('law', 'class_quotient',
        'R : a~a, K : (a -> bool) -> b, L : b -> a -> bool, A : a -> b, B : b -> a, T : a~b',
        r'part_equivp R --> (all y. {0} (L y)) --> (all y. K (L y) = y) '
        r'--> (all C. {0} C --> L (K C) = C) --> A = (\x. K (R x)) --> B = (\y. eps (L y)) '
        r'--> T = (\x y. and (R x x) (A x = y)) --> Quotient R A B T'.format(IS_CLASS)),
    Law('law', 'fun_quotient', FUNCTION_QUOTIENTS, TWO_QUOTIENTS +
        'Quotient (rel_fun R1 R2) (map_fun B1 A2) (map_fun A1 B2) (rel_fun T1 T2)'),
    Law('law', 'quotient_compose', CHAINED_QUOTIENTS, TWO_QUOTIENTS +
        'Quotient (relcompp T1 (relcompp R2 (conversep T1))) (comp A2 A1) (comp B1 B2) '
        '(relcompp T1 T2)'),
    Law('law', 'abs_eq_step', FUNCTION_QUOTIENTS + ', t : a -> b, x : a', TWO_QUOTIENTS +
        'rel_fun R1 R2 t t --> R1 x x --> map_fun B1 A2 t (A1 x) = A2 (t x)'),
]

LAWS = {each.label: each for each in PART_1 + PART_2 + PART_3}
