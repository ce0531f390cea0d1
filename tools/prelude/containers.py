"""Products, sums and lists: types with axioms, in the short notation."""

import re
from typing import NamedTuple

from constants import Definition
from laws import Law

PRED_FUN = Definition('pred_fun P Q f', '(a -> bool) -> (b -> bool) -> (a -> b) -> bool',
                      'all x. P x --> Q (f x)', 'f takes arguments with P to values with Q.')

PROPERTIES = ['left_total', 'right_total', 'left_unique', 'right_unique', 'bi_total', 'bi_unique']


class Container(NamedTuple):
    name: str
    arity: int
    constants: dict      # constructors, then relator, map and predicate, with their types
    rules: dict          # constructor -> what relates it to itself, for relations A and B

    def words(self):
        """What stands for it and its constants in the forms of axioms."""
        relator, map_, predicate = list(self.constants)[-3:]
        return {'K': self.name, 'REL': relator, 'MAP': map_, 'PRED': predicate}


CONTAINERS = [
    Container(
        'prod', 2,
        {'pair': 'a -> b -> prod a b',
         'rel_prod': 'a~b -> c~d -> prod a c ~ prod b d',
         'map_prod': '(a -> b) -> (c -> d) -> prod a c -> prod b d',
         'pred_prod': '(a -> bool) -> (b -> bool) -> prod a b -> bool'},
        {'pair': 'rel_fun A (rel_fun B (rel_prod A B))'}),
    Container(
        'sum', 2,
        {'inl': 'a -> sum a b', 'inr': 'b -> sum a b',
         'rel_sum': 'a~b -> c~d -> sum a c ~ sum b d',
         'map_sum': '(a -> b) -> (c -> d) -> sum a c -> sum b d',
         'pred_sum': '(a -> bool) -> (b -> bool) -> sum a b -> bool'},
        {'inl': 'rel_fun A (rel_sum A B)', 'inr': 'rel_fun B (rel_sum A B)'}),
    Container(
        'list', 1,
        {'nil': 'list a', 'cons': 'a -> list a -> list a',
         'list_all2': 'a~b -> list a ~ list b',
         'map': '(a -> b) -> list a -> list b',
         'list_all': '(a -> bool) -> list a -> bool'},
        {'nil': 'list_all2 A', 'cons': 'rel_fun A (rel_fun (list_all2 A) (list_all2 A))'}),
]

# The forms of the axioms, by arity. There K is the type, REL, MAP and PRED are its constants, and p
# is each of the properties.
RELATIONS = {1: 'A : a~b', 2: 'A : a~b, B : c~d'}

FORMS = {
    1: [Law('none', 'K_eq', '', 'REL eq[a] = eq'),
        Law('none', 'K_quotient', 'R1 : a~a, A1 : a -> b, B1 : b -> a, T1 : a~b',
            'Quotient R1 A1 B1 T1 --> Quotient (REL R1) (MAP A1) (MAP B1) (REL T1)'),
        Law('relator', 'K_comp', 'R1 : a~b, S1 : b~c',
            'REL (relcompp R1 S1) = relcompp (REL R1) (REL S1)'),
        Law('property', 'K_p', RELATIONS[1], 'p A --> p (REL A)'),
        Law('domain', 'K_domain', RELATIONS[1], 'Domainp (REL A) = PRED (Domainp A)')],
    2: [Law('none', 'K_eq', '', 'REL eq[a] eq[b] = eq'),
        Law('none', 'K_quotient', 'R1 : a~a, A1 : a -> b, B1 : b -> a, T1 : a~b, '
            'R2 : c~c, A2 : c -> d, B2 : d -> c, T2 : c~d',
            'Quotient R1 A1 B1 T1 --> Quotient R2 A2 B2 T2 '
            '--> Quotient (REL R1 R2) (MAP A1 A2) (MAP B1 B2) (REL T1 T2)'),
        Law('relator', 'K_comp', 'R1 : a~b, S1 : b~c, R2 : d~e, S2 : e~k',
            'REL (relcompp R1 S1) (relcompp R2 S2) = relcompp (REL R1 R2) (REL S1 S2)'),
        Law('property', 'K_p', RELATIONS[2], 'p A --> p B --> p (REL A B)'),
        Law('domain', 'K_domain', RELATIONS[2],
            'Domainp (REL A B) = PRED (Domainp A) (Domainp B)')],
}


def axioms(container):
    """The container's axioms, in the order of the text."""
    found = []
    for form in FORMS[container.arity]:
        names = PROPERTIES if form.registration == 'property' else ['']
        found += [filled(form, container, each) for each in names]
    for constructor, relation in container.rules.items():
        statement = '%s %s %s' % (relation, constructor, constructor)
        variables = RELATIONS[container.arity]
        found.append(Law('rule', constructor + '_transfer', variables, statement))
    return found


def filled(form, container, property_name):
    """A form for a container and, where it's that of a property, for a property."""
    words = {**container.words(), 'p': property_name}
    label = form.label.replace('K_p', 'K_' + property_name).replace('K', container.name)
    statement = re.sub(r'\w+', lambda found: words.get(found.group(), found.group()),
                       form.statement)
    return form._replace(label=label, statement=statement)
