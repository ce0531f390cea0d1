"""Theorems that know their derivations.

A theorem is a sequent together with the rule, the arguments and the theorems that give it. `line`
alone makes one, by the rules themselves, so each theorem has a derivation. Equal sequents are one
theorem within a lemma, and `lines` gives only what the last one needs: no line is repeated or idle.
"""

from inference import term_of
from notation import read_tree, read_variables
from printing import show_line
from rules import Sequent, apply_rule
from terms import BOOL, Free
from theory import Theory

THEORY = Theory()    # what stands before the lemma at hand
PARAMETERS = {}      # defined constant -> the names of the binders that its body begins with


class LemmaAtHand:
    def begin(self, variables, switched):
        """A new lemma over these variables, with the names of what is switched in it."""
        self.theorems = {}       # (set of hypotheses, conclusion) -> theorem
        self.scope = {each.name: each.type for each in variables}
        self.switched = switched
        self.derived = {}        # name of a derived rule -> the theorem that states it
        self.used = set()        # names of what could be switched


AT_HAND = LemmaAtHand()


class Theorem:
    def __init__(self, sequent, rule, arguments, premises):
        self.hypotheses, self.conclusion = sequent
        self.rule, self.arguments, self.premises = rule, arguments, premises

    def sequent(self):
        return Sequent(self.hypotheses, self.conclusion)


def line(rule, *arguments, using=()):
    """The theorem that the rule gives from its arguments and from the theorems that it uses."""
    sequent = apply_rule(THEORY, rule, arguments, [each.sequent() for each in using])
    key = frozenset(sequent.hypotheses), sequent.conclusion
    if key not in AT_HAND.theorems:
        AT_HAND.theorems[key] = Theorem(sequent, rule, arguments, using)
    return AT_HAND.theorems[key]


# ---------------------------------------------------------------- the rules that proofs use

def assume(p): return line('assume', p)
def refl(t): return line('refl', t)
def sym(a): return line('sym', using=[a])
def cong(a, b): return line('cong', using=[a, b])
def abs_(x, a): return line('abs', x.name, x.type, using=[a])
def beta(t): return line('beta', t)
def eta(t): return line('eta', t)
def eqmp(a, b): return line('eqmp', using=[a, b])
def impI(p, a): return line('impI', p, using=[a])
def allI(x, a): return line('allI', x.name, x.type, using=[a])
def allE(t, a): return line('allE', t, using=[a])
def iff(a, b): return line('iff', using=[a, b])
def inst(x, t, a): return line('inst', x.name, x.type, t, using=[a])
def tinst(name, type_, a): return line('tinst', name, type_, using=[a])
def select(p): return line('select', p)
def thm(label): return line('thm', label)


def trans(a, *more):
    """The chain of two or more equations."""
    for b in more:
        a = line('trans', using=[a, b])
    return a


def mp(a, *premises):
    """The conclusion behind one or more premises."""
    for b in premises:
        a = line('mp', using=[a, b])
    return a


# ---------------------------------------------------------------- the notation in proofs

def declare(text):
    """The free variables of `x : a, y : b`, which the notation knows from now on."""
    types = read_variables(text, THEORY)
    AT_HAND.scope.update(types)
    return [Free(name, type_) for name, type_ in types.items()]


def term(text, type_=None):
    return term_of(read_tree(text, THEORY), THEORY, AT_HAND.scope, type_)


def statement(text):
    return term(text, BOOL)


def type_of(t):
    return THEORY.type_of(t)


# ---------------------------------------------------------------- the derivation of a theorem

def derivation(last):
    """The theorems that the last one needs, each behind those that it uses itself."""
    found, seen, open_ = [], set(), [(last, False)]
    while open_:
        theorem, has_premises = open_.pop()
        if has_premises:
            found.append(theorem)
        elif theorem not in seen:
            seen.add(theorem)
            open_.append((theorem, True))
            open_ += [(each, False) for each in reversed(theorem.premises)]
    return found


def lines(last):
    """The lines of the derivation, in the text format."""
    theorems = derivation(last)
    number = {theorem: count for count, theorem in enumerate(theorems, 1)}
    return [show_line(each.rule, [*each.arguments, *(number[a] for a in each.premises)])
            for each in theorems]
