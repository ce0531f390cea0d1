"""The shortest of a lemma's derivations: chooses what `derived.is_switched` tells."""

from typing import NamedTuple

from theorem import AT_HAND, Theorem, derivation, lines


class Attempt(NamedTuple):
    theorem: Theorem
    switched: frozenset
    used: list           # the names of all that could be switched

    def is_shorter(self, other):
        """Whether it has fewer lines, or as many with fewer characters."""
        count, other_count = (len(derivation(each.theorem)) for each in (self, other))
        if count != other_count:
            return count < other_count
        return self.count_characters() < other.count_characters()

    def count_characters(self):
        return sum(map(len, lines(self.theorem)))


def attempt(prove, variables, switched):
    AT_HAND.begin(variables, switched)
    theorem = prove(*variables)
    return Attempt(theorem, switched, sorted(AT_HAND.used))


def shortest(prove, variables):
    """The theorem that a proof gives for the variables, by the shortest derivation that is found.

    Beginning with nothing switched, all is switched in turn, and stays so where that is shorter;
    then all again, until nothing is shorter.
    """
    best, before = attempt(prove, variables, frozenset()), None
    while best is not before:
        before = best
        for name in before.used:
            other = attempt(prove, variables, best.switched ^ {name})
            best = other if other.is_shorter(best) else best
    return best.theorem
