"""Lemmas of one topic, with their proofs."""

from typing import NamedTuple


class Proof(NamedTuple):
    label: str           # of the law that it proves
    idea: str            # how it goes, in a sentence
    prove: object        # takes the variables of the law, and answers the theorem for these


class Topic:
    def __init__(self, title):
        self.title, self.proofs = title, []

    def lemma(self, idea):
        """Adds the decorated proof, which is named by its law. The text has this order."""
        def add(prove):
            self.proofs.append(Proof(prove.__name__, idea, prove))
            return prove
        return add
