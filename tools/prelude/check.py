"""Checks a text of the prelude.

Each item is checked over those before it: each line of each lemma by the twenty rules. Beyond what
`lt check` asks for, a constant of the tables has their definition, what is registered is a law or
an axiom of the tables, and no line of a lemma is idle or gives what an earlier line gave.
"""

from collections import Counter

from constants import DEFINITIONS
from containers import CONTAINERS, PRED_FUN, axioms
from laws import LAWS
from notation import BadNotation
from printing import show_sequent
from reading import BadText, Reader
from rules import ARGUMENTS, Wrong, apply_rule
from statements import read_body, read_statement
from theory import Refused, Theory, need

BODIES = {each.name(): each for each in (*DEFINITIONS, PRED_FUN)}
STATEMENTS = {**LAWS, **{law.label: law for each in CONTAINERS for law in axioms(each)}}


class Check:
    def __init__(self):
        self.theory, self.counts = Theory(), Counter()

    def check_text(self, text):
        """Checks the whole text. BadText where something is wrong."""
        reader = Reader(text)
        self.is_plain = reader.header() == 'plain'
        for command in reader.commands():
            self.check_command(command)

    def check_command(self, command):
        try:
            getattr(self, 'check_' + command.word)(*command.parts)
        except (Refused, BadNotation) as refused:
            told = '%s %s: %s' % (command.word, command.parts[0], refused)
            raise BadText(command.line, told) from refused
        self.counts[command.word] += 1

    # -- items

    def check_type(self, name, arity):
        self.theory.add_type(name, arity)

    def check_const(self, name, type_):
        self.theory.add_constant(name, type_)

    def check_axiom(self, label, term):
        self.theory.add_statement(label, term)

    def check_def(self, name, type_, body):
        if name in BODIES:
            known = read_body(self.theory, BODIES[name])
            need(type_ is known.type and body is known.term, 'another definition')
        self.theory.add_definition(name, type_, body)

    def check_lemma(self, label, term, lines):
        sequents = [None]        # of the lines, by their numbers
        for line in lines:
            self.check_line(line, sequents)
        need(lines, 'no lines')
        need(sequents[-1] == ((), term), 'NotProved ' + show_sequent(sequents[-1]))
        self.check_used(lines)
        self.theory.add_statement(label, term)
        self.counts['line'] += len(lines)

    # -- lines

    def check_line(self, line, sequents):
        """Adds the sequent of a line."""
        try:
            sequent = self.sequent_of(line, sequents)
            need(sequent not in sequents, 'the same as an earlier line')
        except (Wrong, Refused) as refused:
            told = 'line %d, %s: %s' % (len(sequents), line.rule, refused)
            raise BadText(line.line, told) from refused
        sequents.append(sequent)

    def sequent_of(self, line, sequents):
        for kind, argument in zip(ARGUMENTS[line.rule], line.arguments):
            self.check_argument(kind, argument, len(sequents))
        premises = [sequents[each] for each in numbers(line)]
        own = line.arguments[:len(line.arguments) - len(premises)]
        return apply_rule(self.theory, line.rule, own, premises)

    def check_argument(self, kind, argument, number):
        if kind == 'term':
            self.theory.type_of(argument)
        elif kind == 'type':
            self.theory.check_type(argument)
        elif kind == 'line':
            need(0 < argument < number, 'MissingLine')

    def check_used(self, lines):
        used = {number for line in lines for number in numbers(line)}
        for number, line in enumerate(lines[:-1], 1):
            if number not in used:
                raise BadText(line.line, 'line %d: no later line uses it' % number)

    # -- registrations

    def check_law(self, law, label):
        need(law in STATEMENTS and STATEMENTS[law].registration == 'law', 'UnknownLaw ' + law)
        self.check_statement(STATEMENTS[law], label)

    def check_rule(self, label):
        self.check_registration('rule', label)

    def check_property(self, label):
        self.check_registration('property', label)

    def check_domain(self, label):
        self.check_registration('domain', label)

    def check_relator(self, name, relator, map_, *labels):
        known = next((each for each in CONTAINERS if each.name == name), None)
        need(known, 'not a container')
        need((relator, map_) == (known.words()['REL'], known.words()['MAP']), 'other constants')
        need(list(labels) == [each.label for each in axioms(known)[:3]], 'other labels')
        for label in labels:
            self.check_statement(STATEMENTS[label], label)

    def check_registration(self, word, label):
        need(label in STATEMENTS and STATEMENTS[label].registration == word, 'not known as that')
        self.check_statement(STATEMENTS[label], label)

    def check_statement(self, known, label):
        """The statement of the label is the known one."""
        need(not self.is_plain, 'BadCommand')
        need(label in self.theory.statements, 'UnknownLabel ' + label)
        statement = read_statement(self.theory, known.variables, known.statement)
        need(self.theory.statements[label] is statement.term, 'LawDiffers')


def numbers(line):
    """The numbers of the lines that a line uses."""
    count = ARGUMENTS[line.rule].count('line')
    return line.arguments[len(line.arguments) - count:]
