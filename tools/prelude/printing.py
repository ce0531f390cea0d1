"""Types, terms, sequents and the items of a text, printed."""

import re
import textwrap

from rules import ARGUMENTS
from terms import (Abstraction, Application, Bound, Constant, Free, TypeConstructor, TypeVariable,
                   head_and_arguments)

COLUMNS = 100


def show_type(type_):
    match type_:
        case TypeVariable(name):
            return "'" + name
        case TypeConstructor(name, ()):
            return name
        case TypeConstructor(name, arguments):
            return '(%s %s)' % (name, ' '.join(map(show_type, arguments)))


def show_term(term, names=None):
    """The term with these names of its binders, in the order of the text.

    Without them a binder is named by the number of binders around it, as `lt` prints it.
    """
    return show_below((), term, names and iter(names))


def show_below(around, term, names):
    """`around` has the names of the binders around the term, the innermost first."""
    match term:
        case Free(name, type_):
            return '($%s %s)' % (name, show_type(type_))
        case Bound(index):
            return '%' + around[index]
        case Constant(name, ()):
            return name
        case Constant(name, types):
            return '%s[%s]' % (name, ' '.join(map(show_type, types)))
        case Abstraction(type_, body):
            name = next(names) if names else 'x%d' % len(around)
            inside = show_below((name, *around), body, names)
            return '(\\%s %s %s)' % (name, show_type(type_), inside)
        case Application():
            head, arguments = head_and_arguments(term)
            return '(%s)' % ' '.join(show_below(around, each, names) for each in (head, *arguments))


def show_sequent(sequent):
    hypotheses = ', '.join(map(show_term, sequent.hypotheses))
    return '%s|- %s' % (hypotheses and hypotheses + ' ', show_term(sequent.conclusion))


# ---------------------------------------------------------------- lines of a lemma, items

SHOW = {'term': show_term, 'type': show_type, 'name': str, 'label': str, 'line': str,
        'type_variable': lambda name: "'" + name}


def show_line(rule, arguments):
    """A line of a lemma; the numbers of the lines that it uses stand last in the arguments."""
    parts = [SHOW[kind](each) for kind, each in zip(ARGUMENTS[rule], arguments)]
    return ' '.join([rule, *parts]) + ';'


def fill(text, first='', later='    '):
    """The text in lines of at most COLUMNS columns, which begin with `first` and with `later`.

    Innermost parentheses and brackets aren't broken, and a binder's name stands by its type.
    """
    whole = WHOLE.sub(lambda found: found.group().replace(' ', FIXED), text)
    return textwrap.fill(whole, COLUMNS, initial_indent=first, subsequent_indent=later,
                         break_long_words=False, break_on_hyphens=False).replace(FIXED, ' ')


WHOLE = re.compile(r'[(\[][^()\[\]]*[)\]]|\\\w+ ')
FIXED = '\0'         # stands for a space that doesn't end a line


def comment(text):
    return fill(text, '# ', '#   ')
