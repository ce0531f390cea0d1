"""Makes the text of the prelude: definitions, lemmas with their derivations, registrations.

Each proof is run, and its theorem compared with the statement of `laws.py`.
"""

from constants import DEFINITIONS
from containers import CONTAINERS, PRED_FUN, axioms
from derived import generalize
from laws import LAWS, PART_1, PART_2, PART_3
from notation import read_type
from printing import comment, fill, show_sequent, show_type
from proofs import (classes, composition, compounds, equality, functions, identity, properties,
                    quotients, transfer, typedefs)
from shortest import shortest
from statements import read_body, read_statement
from theorem import PARAMETERS, THEORY, lines

PARTS = {             # a part's number -> its laws, and the modules of their proofs
    1: (PART_1, [functions, equality, identity, composition]),
    2: (PART_2, [transfer, properties]),
    3: (PART_3, [quotients, typedefs, classes, compounds]),
}

ABOUT = """
The constants of relations and quotients, and laws about them as lemmas. This text is made by
tools/prelude: whoever wants another one changes that.

Above each definition and lemma stands what it says, in short:
  a -> b       for (fun 'a 'b), and a~b for a -> b -> bool
  s = t        for (eq[T] s t), where T is the type of s and t
  p --> q      for (imp p q); it is right associative and weaker than =
  \\x y. t      for (\\x T (\\y U t)), where T and U are the types of x and y
  all x y. p   for (all[T] (\\x T (all[U] (\\y U p)))), and ex x. p likewise
A lemma says it for all its variables. In a derivation a binder is named by the number of binders
around it.
"""

ABOUT_CONTAINERS = 'The axioms of these types are the only ones of this text.'


def prelude(first, last, plain):
    """The text of the parts from the first to the last, as a theory, or as plain: not registered.

    The parts before the first are made too, since the proofs of the later ones use their lemmas.
    """
    blocks = ['plain 1;' if plain else 'theory 1;', note(ABOUT)]
    for part in range(1, last + 1):
        made = part_blocks(part, plain)
        if part >= first:
            blocks += made
    return '\n\n'.join(blocks) + '\n'


def part_blocks(part, plain):
    blocks = constant_blocks() if part == 1 else []
    blocks += lemma_blocks(*PARTS[part], plain)
    return blocks + container_blocks(plain) if part == 2 else blocks


def constant_blocks():
    return [heading('Constants'), *map(definition_text, DEFINITIONS)]


def note(text):
    return '\n'.join(('# ' + each).rstrip() for each in text.strip().split('\n'))


def heading(title):
    return '# ---- %s ----' % title


# ---------------------------------------------------------------- definitions

def definition_text(definition):
    """Adds a definition to the theory."""
    name, body = definition.name(), read_body(THEORY, definition)
    THEORY.add_definition(name, body.type, body.term)
    PARAMETERS[name] = definition.parameters()
    return '\n'.join([comment(definition.show()), comment(definition.meaning),
                      fill('def %s : %s' % (name, show_type(body.type))),
                      fill(':= %s;' % body.show(), '    ', '       ')])


# ---------------------------------------------------------------- lemmas

class NotProved(Exception):
    """A law that isn't proved, or a proof that doesn't give its law."""


def lemma_blocks(laws, modules, plain):
    stated = [law.label for law in laws]
    proved = [each.label for module in modules for each in module.TOPIC.proofs]
    if stated != proved:
        raise NotProved('stated are %s, but proved %s' % (stated, proved))
    return [block for module in modules for block in topic_blocks(module.TOPIC, plain)]


def topic_blocks(topic, plain):
    return [heading(topic.title), *(lemma_text(LAWS[each.label], each, plain)
                                    for each in topic.proofs)]


def lemma_text(law, proof, plain):
    """Proves a law, and adds its statement to the theory."""
    statement = read_statement(THEORY, law.variables, law.statement)
    theorem = shortest(lambda *variables: generalize(proof.prove(*variables), *variables),
                       statement.variables)
    if theorem.sequent() != ((), statement.term):
        raise NotProved('the proof of %s gives %s' % (law.label, show_sequent(theorem.sequent())))
    THEORY.add_statement(law.label, statement.term)
    text = [comment(law.statement), comment('Proof: ' + proof.idea),
            fill('lemma %s : %s {' % (law.label, statement.show())),
            *[fill(each, '  ', '      ') for each in lines(theorem)], '};']
    return '\n'.join(text if plain else text + registrations(law))


def registrations(law, **words):
    """The commands that register a law, or an axiom with its container's words: one or none."""
    forms = {'none': [], 'law': ['law {0} {0};'], 'rule': ['rule {0};'],
             'property': ['property {0};'], 'domain': ['domain {0};'],
             'relator': ['relator {K} {REL} {MAP} {K}_eq {K}_quotient {K}_comp;']}
    return [each.format(law.label, **words) for each in forms[law.registration]]


# ---------------------------------------------------------------- products, sums and lists

def container_blocks(plain):
    blocks = [heading('Products, sums and lists'), note(ABOUT_CONTAINERS),
              definition_text(PRED_FUN)]
    for container in CONTAINERS:
        blocks.append(declarations(container))
        blocks += [axiom_text(each, container, plain) for each in axioms(container)]
    return blocks


def declarations(container):
    """Adds the type and its constants to the theory."""
    THEORY.add_type(container.name, container.arity)
    text = ['type %s %d;' % (container.name, container.arity)]
    for name, written in container.constants.items():
        type_ = read_type(written, THEORY)
        THEORY.add_constant(name, type_)
        text.append(fill('const %s : %s;' % (name, show_type(type_))))
    return '\n'.join(text)


def axiom_text(axiom, container, plain):
    """Adds an axiom to the theory."""
    statement = read_statement(THEORY, axiom.variables, axiom.statement)
    THEORY.add_statement(axiom.label, statement.term)
    text = [comment(axiom.statement), fill('axiom %s : %s;' % (axiom.label, statement.show()))]
    return '\n'.join(text if plain else text + registrations(axiom, **container.words()))
