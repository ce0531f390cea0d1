"""The text format, read: tokens, then types, terms, lines of lemmas, and commands."""

import re
from typing import NamedTuple

from rules import ARGUMENTS
from terms import (Abstraction, Application, Bound, Constant, Free, TypeConstructor, TypeVariable)


class BadText(Exception):
    """What is wrong with a text, and the line of the text where it stands."""

    def __init__(self, line, reason):
        super().__init__(reason)
        self.line, self.reason = line, reason


# ---------------------------------------------------------------- tokens

class Token(NamedTuple):
    kind: str            # name, type_variable, number, sign or end
    text: str            # a type variable without its quote
    line: int


SPACE = re.compile(r'(?:[ \t\r\n]|#[^\n]*)*')
NUMBER = re.compile(r'[0-9]+')
SIGN = re.compile(r':=|[()\[\]{};:$%\\]')


def name_end(text, begin):
    """The end of the name that begins there, or `begin` itself."""
    if not text[begin:begin + 1].isidentifier():
        return begin
    end = begin + 1
    while end < len(text) and ('a' + text[end]).isidentifier():
        end += 1
    return end


def token_at(text, begin, line):
    """The token that begins there, and its end."""
    quotes = 1 if text[begin] == "'" else 0
    end = name_end(text, begin + quotes)
    if end > begin + quotes:
        kind = 'type_variable' if quotes else 'name'
        return Token(kind, text[begin + quotes:end], line), end
    for kind, form in ('number', NUMBER), ('sign', SIGN):
        if found := form.match(text, begin):
            return Token(kind, found.group(), line), found.end()
    raise BadText(line, 'BadChar')


def tokens(text):
    at, line, found = 0, 1, []
    while True:
        end = SPACE.match(text, at).end()
        line += text.count('\n', at, end)
        if end == len(text):
            return [*found, Token('end', '', line)]
        token, at = token_at(text, end, line)
        found.append(token)


# ---------------------------------------------------------------- commands

# A command's word -> its parts. Words and signs that stand for themselves are in quotes.
COMMANDS = {
    'type': 'name number',
    'const': "name ':' type",
    'axiom': "name ':' term",
    'def': "name ':' type ':=' term",
    'lemma': "name ':' term body",
    'law': 'name name',
    'relator': 'name name name name name name',
    'property': 'name',
    'domain': 'name',
    'rule': 'name',
}


class Command(NamedTuple):
    word: str
    parts: list
    line: int


class Line(NamedTuple):
    rule: str
    arguments: list
    line: int


class Reader:
    def __init__(self, text):
        self.tokens, self.at = tokens(text), 0

    def peek(self):
        return self.tokens[self.at]

    def wrong(self, reason):
        raise BadText(self.peek().line, reason)

    def take(self, kind):
        token = self.peek()
        if token.kind != kind:
            self.wrong('Syntax: %r where a %s should stand' % (token.text, kind))
        self.at += 1
        return token.text

    def sees(self, text):
        return self.peek().kind in ('sign', 'name') and self.peek().text == text

    def accept(self, text):
        """Passes a given word or sign, and tells whether it stood there."""
        found = self.sees(text)
        self.at += found
        return found

    def expect(self, text):
        if not self.accept(text):
            self.wrong('Syntax: %r where %r should stand' % (self.peek().text, text))

    def some(self, read, end):
        """What is read up to a sign."""
        found = []
        while not self.accept(end):
            found.append(read())
        return found

    # -- the kinds of parts; each is called by its name

    def name(self):
        return self.take('name')

    label = name

    def type_variable(self):
        return self.take('type_variable')

    def number(self):
        digits = self.take('number')
        if len(digits.lstrip('0')) > 10 or int(digits) >= 2 ** 32:
            self.wrong('Syntax: a number that is too great')
        return int(digits)

    line = number

    def type(self):
        if self.peek().kind == 'type_variable':
            return TypeVariable(self.type_variable())
        if not self.accept('('):
            return TypeConstructor(self.name(), ())
        name, first = self.name(), self.type()
        return TypeConstructor(name, (first, *self.some(self.type, ')')))

    def term(self, scope=()):
        """`scope` has the names of the binders around, the innermost first."""
        if self.accept('%'):
            return self.bound(scope)
        if not self.accept('('):
            return self.constant()
        if self.accept('$'):
            term = Free(self.name(), self.type())
        elif self.accept('\\'):
            name, type_ = self.name(), self.type()
            term = Abstraction(type_, self.term((name, *scope)))
        else:
            return self.application(scope)
        self.expect(')')
        return term

    def bound(self, scope):
        name = self.name()
        if name not in scope:
            self.wrong('Unbound')
        return Bound(scope.index(name))

    def constant(self):
        name, types = self.name(), []
        if self.accept('['):
            types = [self.type(), *self.some(self.type, ']')]
        return Constant(name, tuple(types))

    def application(self, scope):
        term = Application(self.term(scope), self.term(scope))
        for argument in self.some(lambda: self.term(scope), ')'):
            term = Application(term, argument)
        return term

    def body(self):
        """The lines of a lemma."""
        self.expect('{')
        return self.some(self.line_of_lemma, '}')

    def line_of_lemma(self):
        line, rule = self.peek().line, self.peek().text
        if rule not in ARGUMENTS:
            self.wrong('Syntax: %r is no rule' % rule)
        self.name()
        arguments = [getattr(self, kind)() for kind in ARGUMENTS[rule]]
        self.expect(';')
        return Line(rule, arguments, line)

    # -- the whole text

    def header(self):
        """The word of the text's kind."""
        if not self.sees('theory') and not self.sees('plain'):
            self.wrong('BadHeader')
        word = self.name()
        if self.number() != 1:
            self.wrong('BadHeader')
        self.expect(';')
        return word

    def commands(self):
        """The commands behind the header, one by one."""
        while self.peek().kind != 'end':
            yield self.command()

    def command(self):
        line, word = self.peek().line, self.peek().text
        if word not in COMMANDS:
            self.wrong('BadCommand: %r is no command that is known here' % word)
        self.name()
        parts = [self.part(each) for each in COMMANDS[word].split()]
        self.expect(';')
        return Command(word, [each for each in parts if each is not None], line)

    def part(self, kind):
        """A part of a command, or None for a word or sign that stands for itself."""
        if kind[0] == "'":
            return self.expect(kind.strip("'"))
        return getattr(self, kind)()
