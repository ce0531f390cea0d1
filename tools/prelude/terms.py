"""Types and terms.

A term keeps no names of bound variables: `Bound(n)` belongs to the n-th binder around it, counted
from 0 and from the inside. Each node is made once for each value of its parts, so alpha-equal terms
are one object, and `is` tells equality.
"""

from functools import cache


class Node:
    """A type or a term, made once for each class and each value of the parts."""
    __slots__ = ()
    made = {}

    def __new__(cls, *parts):
        key = (cls, *parts)
        node = Node.made.get(key)
        if node is None:
            node = Node.made[key] = object.__new__(cls)
            for field, part in zip(cls.__slots__, parts):
                setattr(node, field, part)
        return node


# ---------------------------------------------------------------- types

class TypeVariable(Node):
    """The name is without its quote."""
    __slots__ = __match_args__ = ('name',)


class TypeConstructor(Node):
    """A constructor with a tuple of arguments."""
    __slots__ = __match_args__ = ('name', 'arguments')


BOOL = TypeConstructor('bool', ())


def function_type(*types):
    """function_type(a, b, c) is a -> b -> c."""
    *arguments, type_ = types
    for argument in reversed(arguments):
        type_ = TypeConstructor('fun', (argument, type_))
    return type_


def relation_type(left, right):
    return function_type(left, right, BOOL)


def is_function_type(type_):
    return isinstance(type_, TypeConstructor) and type_.name == 'fun'


@cache
def type_variables(type_):
    """The names of the type variables, in order of first appearance from the left."""
    match type_:
        case TypeVariable(name):
            return (name,)
        case TypeConstructor(_, arguments):
            return without_repeats(name for each in arguments for name in type_variables(each))


def without_repeats(values):
    return tuple(dict.fromkeys(values))


def instantiate_type(type_, types):
    """Each type variable replaced by the type that the dictionary has for its name, all at once."""
    match type_:
        case TypeVariable(name):
            return types.get(name, type_)
        case TypeConstructor(name, arguments):
            return TypeConstructor(name, tuple(instantiate_type(each, types) for each in arguments))


def match_type(pattern, type_, types):
    """Whether the pattern's variables have an instance that makes it `type_`.

    The dictionary gets their types, and has those that are settled already.
    """
    match pattern, type_:
        case TypeVariable(name), _:
            return types.setdefault(name, type_) is type_
        case TypeConstructor(name, arguments), TypeConstructor(other, others):
            return (name == other and len(arguments) == len(others)
                    and all(match_type(*pair, types) for pair in zip(arguments, others)))
    return False


# ---------------------------------------------------------------- terms

class Free(Node):
    """A free variable; the same name at two types is two variables."""
    __slots__ = __match_args__ = ('name', 'type')


class Bound(Node):
    __slots__ = __match_args__ = ('index',)


class Constant(Node):
    """A constant at a tuple of type arguments."""
    __slots__ = __match_args__ = ('name', 'types')


class Application(Node):
    __slots__ = __match_args__ = ('head', 'argument')


class Abstraction(Node):
    """The type of the bound variable, and the body."""
    __slots__ = __match_args__ = ('type', 'body')


def constant(name, *types):
    return Constant(name, types)


def apply(head, *arguments):
    for argument in arguments:
        head = Application(head, argument)
    return head


def head_and_arguments(term):
    """The head of nested applications, and the list of their arguments."""
    arguments = []
    while isinstance(term, Application):
        arguments.append(term.argument)
        term = term.head
    return term, arguments[::-1]


def map_leaves(term, change, depth=0):
    """change(leaf, depth) for each variable and constant; `depth` counts the binders around it."""
    match term:
        case Application(head, argument):
            return Application(map_leaves(head, change, depth), map_leaves(argument, change, depth))
        case Abstraction(type_, body):
            return Abstraction(type_, map_leaves(body, change, depth + 1))
    return change(term, depth)


def any_leaf(term, test, depth=0):
    """Whether test(leaf, depth) holds of some variable or constant."""
    match term:
        case Application(head, argument):
            return any_leaf(head, test, depth) or any_leaf(argument, test, depth)
        case Abstraction(_, body):
            return any_leaf(body, test, depth + 1)
    return test(term, depth)


def is_loose(leaf, depth):
    """Whether a leaf below `depth` binders is bound further out."""
    return isinstance(leaf, Bound) and leaf.index >= depth


def lift(term, by):
    """The term behind `by` further binders."""
    def change(leaf, depth):
        return Bound(leaf.index + by) if is_loose(leaf, depth) else leaf
    return map_leaves(term, change) if by else term


def open_body(body, term):
    """The body of an abstraction with the term for its bound variable."""
    def change(leaf, depth):
        if not is_loose(leaf, depth):
            return leaf
        return lift(term, depth) if leaf.index == depth else Bound(leaf.index - 1)
    return map_leaves(body, change)


def abstract(variable, term):
    """The abstraction of the term over a free variable."""
    def change(leaf, depth):
        return Bound(depth) if leaf is variable else leaf
    return Abstraction(variable.type, map_leaves(lift(term, 1), change))


def replace(term, variable, by):
    """The term with `by` for the free variable."""
    return map_leaves(term, lambda leaf, depth: lift(by, depth) if leaf is variable else leaf)


def has_variable(term, variable):
    return any_leaf(term, lambda leaf, _: leaf is variable)


def has_free_variable(term):
    return any_leaf(term, lambda leaf, _: isinstance(leaf, Free))


def uses_bound(body):
    """Whether the body of an abstraction has its bound variable."""
    return any_leaf(body, lambda leaf, depth: leaf is Bound(depth))


def is_eta_redex(term):
    r"""Whether the term is \x. f x, where f doesn't have x."""
    match term:
        case Abstraction(_, Application(head, Bound(0))):
            return not uses_bound(head)
    return False


@cache
def term_type_variables(term):
    """The names of the type variables of a term, in order of first appearance."""
    match term:
        case Free(_, type_):
            return type_variables(type_)
        case Constant(_, types):
            names = [type_variables(each) for each in types]
        case Application(head, argument):
            names = [term_type_variables(head), term_type_variables(argument)]
        case Abstraction(type_, body):
            names = [type_variables(type_), term_type_variables(body)]
        case _:
            return ()
    return without_repeats(name for each in names for name in each)


def instantiate(term, types):
    """As instantiate_type, throughout a term."""
    match term:
        case Free(name, type_):
            return Free(name, instantiate_type(type_, types))
        case Constant(name, arguments):
            return Constant(name, tuple(instantiate_type(each, types) for each in arguments))
        case Application(head, argument):
            return Application(instantiate(head, types), instantiate(argument, types))
        case Abstraction(type_, body):
            return Abstraction(instantiate_type(type_, types), instantiate(body, types))
    return term


# ---------------------------------------------------------------- the forms that rules speak of

def equation(type_, left, right):
    return apply(constant('eq', type_), left, right)


def implication(premise, conclusion):
    return apply(constant('imp'), premise, conclusion)


def universal(variable, statement):
    """all x. p, from the free variable x and p."""
    return Application(constant('all', variable.type), abstract(variable, statement))


def equation_parts(term):
    """The type and the two sides, or None."""
    match term:
        case Application(Application(Constant('eq', (type_,)), left), right):
            return type_, left, right


def implication_parts(term):
    """The premise and the conclusion, or None."""
    match term:
        case Application(Application(Constant('imp', ()), premise), conclusion):
            return premise, conclusion


def universal_parts(term):
    """The type and the predicate, or None."""
    match term:
        case Application(Constant('all', (type_,)), predicate):
            return type_, predicate
