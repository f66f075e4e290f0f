"""Rules by their shapes, as trees of tests/model.py: the small makers, and those rules that several tests use."""
import functools

import model

TOP, BOT = model.TOP, model.BOT


def var(name):
    return ('var', name)


def con(name):
    return ('con', name)


def fun(name, *terms):
    return ('fun', name, terms)


def pred(name, *terms):
    """A predicate; a string stands for the variable of that name."""
    return ('pred', name, tuple(var(term) if isinstance(term, str) else term for term in terms))


def negated(part):
    return ('not', part)


def both(left, right):
    return ('and', left, right)


def either(left, right):
    return ('or', left, right)


def implied(left, right):
    return ('imp', left, right)


def same_truth(left, right):
    return ('iff', left, right)


def every(names, body):
    """A forall block; its names stand in one string, parted by blanks."""
    return ('all', tuple(names.split()), body)


def some(names, body):
    return ('ex', tuple(names.split()), body)


def text(tree):
    out = []
    model.written(tree, out)
    return ''.join(line + '\n' for line in out).encode()


def numbered(stem, count):
    return ['%s%d' % (stem, number) for number in range(count)]


def to_the_right(join, parts):
    return functools.reduce(lambda rest, part: join(part, rest), reversed(parts))


def to_the_left(join, parts):
    return functools.reduce(join, parts)


def balanced(join, parts):
    if len(parts) == 1:
        return parts[0]
    half = len(parts) // 2
    return join(balanced(join, parts[:half]), balanced(join, parts[half:]))


def repeated(count, around, inner):
    for _ in range(count):
        inner = around(inner)
    return inner


def under_nots(count):
    return repeated(count, negated, pred('P'))


def iff_chain(atoms):
    """A0 iff (A1 iff ...)."""
    return to_the_right(same_truth, [pred(name) for name in numbered('A', atoms)])


def over_pairs(outer, inner, count):
    pairs = [inner(pred('a%d' % number), pred('b%d' % number)) for number in range(count)]
    return to_the_right(outer, pairs)


def before_existential(count):
    """Forall over so many variables, all used, before an existential; a block holds 32 at most."""
    names = numbered('x', count)
    used = to_the_right(both, [pred('P', *names[:32]), pred('Q', 'y')] + ([pred('R', *names[32:])] if names[32:] else []))
    body = some('y', used)
    if names[32:]:
        body = every(' '.join(names[32:]), body)
    return every(' '.join(names[:32]), body)


def renamed(name):
    """Q(v) implies (ex v P(v)), where v must take a backtick."""
    return implied(pred('Q', name), some(name, pred('P', name)))


def long_prefix(groups, block=some, width=32):
    """So many groups side by side, each a block for every argument of its atom."""
    names = numbered('x', width)
    group = pred('P', *names)
    for name in reversed(names):
        group = block(name, group)
    return balanced(both, [group] * groups)
