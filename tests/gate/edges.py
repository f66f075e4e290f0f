"""Rules at the edges that document 01 names in its text, and those that earlier mistakes taught; what document 01 says outright of
some of them stands beside them, for all else the model says what must be answered."""
import functools

import harness
import model
from program import Failed, expect, file_of
from trees import (BOT, TOP, balanced, before_existential, both, con, either, every, fun, iff_chain, implied, long_prefix, negated, numbered,
                   over_pairs, pred, renamed, repeated, same_truth, some, text, to_the_left, to_the_right, under_nots, var)

OUT = 65536


def listing_of(size, many, wide):
    """A rule whose clause listing has exactly so many bytes: clauses of two literals, a wide one that all share and one of their own."""
    clauses, name = 69, 'v' * 24
    shared = pred('P', *[name] * 31)
    of_shared = len(b'pos\n') + len(text(shared))
    spread = size - len('clauses\t%d\n' % clauses) - clauses * (len('clause\t2\npos\npred\t\t0\n') + of_shared)
    lengths = [spread // clauses + (number < spread % clauses) for number in range(clauses)]
    own = [pred('a' + str(number).zfill(length - 1)) for number, length in enumerate(lengths)]
    return wide(balanced(many, own), shared)


def taken_names(count):
    """R(x, x`, ..) beside an exists block over x, which must take one backtick more."""
    return both(pred('R', *['x' + '`' * ticks for ticks in range(count)]), some('x', pred('Q', 'x')))


def clause_edges(form, many, wide):
    """Edges of a clause form; `many` joins clauses, `wide` widens them."""
    none = TOP if form == 'cnf' else BOT
    equal = [pred('a')]
    return {
        '%s: 8 pairs' % form: over_pairs(wide, many, 8),
        '%s: 8 pairs and an atom' % form: many(over_pairs(wide, many, 8), pred('c')),
        '%s: 8 pairs or an atom' % form: wide(over_pairs(wide, many, 8), pred('c')),
        '%s: 9 pairs' % form: over_pairs(wide, many, 9),
        '%s: 256 equal atoms' % form: balanced(many, equal * 256),
        '%s: 257 equal atoms' % form: balanced(many, equal * 257),
        '%s: 2,048 literals' % form: wide(balanced(many, equal * 128), balanced(wide, equal * 15)),
        '%s: 2,049 literals' % form: many(wide(balanced(many, equal * 128), balanced(wide, equal * 15)), pred('a')),
        '%s: 64 pairs' % form: balanced(wide, [many(pred('a%d' % at), pred('b%d' % at)) for at in range(64)]),
        '%s: 64 pairs beside nothing' % form: wide(none, balanced(wide, [many(pred('a%d' % at), pred('b%d' % at)) for at in range(64)])),
        '%s: nothing behind 64 pairs' % form: wide(balanced(wide, [many(pred('a%d' % at), pred('b%d' % at)) for at in range(64)]), none),
        '%s: a listing of 65,536 bytes' % form: listing_of(OUT, many, wide),
        '%s: a listing of 65,537 bytes' % form: listing_of(OUT + 1, many, wide),
        '%s: P(A,A) beside P(x)' % form: wide(pred('P', 'x'), pred('P', 'A', 'A')),
        '%s: x` beside x0 and x' % form: wide(pred('P', 'x`'), wide(pred('P', 'x0'), pred('P', 'x'))),
        '%s: every kind of term and sign' % form: balanced(wide, [
            negated(pred('P', 'x')), ('eq', var('x'), con('c')), pred('P', fun('f', var('x'))), pred('P', con('x')), pred('P', 'x'), pred('P'),
            negated(('eq', con('c'), var('x'))), pred('P', 'x', 'x'), pred('O', 'x'), pred('P', fun('f')), pred('P', 'x')]),
        '%s: clauses that are prefixes' % form: balanced(many, [wide(pred('a'), pred('b')), pred('a'), wide(pred('b'), pred('a')), pred('b')]),
    }


def edges():
    """Every edge by its name."""
    names = numbered('x', 12)
    found = {
        'two variables of a block renamed': implied(pred('Q', 'x', 'y'), some('x y', pred('P', 'x', 'y'))),
        'four of six variables renamed': both(pred('Q', 'a', 'c', 'd', 'f'), every('a b c d e f', pred('P', *'fedcba'))),
        'renamed on both sides': both(some('x', both(pred('P', 'x'), pred('Q', 'y'))), some('y', both(pred('P', 'y'), pred('Q', 'x')))),
        'iff of quantified sides': same_truth(every('x', pred('P', 'x')), some('y', pred('Q', 'y'))),
        'iff of sides over one name': same_truth(every('x', pred('P', 'x')), some('x', pred('Q', 'x'))),
        'iff of iffs, quantified': same_truth(same_truth(every('x', pred('P', 'x')), some('x', pred('Q', 'x'))), every('x', pred('R', 'x'))),
        'negated iff of quantified sides': negated(same_truth(every('x', some('y', pred('P', 'x', 'y'))), some('x', pred('Q', 'x', 'y')))),
        '320 exists blocks': long_prefix(10),
        '204 exists blocks of one name': balanced(both, [some('x', pred('P', 'x'))] * 204),
        '204 forall blocks beside a free name': both(balanced(both, [every('x', pred('P', 'x'))] * 200), pred('Q', 'x')),
        '180 blocks, a premise of a premise': implied(implied(long_prefix(3, every), long_prefix(2)), long_prefix(1, every, 20)),
        '63 forall blocks in a rule': repeated(62, lambda part: every('x', part), pred('P', 'x')),
        '62 blocks in turn': repeated(31, lambda part: every('x', some('y', part)), pred('P', 'x', 'y')),
        '22 backticks taken': taken_names(23),
        '23 backticks taken': taken_names(24),
        '23-byte variable': renamed('v' * 23),
        '24-byte variable': renamed('v' * 24),
        '24-byte variable not renamed': both(pred('Q', 'x'), some('v' * 24, pred('P', 'v' * 24))),
        '32 universals': before_existential(32),
        '33 universals': before_existential(33),
        '33 universals, the function not used': every(' '.join(numbered('x', 32)), every('z', some('y', pred('P', 'x0', 'z')))),
        'all x x': every('x x', pred('P', 'x')),
        'all x x before ex y': every('x x', some('y', pred('P', 'x', 'y'))),
        'ex x x': some('x x', pred('P', 'x')),
        'exists rebinds a universal': every('x', some('x', pred('P', 'x'))),
        'exists rebinds one of two universals': every('x y', some('x z', pred('P', 'x', 'y', 'z'))),
        'a later forall rebinds a universal': every('x', some('y', every('x', pred('P', 'x', 'y')))),
        'a free variable before ex': some('y', both(pred('Q', 'b', 'a'), pred('P', 'y'))),
        '12 constants': some(' '.join(names), balanced(both, [pred('P', name) for name in names])),
        '12 constants in one clause': some(' '.join(names), balanced(either, [pred('P', name) for name in names])),
        '12 functions': every('z', some(' '.join(names), balanced(either, [pred('P', name, 'z') for name in names]))),
        'a vacuous block': every('x', some('y', pred('P', 'x'))),
        'constants inside': implied(both(TOP, pred('P')), either(BOT, same_truth(pred('Q'), BOT))),
        'double negation': negated(negated(implied(negated(negated(pred('P'))), BOT))),
        '#, a constant': pred('P', con('c#0')),
        '#, that simplify removes': both(BOT, pred('P', con('c#0'))),
        '#, not prenex': negated(some('x', pred('P', con('c#0')))),
        'not prenex': both(TOP, some('x', pred('P', 'x'))),
        'not Skolem': some('x', pred('P', 'x')),
        '63 nots': under_nots(63),
        '64 nots': under_nots(64),
        'term of depth 64': pred('P', repeated(62, lambda term: fun('f', term), var('x'))),
        'term of depth 65': pred('P', repeated(63, lambda term: fun('f', term), var('x'))),
        'ands to the right': to_the_right(both, [pred('P', 'x')] * 63),
        'ands to the left': to_the_left(both, [pred('P', 'x')] * 63),
        'implications to the left': to_the_left(implied, [pred('P')] * 64),
        'weight 1,024': negated(balanced(both, [pred('P')] * 512)),
        'weight 1,025': negated(negated(balanced(both, [pred('P')] * 512))),
        'top': TOP,
        'bottom': BOT,
    }
    found.update(('iff chain of %d' % atoms, iff_chain(atoms)) for atoms in (2, 7, 8, 9, 10, 60))
    found.update(clause_edges('cnf', both, either))
    found.update(clause_edges('dnf', either, both))
    return found


def refused(number, place):
    return b'refused\t%d\t%d\n' % (number, place)


# What document 01 says outright: an edge, the conversions, the refusal.
STATED = [
    ('22 backticks taken', ('pnf',), None), ('23 backticks taken', ('pnf', 'snf', 'cnf', 'dnf'), refused(6, 2)),
    ('33 universals, the function not used', ('snf', 'pnf-snf'), None),
    ('#, that simplify removes', ('snf', 'cnf', 'dnf', 'pnf-snf'), refused(5, 0)), ('#, not prenex', ('pnf-snf',), refused(4, 0)),
    ('not prenex', ('pnf-snf', 'snf-cnf', 'snf-dnf'), refused(4, 0)), ('not Skolem', ('snf-cnf', 'snf-dnf'), refused(4, 0)),
    ('term of depth 64', model.CONVERSIONS, None), ('term of depth 65', model.CONVERSIONS, refused(3, 65)),
    ('weight 1,024', ('simplify', 'pnf', 'snf'), None), ('weight 1,025', model.CONVERSIONS, refused(3, 1025)),
    ('320 exists blocks', ('pnf', 'snf'), None),
]
for form in ('cnf', 'dnf'):
    conversions = (form, 'snf-' + form)
    STATED += [('%s: %s' % (form, edge), conversions, None)
               for edge in ('8 pairs', '256 equal atoms', '2,048 literals', '64 pairs beside nothing', 'nothing behind 64 pairs',
                            'a listing of 65,536 bytes')]
    STATED += [('%s: %s' % (form, edge), conversions, refused(8, 5))
               for edge in ('8 pairs and an atom', '9 pairs', '257 equal atoms', '2,049 literals', '64 pairs')]
    STATED += [('%s: a listing of 65,537 bytes' % form, conversions, refused(1, 0))]


@functools.cache
def edge_file(conversion):
    """All edges in one file, numbered in their order, and the model's answers."""
    given = file_of(conversion, [('e%d' % number, text(tree)) for number, tree in enumerate(edges().values())])
    return given, model.output(given)


def stated(conversion):
    """The model's answers agree with what document 01 says outright, so that each edge is the edge it is meant to be."""
    answers = dict(zip(edges(), map(harness.answer_of, harness.taken_apart(edge_file(conversion)[1])[1])))
    for name, conversions, answer in STATED:
        got = answers[name]
        if conversion in conversions and (got.startswith(b'refused') if answer is None else got != answer):
            raise Failed('%s, %s: the model answers %r' % (name, conversion, got[:60]))
    for form in ('cnf', 'dnf'):
        if conversion.endswith(form) and len(answers['%s: a listing of 65,536 bytes' % form]) != OUT:
            raise Failed('the listing of 65,536 bytes has %d' % len(answers['%s: a listing of 65,536 bytes' % form]))


def order():
    """c#10 stands before c#2, P(A,A) before P(x), x before x0 before x`: by hand."""
    names = numbered('x', 12)
    constants = ['c#%d' % number for number in (0, 1, 10, 11, 2, 3, 4, 5, 6, 7, 8, 9)]
    rules = [('constants', text(some(' '.join(names), balanced(either, [pred('P', name) for name in names])))),
             ('shorter', text(either(pred('P', 'x'), pred('P', 'A', 'A')))),
             ('backtick', text(either(pred('P', 'x`'), either(pred('P', 'x0'), pred('P', 'x')))))]
    listed = [[pred('P', con(name)) for name in constants], [pred('P', 'A', 'A'), pred('P', 'x')],
              [pred('P', 'x'), pred('P', 'x0'), pred('P', 'x`')]]
    expected = b'done\tcnf\n'
    for (name, _), atoms in zip(rules, listed):
        expected += b'rule\t%s\nclauses\t1\nclause\t%d\n' % (name.encode(), len(atoms)) + b''.join(b'pos\n' + text(atom) for atom in atoms)
    expect(file_of('cnf', rules), expected)


def tests():
    for conversion in model.CONVERSIONS:
        yield 'edges, as document 01 states them, in the model: %s' % conversion, lambda conversion=conversion: stated(conversion)
        yield '%d edges: %s' % (len(edges()), conversion), lambda conversion=conversion: expect(*edge_file(conversion))
    yield 'order of names and of literals, by hand: cnf', order
