"""Document 01's whole case and its pairs at the edges. The answers are written here by hand, as the document has them."""
import model
from program import Failed, expect, file_of, run
from trees import (BOT, TOP, before_existential, both, con, either, every, fun, iff_chain, implied, negated, over_pairs, pred, renamed,
                   same_truth, some, text, under_nots)

WHOLE_CASE = (b'do\tcnf\nrule\tr1\nex\ty\npred\tP\t2\nvar\tx\nvar\ty\n',
              b'done\tcnf\nrule\tr1\nclauses\t1\nclause\t1\npos\npred\tP\t2\nvar\tx\nfun\tf#0\t1\nvar\tx\n')

CLAUSES = ('cnf', 'dnf', 'snf-cnf', 'snf-dnf')
PRENEX = ('pnf', 'snf', 'cnf', 'dnf')


def listing(*clauses):
    """A clause listing; a literal is an atom or the negation of one."""
    out = b'clauses\t%d\n' % len(clauses)
    for clause in clauses:
        out += b'clause\t%d\n' % len(clause)
        for literal in clause:
            out += b'neg\n' + text(literal[1]) if literal[0] == 'not' else b'pos\n' + text(literal)
    return out


def refused(number, place):
    return b'refused\t%d\t%d\n' % (number, place)


P_IFF_Q = same_truth(pred('P', 'x'), pred('Q', 'y'))
REBOUND = every('x', some('y', every('x', pred('P', 'x', 'y'))))
TWO = some('z y', pred('R', 'y', 'z'))
TWICE = some('x x', pred('P', 'x'))
NONE, EMPTY = listing(), listing([])

# What it is, the conversion, the rule, the answer.
PAIRS = [
    ('two variables renamed', 'pnf', implied(pred('Q', 'x', 'y'), some('x y', pred('P', 'x', 'y'))),
     text(some('x` y`', implied(pred('Q', 'x', 'y'), pred('P', 'x`', 'y`'))))),
    ('a name taken already', 'pnf', both(pred('R', 'x', 'x`'), some('x', pred('Q', 'x'))),
     text(some('x``', both(pred('R', 'x', 'x`'), pred('Q', 'x``'))))),
    ('forall beside exists', 'snf', both(every('x', pred('P', 'x')), some('x', pred('Q', 'x'))),
     text(every('x', both(pred('P', 'x'), pred('Q', fun('f#0', ('var', 'x'))))))),
    ('negated iff', 'nnf', negated(P_IFF_Q),
     text(either(both(pred('P', 'x'), negated(pred('Q', 'y'))), both(negated(pred('P', 'x')), pred('Q', 'y'))))),
    ('iff', 'cnf', P_IFF_Q, listing([pred('P', 'x'), negated(pred('Q', 'y'))], [pred('Q', 'y'), negated(pred('P', 'x'))])),
    ('rebound universal', 'pnf-snf', REBOUND, text(every('x', every('x', pred('P', 'x', con('c#0')))))),
    ('rebound universal', 'snf', REBOUND, text(every('x', pred('P', 'x', con('c#0'))))),
    ('two existentials', 'pnf-snf', TWO, text(pred('R', con('c#1'), con('c#0')))),
    ('two existentials', 'snf', TWO, text(pred('R', con('c#0'), con('c#1')))),
    ('twice in a block', 'pnf-snf', TWICE, text(pred('P', con('c#1')))),
    ('twice in a block', 'snf', TWICE, text(pred('P', con('c#0')))),
    ('9 atoms in an iff chain', 'nnf', iff_chain(9), refused(7, 4)),
]
PAIRS += [('top', form, TOP, NONE if form.endswith('cnf') else EMPTY) for form in CLAUSES]
PAIRS += [('bottom', form, BOT, EMPTY if form.endswith('cnf') else NONE) for form in CLAUSES]
PAIRS += [('64 nots', form, under_nots(64), refused(3, 65)) for form in model.CONVERSIONS]
PAIRS += [('33 universals', form, before_existential(33), refused(7, 3)) for form in ('snf', 'pnf-snf', 'cnf', 'dnf')]
PAIRS += [('24-byte variable renamed', form, renamed('v' * 24), refused(6, 2)) for form in PRENEX]
for form, wide, many in (('cnf', either, both), ('dnf', both, either)):
    for conversion in (form, 'snf-' + form):
        PAIRS += [('8 pairs and an atom', conversion, many(over_pairs(wide, many, 8), pred('c')), refused(8, 5)),
                  ('9 pairs', conversion, over_pairs(wide, many, 9), refused(8, 5))]

# What it is, the conversion, a rule that is accepted, and what its answer counts: a word that begins lines, and how many there are.
COUNTED = [
    ('63 nots', 'simplify', under_nots(63), b'not', 1),
    ('63 nots', 'nnf', under_nots(63), b'not', 1),
    ('8 atoms in an iff chain', 'nnf', iff_chain(8), b'', 954),
    ('32 universals', 'snf', before_existential(32), b'fun\tf#0\t32', 1),
    ('32 universals', 'pnf-snf', before_existential(32), b'fun\tf#0\t32', 1),
    ('23-byte variable renamed', 'pnf', renamed('v' * 23), b'var\t' + b'v' * 23 + b'`', 1),
]
for form, wide, many in (('cnf', either, both), ('dnf', both, either)):
    for conversion in (form, 'snf-' + form):
        COUNTED += [('8 pairs', conversion, over_pairs(wide, many, 8), b'clause\t8', 256),
                    ('8 pairs', conversion, over_pairs(wide, many, 8), b'pos', 2048)]


def answered(conversion, rule, answer):
    expect(file_of(conversion, [('r', text(rule))]), b'done\t%s\nrule\tr\n%s' % (conversion.encode(), answer))


def counted(conversion, rule, word, count):
    got = run(file_of(conversion, [('r', text(rule))]))
    lines = got.split(b'\n')[2:-1]
    found = sum(line.startswith(word) for line in lines)
    if found != count:
        raise Failed('expected %d lines that begin with %r, got %d; the answer begins with %r' % (count, word, found, lines[:3]))


def tests():
    yield 'document 01: the whole case', lambda: expect(*WHOLE_CASE)
    for name, conversion, rule, answer in PAIRS:
        yield 'document 01: %s, %s' % (name, conversion), \
            lambda conversion=conversion, rule=rule, answer=answer: answered(conversion, rule, answer)
    for name, conversion, rule, word, count in COUNTED:
        yield 'document 01: %s, %s, %d times %r' % (name, conversion, count, word.decode()), \
            lambda conversion=conversion, rule=rule, word=word, count=count: counted(conversion, rule, word, count)
