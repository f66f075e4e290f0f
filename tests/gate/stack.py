"""The worst legal rules under a small stack; and how small it may be."""
import harness
import model
from program import Failed, expect, file_of
from trees import (balanced, both, either, every, fun, iff_chain, implied, long_prefix, negated, numbered, over_pairs, pred, repeated,
                   same_truth, some, text, to_the_left, to_the_right, under_nots, var)

# KiB. A process has 8,192 by default.
STACK = 1024


def worst_rules():
    """Rules of the greatest depth in each kind of node, and of the greatest weight."""
    deep_term = repeated(62, lambda term: fun('f', term), var('x'))
    wide_block = ' '.join(numbered('x', 32))
    wide_atom = pred('P', *numbered('x', 32))
    rules = {
        'nots': under_nots(63),
        'terms': pred('P', deep_term),
        'wide_terms': balanced(both, [pred('P', repeated(50, lambda term: fun('f', term), var('x')))] * 16),
        'forall_blocks': repeated(62, lambda part: every('x', part), pred('P', 'x')),
        'exists_blocks': repeated(62, lambda part: some('x', part), pred('P', 'x')),
        'blocks_in_turn': repeated(31, lambda part: every('x', some('y', part)), pred('P', 'x', 'y')),
        'wide_blocks': repeated(29, lambda part: every(wide_block, part), wide_atom),
        'negated_blocks': repeated(31, lambda part: negated(some('x', part)), pred('P', 'x')),
        'weight': negated(balanced(both, [pred('P')] * 512)),
        'weight_of_arguments': balanced(both, [wide_atom] * 30),
        'iff_chain_8': iff_chain(8),
        'iff_chain_60': iff_chain(60),
        'quantified_iffs': to_the_right(same_truth, [some('x', pred('P', 'x')), every('y', pred('Q', 'y')), some('z', pred('R', 'z')),
                                                     pred('S', 'x')]),
        'exists_prefix': long_prefix(10),
        'forall_prefix': long_prefix(10, every),
        'renamed_prefix': both(balanced(both, [every('x', pred('P', 'x'))] * 200), pred('Q', 'x')),
        'pairs_conjunctive': over_pairs(either, both, 8),
        'pairs_disjunctive': over_pairs(both, either, 8),
        'atoms_256': balanced(both, [pred('a%d' % number) for number in range(256)]),
    }
    for name, join in (('and', both), ('or', either), ('imp', implied), ('iff', same_truth)):
        rules[name + '_right'] = to_the_right(join, [pred('P', 'x')] * 62)
        rules[name + '_left'] = to_the_left(join, [pred('P', 'x')] * 62)
    return {name: text(tree) for name, tree in rules.items()}


def worst_file(conversion):
    given = file_of(conversion, worst_rules().items())
    expected = model.output(given)
    if any(answer.split(b'\t')[1] in (b'2', b'3') for answer in map(harness.answer_of, harness.taken_apart(expected)[1])
           if answer.startswith(b'refused')):
        raise Failed('one of the worst rules is no legal rule')
    return given, expected


def small_stack(conversion):
    expect(*worst_file(conversion), stack=STACK)


def tests():
    for conversion in model.CONVERSIONS:
        yield 'a stack of %d KiB, the %d worst rules: %s' % (STACK, len(worst_rules()), conversion), \
            lambda conversion=conversion: small_stack(conversion)


def is_enough(given, expected, stack):
    try:
        expect(given, expected, stack)
    except Failed:
        return False
    return True


def least_stacks():
    """Prints the least stack, in KiB, under which a conversion answers its worst rules."""
    for conversion in model.CONVERSIONS:
        given, expected = worst_file(conversion)
        too_small, enough = 0, 65536
        while enough - too_small > 4:
            middle = (too_small + enough) // 2
            if is_enough(given, expected, middle):
                enough = middle
            else:
                too_small = middle
        print('%-9s %6d KiB' % (conversion, enough))
