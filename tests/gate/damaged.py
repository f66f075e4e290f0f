"""Damaged rule texts and damaged files, from a fixed seed. The model says what each must be answered."""
import random

import harness
import replay
from program import expect_model

RULES = 4000
FILES = 400
SHORT = 700
BYTES = b'\t\n`# 019azAZ_\r\0\x80\xffrtPx'
# Among them each way to be malformed or too large, at its line.
LINES = [b'top', b'bot', b'not', b'and', b'eq', b'', b'all\tx', b'ex\ty\ty`', b'all', b'ex\t', b'pred\tP\t0', b'pred\tP\t33', b'pred\tP\t01',
         b'pred\tP#\t0', b'var\tx', b'var\tx`y', b'var\tx#', b'con\tc#1', b'con\t#', b'fun\tf\t1', b'fun\tf#\t0', b'fun\tf\t', b'do\tnnf', b'rule',
         b'rules\ta', b'all\t' + b'\t'.join([b'x'] * 32), b'all\t' + b'\t'.join([b'x'] * 33), b'pred\t' + b'P' * 25 + b'\t0',
         b'var\t' + b'v' * 24, b'var\t' + b'v' * 24 + b'`', b'pred\t' + b'P' * 1019, b'pred\t' + b'P' * 1020, b'\n'.join([b'not'] * 64),
         b'\n'.join([b'all\t' + b'\t'.join([b'x'] * 32)] * 31)]


def lines_edited(text, chance):
    lines = text.split(b'\n')
    at = chance.randrange(len(lines))
    kind = chance.randrange(5)
    if kind == 0:
        del lines[at]
    elif kind == 1:
        lines.insert(at, chance.choice(lines))
    elif kind == 2:
        lines.insert(at, chance.choice(LINES))
    elif kind == 3:
        lines[at] = chance.choice(LINES)
    else:
        other = chance.randrange(len(lines))
        lines[at], lines[other] = lines[other], lines[at]
    return b'\n'.join(lines)


def bytes_edited(text, chance):
    at = chance.randrange(len(text) + 1)
    kind = chance.randrange(4)
    byte = bytes([chance.choice(BYTES)])
    if kind == 0:
        return text[:at] + byte + text[at + 1:]
    if kind == 1:
        return text[:at] + byte + text[at:]
    return text[:at] + text[at + 1:] if kind == 2 else text[:at]


def edited(text, chance):
    for _ in range(chance.choice((1, 1, 1, 2, 3))):
        text = chance.choice((lines_edited, bytes_edited))(text, chance)
    return text


def good_rules(conversion):
    _, rules = harness.taken_apart(replay.recorded(conversion)[0])
    return [rule for rule in rules if len(rule) <= SHORT]


def damaged_rules(conversion, seed):
    """Rules with damage in label or tree, in one file, whose last line may want its LF."""
    chance = random.Random('%s %d' % (conversion, seed))
    rules = good_rules(conversion)
    made = []
    for _ in range(RULES):
        rule = chance.choice(rules)
        start = 0 if chance.random() < 0.1 else rule.index(b'\n') + 1
        rule = rule[:start] + edited(rule[start:], chance)
        made.append(rule if rule.endswith(b'\n') else rule + b'\n')
    # A first rule that stands, so that the file does, whatever its neighbours have become.
    return b'do\t%s\nrule\tfirst\ntop\n' % conversion.encode() + b''.join(made)


def damaged_files(conversion, seed):
    """Short files with damage anywhere, the first line too."""
    chance = random.Random('%s %d files' % (conversion, seed))
    rules = good_rules(conversion)
    for _ in range(FILES):
        given = b'do\t%s\n' % conversion.encode() + b''.join(chance.sample(rules, chance.randrange(4)))
        if chance.random() < 0.2:
            first = chance.randrange(12)
            given = bytes_edited(given[:first], chance) + given[first:]
        yield edited(given, chance)


def all_files(conversion, seed):
    for given in damaged_files(conversion, seed):
        expect_model(given)


def tests(seed=2026):
    for conversion in harness.CONVERSIONS:
        yield '%d damaged rules, seed %d: %s' % (RULES, seed, conversion), \
            lambda conversion=conversion: expect_model(damaged_rules(conversion, seed))
        yield '%d damaged files, seed %d: %s' % (FILES, seed, conversion), lambda conversion=conversion: all_files(conversion, seed)


def from_seeds(first, count):
    """The same from so many seeds."""
    for seed in range(first, first + count):
        yield from tests(seed)
