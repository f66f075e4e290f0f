"""The file program on whole inputs: empty ones, ones without a last LF, ones with enormous lines, and ones that come in odd pieces."""
import os
import random
import socket

import damaged
import harness
import model
import replay
from program import FILE_REFUSED, expect, run_fed, same

ENORMOUS = 10_000_000
PIECES = (1, 7, 4096, 65536)

GOOD = b'rule\tbehind\nnot\nbot\n'


X = b'x' * ENORMOUS

# Where a line, or a tree, of 10 MB stands, and what is answered in place of all up to there. A good rule follows, or has gone before.
ENORMOUS_INPUTS = {
    'first line': lambda do, good: (do[:-1] + X + b'\n' + good, None),
    'second line': lambda do, good: (do + X + b'\n' + good, None),
    'label': lambda do, good: (do + b'rule\t' + X + b'\ntop\n' + good, b'rule\t?\nrefused\t2\t0\n'),
    'line of a tree': lambda do, good: (do + b'rule\ta\nnot\npred\t' + X + b'\t0\n' + good, b'rule\ta\nrefused\t2\t2\n'),
    'lines after a tree': lambda do, good: (do + b'rule\ta\ntop\n' + b'top\n' * (ENORMOUS // 4) + good, b'rule\ta\nrefused\t2\t2\n'),
    'too deep by far': lambda do, good: (do + b'rule\ta\n' + b'not\n' * (ENORMOUS // 4) + good, b'rule\ta\nrefused\t3\t65\n'),
}


def enormous(conversion, make, good_answer):
    given, answer = make(b'do\t%s\n' % conversion.encode(), GOOD)
    behind = b'rule\tbehind\n' + good_answer
    expect(given, FILE_REFUSED if answer is None else b'done\t%s\n' % conversion.encode() + answer + behind)


def enormous_end(conversion, good_answer):
    """A last line of 10 MB without LF."""
    do, done = b'do\t%s\n' % conversion.encode(), b'done\t%s\n' % conversion.encode()
    expect(do + GOOD + b'rule\ta\n' + X, done + b'rule\tbehind\n' + good_answer + b'rule\ta\nrefused\t2\t1\n')


def by_pipe(given, size):
    """Through a pipe, in pieces of this many bytes; the program may find several together."""
    theirs, ours = os.pipe()

    def feed():
        with open(ours, 'wb', buffering=0) as end:
            for at in range(0, len(given), size):
                end.write(given[at:at + size])
    return run_fed(open(theirs, 'rb', buffering=0), feed)


def by_packets(given, sizes):
    """Through a socket that keeps packets apart, so that each read gives exactly the next piece."""
    ours, theirs = socket.socketpair(socket.AF_UNIX, socket.SOCK_SEQPACKET)

    def feed():
        with ours:
            at = 0
            while at < len(given):
                size = next(sizes)
                ours.sendall(given[at:at + size])
                at += size
    return run_fed(theirs, feed)


def forever(choose):
    while True:
        yield choose()


def pieces(conversion):
    """Recorded rules with their recorded answers; a few hundred KB, so that pieces end in the middle of everything."""
    given, expected = replay.recorded(conversion)
    for size in PIECES:
        same(given, expected, by_pipe(given, size))
        same(given, expected, by_packets(given, forever(lambda: size)))
    for seed in range(20):
        chance = random.Random(seed)
        same(given, expected, by_packets(given, forever(lambda: chance.choice((1, 2, 3, 5, 100, 1023, 1025, 30000, 65536)))))


def damaged_pieces(conversion):
    """Damaged rules, cut anywhere."""
    given = damaged.damaged_rules(conversion, 7)
    expected = model.output(given)
    for seed in range(3):
        chance = random.Random(seed)
        same(given, expected, by_packets(given, forever(lambda: chance.randrange(1, 2000))))


def every_cut(conversion):
    """A short file ended after each of its bytes, and cut in two there."""
    given = b'do\t%s\nrule\ta\nex\ty\npred\tP\t1\nvar\ty\nrule\t1\ntop\nrule\tb\ntop\nnot' % conversion.encode()
    expected = model.output(given)
    for at in range(len(given) + 1):
        expect(given[:at], model.output(given[:at]))
        sizes = iter((at or 1, len(given)))
        same(given, expected, by_packets(given, sizes))


def tests():
    yield 'empty input', lambda: expect(b'', FILE_REFUSED)
    yield 'a lone LF', lambda: expect(b'\n', FILE_REFUSED)
    for conversion, answer in (('simplify', b'top\n'), ('nnf', b'top\n'), ('cnf', b'clauses\t0\n')):
        for name, make in ENORMOUS_INPUTS.items():
            yield '10 MB: %s, %s' % (name, conversion), \
                lambda conversion=conversion, make=make, answer=answer: enormous(conversion, make, answer)
        yield '10 MB: last line, %s' % conversion, lambda conversion=conversion, answer=answer: enormous_end(conversion, answer)
    for conversion in harness.CONVERSIONS:
        yield 'cut and ended everywhere: %s' % conversion, lambda conversion=conversion: every_cut(conversion)
        yield 'in pieces of %s bytes, and random ones: %s' % (', '.join(map(str, PIECES)), conversion), \
            lambda conversion=conversion: pieces(conversion)
        yield 'damaged rules in random pieces: %s' % conversion, lambda conversion=conversion: damaged_pieces(conversion)
