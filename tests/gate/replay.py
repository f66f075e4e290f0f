"""The recorded answers of the Rust (tests/answers), rule by rule, byte for byte."""
import harness
from program import expect

ANSWERS = harness.TOP / 'tests/answers'
MANY = 10_000


def recorded(conversion):
    path = ANSWERS / (conversion + '.in')
    return path.read_bytes(), path.with_suffix('.out').read_bytes()


def replayed(conversion):
    """All recorded rules in one file."""
    expect(*recorded(conversion))


def many(conversion):
    """The same rules again and again, in a file of 10,000 rules; the last one may end without LF, so it stands once, at the end."""
    given, expected = recorded(conversion)
    (head, rules), (answer_head, answers) = harness.taken_apart(given), harness.taken_apart(expected)
    inner, inner_answers = rules[:-1], answers[:-1]
    times = MANY // len(inner) + 1
    start = len(inner) * times - (MANY - 1)
    expect(head + b''.join((inner * times)[start:] + rules[-1:]), answer_head + b''.join((inner_answers * times)[start:] + answers[-1:]))


def tests():
    for conversion in harness.CONVERSIONS:
        yield 'recorded answers: %s' % conversion, lambda conversion=conversion: replayed(conversion)
    for conversion in harness.CONVERSIONS:
        yield '10,000 rules: %s' % conversion, lambda conversion=conversion: many(conversion)
    for path in sorted(ANSWERS.glob('files/*.in')):
        given, expected = path.read_bytes(), path.with_suffix('.out').read_bytes()
        yield 'recorded file: %s' % path.stem, lambda given=given, expected=expected: expect(given, expected)
