"""What tests/compare and tests/make-answers share: running the programs, and taking inputs and outputs apart rule by rule."""
import pathlib
import subprocess
import sys

TOP = pathlib.Path(__file__).resolve().parent.parent
ORACLE = TOP / 'target/oracle/release/oracle'
GENERATE = TOP / 'target/oracle/release/generate'
MODEL = TOP / 'tests/model.py'

CONVERSIONS = ('simplify', 'nnf', 'pnf', 'snf', 'cnf', 'dnf', 'pnf-snf', 'snf-cnf', 'snf-dnf')

# What the oracle prints where it has no answer of the Rust's: the Rust would take too long, or it panicked.
SLOW, PANIC = b'slow\n', b'panic\n'


class Trouble(Exception):
    """Something that keeps a run from being one: said in a line, then exit 2."""


def require_oracle():
    for program in (ORACLE, GENERATE):
        if not program.is_file():
            raise Trouble('%s is not there: run tests/build-oracle first' % program.relative_to(TOP))


def run(command, given=b'', seconds=600):
    """The standard output of a command that must end well and in time."""
    name = ' '.join(str(word) for word in command)
    try:
        done = subprocess.run([str(word) for word in command], input=given, capture_output=True, timeout=seconds)
    except subprocess.TimeoutExpired:
        raise Trouble('%s did not end within %d seconds' % (name, seconds)) from None
    except OSError as error:
        raise Trouble('%s cannot be run: %s' % (name, error.strerror)) from None
    if done.returncode != 0:
        raise Trouble('%s ended with %d: %s' % (name, done.returncode, done.stderr.decode(errors='replace').strip()))
    return done.stdout


def generated(family, conversion, seed, count):
    return run([GENERATE, family, conversion, seed, count])


def oracle_output(given):
    return run([ORACLE], given)


def model_output(given):
    return run([sys.executable, MODEL], given)


def taken_apart(text):
    """The first line of an input or an output, and its rules: each from its `rule` line to the next one."""
    lines = [line + b'\n' for line in text.split(b'\n')]
    lines[-1] = lines[-1][:-1]
    starts = [at for at, line in enumerate(lines) if line.startswith(b'rule\t')]
    head = b''.join(lines[:starts[0]] if starts else lines)
    return head, [b''.join(lines[start:end]) for start, end in zip(starts, starts[1:] + [len(lines)])]


def answer_of(rule_output):
    """A rule's output without its `rule` line."""
    return rule_output[rule_output.index(b'\n') + 1:]


def refusal_of(rule_output):
    """The number of the refusal in a rule's output, or None."""
    fields = answer_of(rule_output).split(b'\t')
    return int(fields[1]) if fields[0] == b'refused' else None
