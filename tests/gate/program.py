"""What the gate's tests share: the compiled program, how it is run, and how its output is held to what is expected."""
import subprocess
import tempfile
import threading

import harness
import model

PROGRAM = harness.TOP / 'target/bin/program'
FILE_REFUSED = b'refused\t2\t0\n'
# Against hanging, not a measure of speed.
SECONDS = 60
SHOWN = 600


class Failed(Exception):
    """Why a test failed, in a few lines."""


def run(given, stack=None):
    """The program's output, under a stack of so many KiB where one is given. A signal or an exit status is a failure."""
    command = [PROGRAM] if stack is None else ['sh', '-c', 'ulimit -s "$0" && exec "$1"', stack, PROGRAM]
    try:
        return harness.run(command, given, SECONDS)
    except harness.Trouble as trouble:
        raise Failed(str(trouble)) from None


def run_fed(stdin, feed):
    """The program's output where `stdin` is its input, and `feed` writes to the other end and closes it."""
    with tempfile.TemporaryFile() as out, subprocess.Popen([PROGRAM], stdin=stdin, stdout=out) as child:
        stdin.close()
        watch = threading.Timer(SECONDS, child.kill)
        watch.start()
        try:
            feed()
            ended = child.wait()
        except OSError as trouble:
            raise Failed('the program did not take its input: %s' % trouble) from None
        finally:
            watch.cancel()
        if ended != 0:
            raise Failed('the program ended with %d' % ended)
        out.seek(0)
        return out.read()


def shown(text):
    return text[:SHOWN].decode('latin-1') + ('\n.. %d bytes in all\n' % len(text) if len(text) > SHOWN else '')


def same(given, expected, got):
    """Fails with the first rule that is answered in another way than expected."""
    if got == expected:
        return
    _, rules = harness.taken_apart(given)
    wanted_head, wanted = harness.taken_apart(expected)
    head, answers = harness.taken_apart(got)
    if wanted_head == head and len(rules) == len(wanted) == len(answers):
        for rule, one, other in zip(rules, wanted, answers):
            if one != other:
                raise Failed('for\n%s\nexpected\n%s\ngot\n%s' % (shown(rule), shown(one), shown(other)))
    raise Failed('for the file\n%s\nexpected\n%s\ngot\n%s' % (shown(given), shown(expected), shown(got)))


def expect(given, expected, stack=None):
    same(given, expected, run(given, stack))


def expect_model(given, stack=None):
    expect(given, model.output(given), stack)


def file_of(conversion, rules):
    """A whole input from labels and texts."""
    return b'do\t%s\n' % conversion.encode() + b''.join(b'rule\t%s\n%s' % (label.encode(), text) for label, text in rules)
