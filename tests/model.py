#!/usr/bin/env python3
"""model.py: document 01 word by word, as the file program: standard input to standard output.

It follows the document's words (and docs/DECISIONS.md where they leave room) and goes other ways than the Rust: prefix and matrix
apart, each variable given to the block that it belongs to, clauses as sets from the start. So a place where the Rust breaks a
written rule shows as a difference. It is a definition to compare with, not a fast program.

Trees are tuples whose first entry is the word that opens their line: ('and', left, right), ('all', variables, body),
('pred', name, terms), ('fun', name, terms), ('var', name) and so on.
"""
import re
import sys
import threading

WEIGHT, DEPTH, ARGUMENTS, BLOCK, NAME, LINE = 1024, 64, 32, 32, 24, 1024
RAW_CLAUSES, RAW_LITERALS, OUT = 256, 2048, 65536

CONVERSIONS = ('simplify', 'nnf', 'pnf', 'snf', 'cnf', 'dnf', 'pnf-snf', 'snf-cnf', 'snf-dnf')


class Refused(Exception):
    """A refusal: its number and its place."""

    def __init__(self, number, place):
        super().__init__(number, place)
        self.number, self.place = number, place


# ---- Rule text -------------------------------------------------------------------------------------------------------------------

PLAIN = re.compile(r'[A-Za-z_][A-Za-z0-9_]*\Z')
VARIABLE = re.compile(r'[A-Za-z_][A-Za-z0-9_]*`*\Z')
SYMBOL = re.compile(r'[A-Za-z_][A-Za-z0-9_#]*\Z')
COUNT = re.compile(r'(0|[1-9][0-9]*)\Z')

FORMULAS_OF = {'top': 0, 'bot': 0, 'not': 1, 'and': 2, 'or': 2, 'imp': 2, 'iff': 2, 'all': 1, 'ex': 1}
TERMS = ('var', 'con', 'fun')


def named(pattern, name):
    return len(name) <= NAME and pattern.match(name) is not None


def counted(digits):
    return COUNT.match(digits) is not None and int(digits) <= ARGUMENTS


def good_line(fields):
    """Whether the fields of a line are those of a node."""
    word, rest = fields[0], fields[1:]
    if word in ('all', 'ex'):
        return 1 <= len(rest) <= BLOCK and all(named(VARIABLE, name) for name in rest)
    if word in ('pred', 'fun'):
        return len(rest) == 2 and named(PLAIN if word == 'pred' else SYMBOL, rest[0]) and counted(rest[1])
    if word in ('var', 'con'):
        return len(rest) == 1 and named(VARIABLE if word == 'var' else SYMBOL, rest[0])
    return (word == 'eq' or word in FORMULAS_OF) and not rest


class Reader:
    """Reads a tree by descent. `lines` are the rule's lines without LF; `ended` says whether the last one had one."""

    def __init__(self, lines, ended):
        self.lines, self.ended = lines, ended
        self.at = 0
        self.weight = 0

    def read(self):
        tree = self.formula(1)
        if self.at < len(self.lines):
            raise Refused(2, self.at + 1)
        return tree

    def next_node(self, depth, want_term):
        """The next line's fields, once it is good, of the sort that is due, and within the limits."""
        place = self.at + 1
        if self.at == len(self.lines):
            raise Refused(2, place)
        line = self.lines[self.at]
        is_last = place == len(self.lines)
        if len(line) > LINE or (is_last and not self.ended):
            raise Refused(2, place)
        fields = line.decode('latin-1').split('\t')
        if not good_line(fields) or (fields[0] in TERMS) != want_term:
            raise Refused(2, place)
        self.weight += len(fields) if fields[0] in ('all', 'ex') else 1
        if self.weight > WEIGHT or depth > DEPTH:
            raise Refused(3, place)
        self.at += 1
        return fields

    def formula(self, depth):
        fields = self.next_node(depth, want_term=False)
        word = fields[0]
        if word == 'pred':
            return (word, fields[1], self.terms(int(fields[2]), depth + 1))
        if word == 'eq':
            return (word, self.term(depth + 1), self.term(depth + 1))
        parts = tuple(self.formula(depth + 1) for _ in range(FORMULAS_OF[word]))
        return (word, tuple(fields[1:])) + parts if word in ('all', 'ex') else (word,) + parts

    def term(self, depth):
        fields = self.next_node(depth, want_term=True)
        if fields[0] == 'fun':
            return ('fun', fields[1], self.terms(int(fields[2]), depth + 1))
        return tuple(fields)

    def terms(self, count, depth):
        return tuple(self.term(depth) for _ in range(count))


def written(tree, out):
    """The lines of a tree, appended to `out`."""
    word = tree[0]
    if word in ('pred', 'fun'):
        out.append('%s\t%s\t%d' % (word, tree[1], len(tree[2])))
        parts = tree[2]
    elif word in ('var', 'con'):
        out.append('%s\t%s' % tree)
        parts = ()
    elif word in ('all', 'ex'):
        out.append('\t'.join((word,) + tree[1]))
        parts = tree[2:]
    else:
        out.append(word)
        parts = tree[1:]
    for part in parts:
        written(part, out)


# ---- Measures --------------------------------------------------------------------------------------------------------------------

def parts_of(tree):
    word = tree[0]
    if word in ('pred', 'fun', 'all', 'ex'):
        return tree[2] if word in ('pred', 'fun') else tree[2:]
    return () if word in ('var', 'con') else tree[1:]


def nodes_of(tree):
    """Every node of a tree, parent first."""
    waiting = [tree]
    while waiting:
        node = waiting.pop()
        yield node
        waiting.extend(reversed(parts_of(node)))


def weight(tree):
    return sum(1 + (len(node[1]) if node[0] in ('all', 'ex') else 0) for node in nodes_of(tree))


def variables_of(tree):
    """Every variable that stands in a tree, in a block or in a term."""
    for node in nodes_of(tree):
        if node[0] == 'var':
            yield node[1]
        elif node[0] in ('all', 'ex'):
            yield from node[1]


def stage(number, result):
    """Refusals 7 and 6 on a stage's result; the result itself where it passes."""
    if weight(result) > WEIGHT or any(node[0] == 'fun' and len(node[2]) > ARGUMENTS for node in nodes_of(result)):
        raise Refused(7, number)
    if any(len(name) > NAME for name in variables_of(result)):
        raise Refused(6, number)
    return result


class Room:
    """Lets a stage stop as soon as its result is over the weight limit: every node spent is a node of the result."""

    def __init__(self, number):
        self.number, self.left = number, WEIGHT

    def spend(self, amount):
        self.left -= amount
        if self.left < 0:
            raise Refused(7, self.number)


# ---- Free variables --------------------------------------------------------------------------------------------------------------

def free_variables(tree):
    """Each once, by first occurrence from left to right; a block takes its variables out of its body's list."""
    if tree[0] == 'var':
        return [tree[1]]
    found = dict.fromkeys(name for part in parts_of(tree) for name in free_variables(part))
    taken = tree[1] if tree[0] in ('all', 'ex') else ()
    return [name for name in found if name not in taken]


# ---- Simplify --------------------------------------------------------------------------------------------------------------------

TOP, BOT = ('top',), ('bot',)


def negated_simply(part):
    """The simplified negation of a simplified part."""
    if part == TOP:
        return BOT
    if part == BOT:
        return TOP
    return part[1] if part[0] == 'not' else ('not', part)


def simplify(tree):
    word = tree[0]
    if word in ('top', 'bot', 'pred', 'eq'):
        return tree
    if word == 'not':
        return negated_simply(simplify(tree[1]))
    if word in ('all', 'ex'):
        body = simplify(tree[2])
        kept = tuple(name for name in free_variables(body) if name in tree[1])
        return (word, kept, body) if kept else body
    left, right = simplify(tree[1]), simplify(tree[2])
    if word in ('and', 'or'):
        unit, zero = (TOP, BOT) if word == 'and' else (BOT, TOP)
        if zero in (left, right):
            return zero
        if left == unit:
            return right
        return left if right == unit else (word, left, right)
    if word == 'imp':
        if left == BOT or right == TOP:
            return TOP
        if left == TOP:
            return right
        return negated_simply(left) if right == BOT else (word, left, right)
    for here, there in ((left, right), (right, left)):
        if here == TOP:
            return there
        if here == BOT:
            return negated_simply(there)
    return (word, left, right)


# ---- Negation form ---------------------------------------------------------------------------------------------------------------

OPPOSITE = {'top': 'bot', 'bot': 'top', 'and': 'or', 'or': 'and', 'all': 'ex', 'ex': 'all'}


def negation_form(tree, number=4):
    return positive(tree, Room(number))


def positive(tree, room):
    word = tree[0]
    if word == 'not':
        return negative(tree[1], room)
    if word in ('top', 'bot', 'pred', 'eq'):
        room.spend(weight(tree))
        return tree
    if word in ('all', 'ex'):
        room.spend(1 + len(tree[1]))
        return (word, tree[1], positive(tree[2], room))
    left, right = tree[1:]
    if word == 'iff':
        room.spend(3)
        return ('and', ('or', negative(left, room), positive(right, room)), ('or', positive(left, room), negative(right, room)))
    room.spend(1)
    if word == 'imp':
        return ('or', negative(left, room), positive(right, room))
    return (word, positive(left, room), positive(right, room))


def negative(tree, room):
    word = tree[0]
    if word == 'not':
        return positive(tree[1], room)
    if word in ('top', 'bot'):
        room.spend(1)
        return (OPPOSITE[word],)
    if word in ('pred', 'eq'):
        room.spend(1 + weight(tree))
        return ('not', tree)
    if word in ('all', 'ex'):
        room.spend(1 + len(tree[1]))
        return (OPPOSITE[word], tree[1], negative(tree[2], room))
    left, right = tree[1:]
    if word == 'iff':
        room.spend(3)
        return ('or', ('and', positive(left, room), negative(right, room)), ('and', negative(left, room), positive(right, room)))
    room.spend(1)
    if word == 'imp':
        return ('and', positive(left, room), negative(right, room))
    return (OPPOSITE[word], negative(left, room), negative(right, room))


# ---- Prenex ----------------------------------------------------------------------------------------------------------------------

def put_in(tree, terms):
    """A tree without blocks, with a term in place of each variable that has one."""
    word = tree[0]
    if word == 'var':
        return terms.get(tree[1], tree)
    if word in ('con', 'top', 'bot'):
        return tree
    if word in ('pred', 'fun'):
        return (word, tree[1], tuple(put_in(part, terms) for part in tree[2]))
    return (word,) + tuple(put_in(part, terms) for part in tree[1:])


def bound_in(prefix):
    return [name for _, names in prefix for name in names]


def pulled(prefix, matrix, other_free, other_names):
    """One side of a binary node when its prefix has come out: each block in turn, outermost first, against the other side."""
    out = []
    for at, (word, names) in enumerate(prefix):
        later = prefix[at + 1:]
        clashing = [name for name in names if name in other_free]
        if clashing:
            taken = set(names) | set(bound_in(later)) | set(variables_of(matrix)) | other_names
            made = {}
            for name in clashing:
                new = name
                while new in taken:
                    new += '`'
                taken.add(new)
                made[name] = new
            still_its_own = {name: ('var', new) for name, new in made.items() if name not in bound_in(later)}
            matrix = put_in(matrix, still_its_own)
            names = tuple(made.get(name, name) for name in names)
        out.append((word, names))
    return out, matrix


def flipped(prefix):
    return [(OPPOSITE[word], names) for word, names in prefix]


def pull(tree, room):
    """Prefix and matrix of a simplified tree."""
    word = tree[0]
    if word in ('top', 'bot', 'pred', 'eq'):
        room.spend(weight(tree))
        return [], tree
    if word in ('all', 'ex'):
        room.spend(1 + len(tree[1]))
        prefix, matrix = pull(tree[2], room)
        return [(word, tree[1])] + prefix, matrix
    if word == 'not':
        room.spend(1)
        prefix, matrix = pull(tree[1], room)
        return flipped(prefix), ('not', matrix)
    if word == 'iff':
        return pull(('and', ('imp', tree[1], tree[2]), ('imp', tree[2], tree[1])), room)
    room.spend(1)
    left_prefix, left = pull(tree[1], room)
    right_prefix, right = pull(tree[2], room)
    right_names = set(variables_of(right))
    right_bound = set(bound_in(right_prefix))
    left_prefix, left = pulled(left_prefix, left, right_names - right_bound, right_names | right_bound)
    left_names = set(variables_of(left))
    right_prefix, right = pulled(right_prefix, right, left_names, left_names)
    if word == 'imp':
        left_prefix = flipped(left_prefix)
    return left_prefix + right_prefix, (word, left, right)


def with_prefix(prefix, matrix):
    for word, names in reversed(prefix):
        matrix = (word, names, matrix)
    return matrix


def prenex(simplified):
    return with_prefix(*pull(simplified, Room(2)))


# ---- Shapes ----------------------------------------------------------------------------------------------------------------------

def apart(tree, words):
    """The leading blocks of these words, and the rest."""
    prefix = []
    while tree[0] in words:
        prefix.append((tree[0], tree[1]))
        tree = tree[2]
    return prefix, tree


def require_shape(tree, words):
    _, matrix = apart(tree, words)
    if any(node[0] in ('all', 'ex') for node in nodes_of(matrix)):
        raise Refused(4, 0)


def require_no_hash(tree):
    if any(node[0] in ('con', 'fun') and '#' in node[1] for node in nodes_of(tree)):
        raise Refused(5, 0)


# ---- Skolem ----------------------------------------------------------------------------------------------------------------------

def skolem(tree):
    prefix, matrix = apart(tree, ('all', 'ex'))
    scope = free_variables(tree)
    constants = functions = 0
    kept, belongs = [], {}
    for at, (word, names) in enumerate(prefix):
        scope = [name for name in scope if name not in names]
        if word == 'all':
            scope += names
            kept.append((word, names))
            belongs.update((name, ('var', name)) for name in names)
            continue
        bound_later = set(bound_in(prefix[at + 1:]))
        arguments = tuple(('var', name) for name in scope if name not in bound_later)
        for name in names:
            if arguments:
                belongs[name] = ('fun', 'f#%d' % functions, arguments)
                functions += 1
            else:
                belongs[name] = ('con', 'c#%d' % constants)
                constants += 1
    return with_prefix(kept, put_in(matrix, belongs))


# ---- Clauses ---------------------------------------------------------------------------------------------------------------------

def raw_counts(matrix, adding, nothing):
    """Raw clauses and literals of a matrix in negation form; `adding` is the word that adds, `nothing` the constant of no clause."""
    word = matrix[0]
    if word in ('top', 'bot'):
        return (0, 0) if word == nothing else (1, 0)
    if word not in ('and', 'or'):
        return (1, 1)
    (clauses, literals), (others, other_literals) = (raw_counts(part, adding, nothing) for part in matrix[1:])
    if word == adding:
        return (clauses + others, literals + other_literals)
    return (clauses * others, literals * others + other_literals * clauses)


def distributed(matrix, adding, nothing):
    """The clauses of a matrix, as sets of literals. A part beside no clauses at all is not looked at."""
    word = matrix[0]
    if word in ('top', 'bot'):
        return set() if word == nothing else {frozenset()}
    if word not in ('and', 'or'):
        return {frozenset([literal(matrix)])}
    left, right = matrix[1:]
    if word == adding:
        return distributed(left, adding, nothing) | distributed(right, adding, nothing)
    if 0 in (raw_counts(left, adding, nothing)[0], raw_counts(right, adding, nothing)[0]):
        return set()
    others = distributed(right, adding, nothing)
    return {clause | other for clause in distributed(left, adding, nothing) for other in others}


# Keys whose order as tuples is the order of the document: positive before negative, predicates before equations, then name, then terms.
TERM_RANK = {'var': 0, 'con': 1, 'fun': 2}


def term_key(term):
    further = (tuple(map(term_key, term[2])),) if term[0] == 'fun' else ()
    return (TERM_RANK[term[0]], term[1]) + further


def literal(tree):
    """A literal as its key, with the tree of its atom behind it, which decides nothing: equal keys have equal trees."""
    sign, atom = (1, tree[1]) if tree[0] == 'not' else (0, tree)
    if atom[0] == 'pred':
        return ((sign, 0, atom[1], tuple(map(term_key, atom[2]))), atom)
    return ((sign, 1, term_key(atom[1]), term_key(atom[2])), atom)


def clause_listing(skolem_form, form):
    adding, nothing = ('and', 'top') if form == 'cnf' else ('or', 'bot')
    _, matrix = apart(skolem_form, ('all',))
    matrix = stage(4, negation_form(matrix))
    clauses, literals = raw_counts(matrix, adding, nothing)
    if clauses > RAW_CLAUSES or literals > RAW_LITERALS:
        raise Refused(8, 5)
    listed = sorted(sorted(clause) for clause in distributed(matrix, adding, nothing))
    out = ['clauses\t%d' % len(listed)]
    for clause in listed:
        out.append('clause\t%d' % len(clause))
        for key, atom in clause:
            out.append('neg' if key[0] else 'pos')
            written(atom, out)
    return out


# ---- The nine conversions --------------------------------------------------------------------------------------------------------

def tree_text(tree):
    out = []
    written(tree, out)
    return out


def convert(conversion, rule):
    """The lines of the result, or Refused."""
    if conversion == 'simplify':
        return tree_text(stage(1, simplify(rule)))
    if conversion == 'nnf':
        return tree_text(stage(4, negation_form(rule)))
    if conversion == 'pnf':
        return tree_text(stage(2, prenex(stage(1, simplify(rule)))))
    if conversion == 'pnf-snf':
        require_shape(rule, ('all', 'ex'))
        require_no_hash(rule)
        return tree_text(stage(3, skolem(rule)))
    if conversion in ('snf-cnf', 'snf-dnf'):
        require_shape(rule, ('all',))
        return clause_listing(rule, conversion[4:])
    require_no_hash(rule)
    form = stage(3, skolem(stage(2, prenex(stage(1, simplify(rule))))))
    return tree_text(form) if conversion == 'snf' else clause_listing(form, conversion)


# ---- The file program ------------------------------------------------------------------------------------------------------------

def answer(conversion, lines, ended):
    """The output lines for a rule: its `rule` line comes first in `lines`; `ended` says whether its last line has its LF."""
    label = lines[0][len(b'rule\t'):].decode('latin-1')
    line_is_good = len(lines[0]) <= LINE and (ended or len(lines) > 1)
    if not line_is_good or not named(PLAIN, label):
        return ['rule\t?', 'refused\t2\t0']
    try:
        result = convert(conversion, Reader(lines[1:], ended).read())
        if sum(len(line) + 1 for line in result) > OUT:
            raise Refused(1, 0)
    except Refused as refusal:
        result = ['refused\t%d\t%d' % (refusal.number, refusal.place)]
    return ['rule\t' + label] + result


def conversion_of(lines, first_ended):
    """The conversion that the first line asks for, or None where the file is refused."""
    is_rule = len(lines) < 2 or lines[1].startswith(b'rule\t')
    if not lines or not first_ended or len(lines[0]) > LINE or not is_rule:
        return None
    fields = lines[0].decode('latin-1').split('\t')
    return fields[1] if len(fields) == 2 and fields[0] == 'do' and fields[1] in CONVERSIONS else None


def output(text):
    """The whole output for a whole input."""
    lines = text.split(b'\n')
    ended = lines[-1] == b''
    if ended:
        lines.pop()
    conversion = conversion_of(lines, ended or len(lines) > 1)
    if conversion is None:
        return b'refused\t2\t0\n'
    out = ['done\t' + conversion]
    starts = [at for at, line in enumerate(lines) if at > 0 and line.startswith(b'rule\t')]
    for start, end in zip(starts, starts[1:] + [len(lines)]):
        out += answer(conversion, lines[start:end], ended or end < len(lines))
    return ''.join(line + '\n' for line in out).encode('ascii')


def main():
    if len(sys.argv) > 1:
        sys.exit('usage: model.py < INPUT > OUTPUT (no arguments; the first line of the input names the conversion)')
    result = output(sys.stdin.buffer.read())
    sys.stdout.buffer.write(result)


def run_deep(task):
    """Runs a task with room for trees that a stage makes: the document limits a rule's depth, not a stage's."""
    sys.setrecursionlimit(1_000_000)
    threading.stack_size(512 * 1024 * 1024)
    faults = []

    def guarded():
        try:
            task()
        except BaseException as fault:  # handed over to the caller's thread
            faults.append(fault)

    thread = threading.Thread(target=guarded)
    thread.start()
    thread.join()
    if faults:
        raise faults[0]


if __name__ == '__main__':
    run_deep(main)
