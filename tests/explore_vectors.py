"""The vectors of explore and place: document 01's examples 1, 3, 4, 9 to 12, both sides of refusals 9 and 10, budgets, frames and cells
under forks, and the row that inputs fall in.

tests/vectors.py writes them. Each line was worked out by hand from document 01 and the shared readings (R n), and
not by running explore. Values, positions and cells are as in tests/plain_vectors.py; nT is the number term T of the pool and bT the boolean
term T; a condition is a term and the truth it must have; a term is its operator and its operands, with ! & | for not, and, or, and # with its number for an input. Where a formula
stands, the reason stands beside it. Of more than 20 rows, and of more than 40 terms, the first two and the last two are shown.
"""

files = {}
vectors = []


def save(name, content):
    assert files.setdefault(name, content) == content, name
    return name


def listed(inputs):
    """the file of a list of inputs, or of so many bytes; none where explore is called"""
    if inputs is None:
        return save('none', b'')
    if isinstance(inputs, int):
        return save('in-%d-bytes' % inputs, bytes(range(1, inputs + 1)))
    words = list(inputs) + [0] * (16 - len(inputs))
    return save('in-' + ('-'.join(map(str, inputs)) or 'zeros'), b''.join(w.to_bytes(4, 'little') for w in words))


def call(name, text, inputs, budget, lent, answer):
    which = 'explore' if inputs is None else 'place'
    given = [which, save(name, text.encode()), listed(inputs)] + [str(n) for n in budget + lent]
    vectors.append((given, '= ' + answer, []))


def counted(what, items):
    return ', %s %d' % (what, len(items.split())) + (': ' + items if items else '')


def row(end, at, steps, read, conditions, variables, cells=''):
    """a row's line: how it ended and where, its steps, the inputs read, and the rest"""
    return '%s at %s, steps %d, inputs %d' % (end, at, steps, read) + \
        counted('conditions', conditions) + counted('variables', variables) + counted('cells', cells)


def shown(what, items, most):
    for k, item in enumerate(items):
        if len(items) <= most or k < 2 or k >= len(items) - 2:
            vectors[-1][2].append('  %s %d: %s' % (what, k, item))


def text(name, text, rows, terms, budget=(1024, 16), lent=(65600, 40960), place=()):
    """an exploration: its rows and terms; then place, for each list of inputs with the row that it falls in, with the same memory after"""
    for inputs, at in ((None, None),) + tuple(place):
        code = 0 if inputs is None else 256 + at
        call(name, text, inputs, budget, lent, '%d, rows %d, terms %d' % (code, len(rows), len(terms)))
        shown('row', rows, 20)
        shown('term', terms, 40)


def main(name, body, *rest, **more):
    """a body of `main(x)`"""
    text(name, 'main(x){ ' + body + ' }', *rest, **more)


def refused(name, number, text, inputs=None, budget=(1024, 16), lent=(65600, 40960)):
    """a refusal: table and pool are untouched, and after 9 and 10 zero as far as needed"""
    call(name, text, inputs, budget, lent, str(number))


# ------------------------------------------------------------------------------------------------------------ document 01's examples
a = 's := iSym_0; w := iSym_1; ifgoto (s < w) 5; r := 1; return r; fail w;'
a_terms = ['# 0 -', '# 1 -', '< n0 n1']
main('doc-1', a, [row('failed n1', '0.5', 4, 2, '2=true', '0 n0 n1 -'), row('returned 1', '0.4', 5, 2, '2=false', '0 n0 n1 1')], a_terms,
     place=(((3, 8), 0), ((5, 5), 1)))
# = on two sorts is a constant: no term, and a jump on it takes no condition and is cut for no branches
three = 'a := iSym_0; ifgoto (a = true) 3; return a; fail a;'
three_rows = [row('returned n0', '0.2', 3, 1, '', '0 n0')]
main('doc-3', three, three_rows, ['# 0 -'], place=(((9,), 0),))
main('doc-3', three, three_rows, ['# 0 -'], budget=(1024, 0))
main('doc-4', 'x := (x + 1); ifgoto true 0; vanish;', [row('cut for steps', '0.0', 1024, 0, '', '512')], [])

# Example 9. The path that stays in the loop makes all terms: input k is term 2k, and its comparison is term 2k + 1. A path that leaves after
# m inputs has taken m - 1 jumps and not the last, and ends at once. The true branch comes first, so the longest path is row 0.
nine = 'a := iSym_0; ifgoto (a < 5) 0; return a;'
nine_terms = [t for k in range(16) for t in ('# %d -' % k, '< n%d 5' % (2 * k))]
stayed = lambda n: ' '.join('%d=true' % (2 * k + 1) for k in range(n))
left = lambda m: row('returned n%d' % (2 * m - 2), '0.2', 2 * m + 1, m, (stayed(m - 1) + ' %d=false' % (2 * m - 1)).strip(), '0 n%d' % (2 * m - 2))
# sixteen rounds of two steps; the seventeenth input is the 33rd step and makes no term
main('doc-9', nine, [row('error 5', '0.0', 33, 16, stayed(16), '0 n30')] + [left(m) for m in range(16, 0, -1)], nine_terms,
     place=(((), 0), ((5,), 16), ((4, 4, 4294967295), 14)))
# fifteen rounds of two steps and an input; the jump that is cut has made its term, and is no step
main('doc-9', nine, [row('cut for branches', '0.1', 31, 16, stayed(15), '0 n30')] + [left(m) for m in range(15, 0, -1)], nine_terms,
     budget=(1024, 15), place=(((), 0), ((4,) * 14 + (5,), 1)))
# 32 steps: both branches of the sixteenth jump are cut for steps, with sixteen conditions
main('doc-9', nine, [row('cut for steps', '0.0', 32, 16, stayed(16), '0 n30'),
                     row('cut for steps', '0.2', 32, 16, stayed(15) + ' 31=false', '0 n30')] + [left(m) for m in range(15, 0, -1)], nine_terms,
     budget=(32, 16))
# no branches: the first jump is cut; one branch: the second
main('doc-9', nine, [row('cut for branches', '0.1', 1, 1, '', '0 n0')], nine_terms[:2], budget=(1024, 0), place=(((), 0),))
main('doc-9', nine, [row('cut for branches', '0.1', 3, 2, '1=true', '0 n2'), left(1)], nine_terms[:4], budget=(1024, 1))

# Example 10. Every path meets n jumps; row r took the false branch at jump d exactly where bit d of r, from the top of n bits, is 1. Each
# visit of jump d makes an input and a comparison. The visits are numbered depth first, true first: the true branch's next visit has the next
# number, and the false one's comes after the 2^(n-1-d) - 1 visits below the true branch.
ten = lambda n: ''.join('a := iSym_0; ifgoto (a < 5) %d; ' % (2 * k + 2) for k in range(n)) + 'return 0;'


def ten_visits(n, r):
    """the numbers of row r's visits, and whether each took the true branch"""
    number, found = 0, []
    for d in range(n):
        truth = (r >> (n - 1 - d)) % 2 == 0
        found.append((number, truth))
        number += 1 if truth else 2 ** (n - 1 - d)
    return found


def ten_conditions(n, r):
    return ' '.join('%d=%s' % (2 * v + 1, str(t).lower()) for v, t in ten_visits(n, r))


def ten_row(n, r):
    return row('returned 0', '0.%d' % (2 * n), 2 * n + 1, n, ten_conditions(n, r), '0 n%d' % (2 * ten_visits(n, r)[-1][0]))


def ten_terms(n):
    """visit v of jump d makes input d and its comparison; the order is the one of the numbers above"""
    depth = {v: d for r in range(2 ** n) for d, (v, _) in enumerate(ten_visits(n, r))}
    return [t for v in range(2 ** n - 1) for t in ('# %d -' % depth[v], '< n%d 5' % (2 * v))]


assert ten_terms(6)[:2] + ten_terms(6)[-2:] == ['# 0 -', '< n0 5', '# 5 -', '< n124 5']
main('doc-10-three', ten(3), [ten_row(3, r) for r in range(8)], ten_terms(3), place=(((0, 9, 0), 2), ((7, 7, 7), 7)))
main('doc-10-six', ten(6), [ten_row(6, r) for r in range(64)], ten_terms(6), place=(((), 0), ((5, 5, 5, 5, 5, 5), 63), ((9, 0, 9), 40)))
refused('doc-10-seven', 9, 'main(x){ ' + ten(7) + ' }', lent=(65664, 41024))
refused('doc-10-seven', 9, 'main(x){ ' + ten(7) + ' }', inputs=())

# Example 11. The input is term 0; each assignment adds four terms, the first of a and itself, the others of the one before and a; a's new
# term is the last of the four. At 1,023 steps 511 assignments and 511 jumps were done, and the assignment is next.
eleven = 'main(x){ a := iSym_0; a := ((((a + a) + a) + a) + a); ifgoto true 1; vanish; }'
eleven_terms = ['# 0 -'] + ['+ n%d n%d' % (4 * k + j, 4 * k) for k in range(511) for j in range(4)]
refused('doc-11', 10, eleven, lent=(65664, 41024))
refused('doc-11', 10, eleven, inputs=(1,))
text('doc-11', eleven, [row('cut for steps', '0.1', 1023, 1, '', '0 n2044')], eleven_terms, budget=(1023, 16), place=(((1,), 0),))
refused('doc-12-empty', 4, '')
refused('doc-12-jump', 7, 'main(x){ ifgoto true 1; }')
refused('doc-12-end', 8, 'main(x){ ifgoto true 0; }')
refused('doc-12-main', 6, 'f(x){ vanish; }', inputs=())

# ---------------------------------------------------------------------------------------------------- refusals 9 and 10 at their limits
# Six jumps as in example 10, but x counts the jumps not taken: the visits and so the terms are the same 126. `then` follows as command 18.
six = ''.join('a := iSym_0; ifgoto (a < 5) %d; x := (x + 1); ' % (3 * k + 3) for k in range(6))
falses = lambda r: bin(r).count('1')


def six_row(r, more=''):
    """two steps for each input and jump, one for each count, and two at the end; `more` are variables not bound there"""
    n = falses(r)
    return row('returned %d' % n, '0.19', 12 + n + 2, 6, ten_conditions(6, r), '%d n%d' % (n, 2 * ten_visits(6, r)[-1][0]) + more)



# one more jump on the last path, or on the first, is a 65th row; on none it is 64 rows
one_more = lambda n: 'main(x){ ' + six + 'ifgoto (x = %d) 20; return x; a := iSym_0; ifgoto (a < 5) 19; return x; }' % n
text('rows-64', one_more(7), [six_row(r) for r in range(64)], ten_terms(6))
refused('rows-65-last', 9, one_more(6), lent=(65664, 41024))
refused('rows-65-first', 9, one_more(0))

# 2,048 terms: the input, three, and 511 times four; 2 + 2 * 511 = 1,024 steps. With four at the start it is one term more.
ones = lambda n: '(' * n + 'a' + ' + 1)' * n
many = lambda n: 'main(x){ a := iSym_0; b := %s; a := ((((a + a) + a) + a) + a); ifgoto true 2; vanish; }' % ones(n)
# the first assignment is of input 0; every later one begins at the last of the four terms before
many_terms = ['# 0 -', '+ n0 1', '+ n1 1', '+ n2 1', '+ n0 n0', '+ n4 n0', '+ n5 n0', '+ n6 n0'] + \
    ['+ n%d n%d' % (4 * k + 3 + j, 4 * k + 3) for k in range(1, 511) for j in range(4)]
assert len(many_terms) == 2048
text('terms-2048', many(3), [row('cut for steps', '0.2', 1024, 1, '', '0 n2047 n3')], many_terms, lent=(65664, 41024))
refused('terms-2049', 10, many(4))

# 64 rows and 2,048 terms: rows 0 to 62 as above. The last path reads one more input (term 126), makes 60 times 32 terms and returns one more.
# The expression of 32 operators is 31 in a full tree of a's and one around it.
tree = 'a'
for _ in range(5):
    tree = '(%s + %s)' % (tree, tree)
round_60 = 'b := (%s + 1); y := (y + 1); ifgoto (y < 60) %d; '
both_full = 'main(x){ ' + six + 'ifgoto (x = 6) 20; return x; a := iSym_0; y := 0; ' + round_60 % (tree, 22) + 'return %s; }'
# steps of the last path: six rounds of three, the jump, input and 0, 60 rounds of three, and the return: 18 + 1 + 2 + 180 + 1
full_row = row('returned n2047', '0.25', 202, 7, ten_conditions(6, 63), '6 n126 60 n2046')
# a tree's 31 terms: its left half, its right half, their sum. So the last of a round's 32 is of the one before and 1.
full_terms = ten_terms(6) + ['# 6 -'] + ['of the trees'] * 1919 + ['+ n2045 1', '+ n126 1']
text('rows-64-terms-2048', both_full % '(a + 1)', [six_row(r, ' - -') for r in range(63)] + [full_row], full_terms, place=(((6,) * 6, 63),))
refused('rows-64-terms-2049', 10, both_full % '((a + 1) + 1)')

# Refusals 9 and 10 apart by one term (R 16). The last path jumps once more: the true branch is row 63, the 64th; 128 terms so far. The false
# branch makes 60 times 32 more, 2,048 in all, and ends as `end` says at its 203rd step: 18 + 1 + 2 + 1 + 180 + 1.
by_one = lambda end: 'main(x){ ' + six + 'ifgoto (x = 6) 20; return x; a := iSym_0; ifgoto (a < 5) 19; y := 0; ' + round_60 % (tree, 23) + end + ' }'
refused('9-and-10-row', 9, by_one('return a;'))
refused('9-and-10-term', 10, by_one('return (a + 1);'))
# the operator that errs makes no term; the one inside it did
refused('9-and-10-error', 9, by_one('fail (a + true);'))
refused('9-and-10-term-error', 10, by_one('fail ((a + 1) + true);'))
# a jump cut for branches, 7 being used up, makes its term first; a cut for steps makes none
refused('9-and-10-jump', 10, by_one('ifgoto (a < 3) 19; vanish;'), budget=(1024, 7))
refused('9-and-10-jump', 9, by_one('ifgoto (a < 3) 19; vanish;'), budget=(202, 7))
refused('9-and-10-term', 9, by_one('return (a + 1);'), budget=(202, 16))

# ---------------------------------------------------------------------------------------------------------------------------- budgets
# steps are tested first: with none left nothing is evaluated; after the jump both branches are cut where they would go on
main('doc-1', a, [row('cut for steps', '0.2', 2, 2, '', '0 n0 n1 -')], a_terms[:2], budget=(2, 0))
main('doc-1', a, [row('cut for branches', '0.2', 2, 2, '', '0 n0 n1 -')], a_terms, budget=(3, 0))
main('doc-1', a, [row('cut for steps', '0.5', 3, 2, '2=true', '0 n0 n1 -'), row('cut for steps', '0.3', 3, 2, '2=false', '0 n0 n1 -')], a_terms,
     budget=(3, 16), place=(((3, 8), 0), ((5, 5), 1)))
main('doc-1', a, [row('failed n1', '0.5', 4, 2, '2=true', '0 n0 n1 -'), row('cut for steps', '0.4', 4, 2, '2=false', '0 n0 n1 1')], a_terms,
     budget=(4, 1), place=(((5, 5), 1),))
# a number term as a jump's condition is error 2 and a step, also where the branches are used up (R 22)
main('jump-number-term', 'a := iSym_0; ifgoto (a + 1) 0; vanish;', [row('error 2', '0.1', 2, 1, '', '0 n0')], ['# 0 -', '+ n0 1'], budget=(1024, 0))

# ------------------------------------------------------------------------------------------------------------------------------ terms
# terms stand in the order made; = on a number and a boolean is false and no term
main('operators', 'a := iSym_0; p := (a = 3); q := not p; r := (p and true); s := (q or r); t := (p = q); u := (a = p); v := (1 - a); return s;',
     [row('returned b4', '0.8', 9, 1, '', '0 n0 b1 b2 b3 b4 b5 false n6')],
     ['# 0 -', '= n0 3', '! b1 -', '& b1 true', '| b2 b3', '= b1 b2', '- 1 n0'])
# one operand that is a constant, or two alike, are worked out no sooner
main('unfolded', 'a := iSym_0; p := (a < 5); q := (false and p); r := (true or p); s := (p or p); t := (0 + a); return q;',
     [row('returned b2', '0.6', 7, 1, '', '0 n0 b1 b2 b3 b4 n5')],
     ['# 0 -', '< n0 5', '& false b1', '| true b1', '| b1 b1', '+ 0 n0'])
# nothing is simplified, and no branch dropped for being impossible: three paths, the first of them for no inputs, the last neither
main('impossible', 'a := iSym_0; ifgoto (a = a) 3; vanish; ifgoto (a < 0) 2; return (a - a);',
     [row('vanished -', '0.2', 4, 1, '1=true 2=true', '0 n0'), row('returned n3', '0.4', 4, 1, '1=true 2=false', '0 n0'),
      row('vanished -', '0.2', 3, 1, '1=false', '0 n0')],
     ['# 0 -', '= n0 n0', '< n0 0', '- n0 n0'], place=(((), 1), ((4294967295,), 1)))
# nothing is shared: each branch of a jump to the very next command makes the sum anew
main('unshared', 'a := iSym_0; ifgoto (a < 5) 2; return (a + 1);',
     [row('returned n2', '0.2', 3, 1, '1=true', '0 n0'), row('returned n3', '0.2', 3, 1, '1=false', '0 n0')],
     ['# 0 -', '< n0 5', '+ n0 1', '+ n0 1'])
# a term is not a tree: 200 times a doubled is 2^200 times the input, which is 0. 1 + 200 * 3 + 1 + 1 steps; term 200 is the last a
main('doubled', 'a := iSym_0; a := (a + a); x := (x + 1); ifgoto (x < 200) 1; ifgoto (a = 0) 6; vanish; return a;',
     [row('returned n200', '0.6', 603, 1, '201=true', '200 n200'), row('vanished -', '0.5', 603, 1, '201=false', '200 n200')],
     ['# 0 -'] + ['+ n%d n%d' % (k, k) for k in range(200)] + ['= n200 0'], place=(((1,), 0),))
# the terms of an erring command stay made (R 21); a term is no location (R 22)
main('term-then-error', 'a := iSym_0; b := ((a + 1) + true); vanish;', [row('error 2', '0.1', 2, 1, '', '0 n0 -')], ['# 0 -', '+ n0 1'])
main('mutate-term', 'a := iSym_0; b := mutate([a, "p", (a + 1)]); vanish;', [row('error 2', '0.1', 2, 1, '', '0 n0 -')], ['# 0 -', '+ n0 1'])
main('unbound-after-term', 'a := iSym_0; b := ((a < 5) and c); vanish;', [row('error 1', '0.1', 2, 1, '', '0 n0 - -')], ['# 0 -', '< n0 5'])

# ----------------------------------------------------------------------------------------------------------- frames and cells under forks
# Eight frames, x = 0 to 7, take 21 steps to open and the eighth one more. Then each frame from x = 7 down reads an input, jumps, and fails
# or returns x: 3 steps. Row k fails in frame x = 7 - k; a = 8 - k and b, what the frame above returned, the same; the eighth has called nobody.
eight = 'ifgoto (x = 7) 3; a := (x + 1); b := main(a); c := iSym_0; ifgoto (c < 5) 6; return x; fail c;'
returned = lambda k: ' '.join('%d=false' % (2 * j + 1) for j in range(k))
main('frame-8', eight,
     [row('failed n0', '0.6', 25, 1, '1=true', '7 - - n0')] +
     [row('failed n%d' % (2 * k), '0.6', 25 + 3 * k, k + 1, returned(k) + ' %d=true' % (2 * k + 1), '%d %d %d n%d' % (7 - k, 8 - k, 8 - k, 2 * k))
      for k in range(1, 8)] +
     [row('returned 0', '0.5', 46, 8, returned(8), '0 1 1 n14')],
     nine_terms[:16], place=(((9, 9, 9, 9, 9, 9, 9, 9), 8), ((9, 9, 4), 2)))
# Each frame reads an input and jumps: frame j, x = j, compares input j with j. Row j takes the jump there and returns frame by frame:
# 4 steps in each frame below, 3 in it, one return for each caller. The first frame's b is then frame 1's input, term 2. The path that never
# jumps calls for a ninth frame with its 32nd command.
nine_frames = 'c := iSym_0; ifgoto (c < x) 4; a := (x + 1); b := main(a); return c;'
main('frame-9', nine_frames,
     [row('returned n0', '0.4', 3, 1, '1=true', '0 n0 - -')] +
     [row('returned n0', '0.4', 5 * j + 3, j + 1, returned(j) + ' %d=true' % (2 * j + 1), '0 n0 1 n2') for j in range(1, 8)] +
     [row('error 4', '0.3', 32, 8, returned(8), '7 n14 8 -')],
     [t for j in range(8) for t in ('# %d -' % j, '< n%d %d' % (2 * j, j))], place=(((9, 9, 9, 9, 9, 9, 9, 9), 8), ((0, 0), 1)))
# a cell written, a location given and an input read on one branch are not seen on the other: each branch's second location is $1, and its
# second input #1, which is a term for each
main('cells-forked', 'o := uSym_0; a := mutate([o, "p", 1]); c := iSym_0; ifgoto (c < 5) 8; b := lookup([o, "p"]); d := uSym_0; e := iSym_0; return b; '
     'a := mutate([o, "p", c]); a := mutate([o, "q", (c + 1)]); d := uSym_0; e := iSym_0; a := mutate([d, "q", e]); return d;',
     [row('returned $1', '0.13', 10, 2, '1=true', '0 $0 true n0 - $1 n3', '$0.0=n0 $0.1=n2 $1.1=n3'),
      row('returned 1', '0.7', 8, 2, '1=false', '0 $0 true n0 1 $1 n4', '$0.0=1')],
     ['# 0 -', '< n0 5', '+ n0 1', '# 1 -', '# 1 -'])
main('dispose-forked', 'o := uSym_0; a := mutate([o, "p", 8]); c := iSym_0; ifgoto (c = 0) 6; b := lookup([o, "p"]); return b; '
     'a := dispose(o); b := lookup([o, "p"]); vanish;',
     [row('error 3', '0.7', 6, 1, '1=true', '0 $0 true n0 -'), row('returned 8', '0.5', 6, 1, '1=false', '0 $0 true n0 8', '$0.0=8')],
     ['# 0 -', '= n0 0'], place=(((0,), 0), ((1,), 1)))
# a fork in a called frame: the waiting branch returns to its own caller
text('call-forked', 'main(x){ a := f(3); b := f(a); return b; } f(y){ c := iSym_0; ifgoto (c = y) 3; return 4; fail y; }',
     [row('failed 3', '1.3', 4, 1, '1=true', '3 n0'), row('failed 4', '1.3', 8, 2, '1=false 3=true', '4 n2'),
      row('returned 4', '0.2', 9, 2, '1=false 3=false', '0 4 4')],
     ['# 0 -', '= n0 3', '# 1 -', '= n2 4'], place=(((3,), 0), ((4, 4), 1), ((5, 5), 2)))

# --------------------------------------------------------------------------------------------------------------------------- refusals
small = 'main(x){ vanish; }'
long = small + ' ' * (16385 - len(small))
refused('small', 1, small, budget=(0, 16))
refused('small', 1, small, budget=(1025, 16))
refused('small', 1, small, budget=(1024, 17))
refused('small', 1, small, budget=(1024, 256))
refused('small', 1, small, budget=(65537, 16))
refused('small', 1, small, inputs=(), budget=(0, 16))
refused('small', 1, small, inputs=(), budget=(1024, 4294967295))
refused('small', 2, small, lent=(65599, 40960))
refused('small', 2, small, lent=(65600, 40959))
refused('small', 2, small, lent=(0, 0))
refused('small', 2, small, inputs=63)
refused('small', 2, small, inputs=65)
refused('small', 2, small, inputs=(), lent=(65599, 40960))
refused('small', 2, small, inputs=(), lent=(65600, 40959))
refused('bytes-16385', 3, long)
refused('procedures-17', 5, small + ''.join('p%d(x){ vanish; }' % k for k in range(16)))
# several hold: the first in order is given
refused('bytes-16385-faulty', 1, '}' + long[1:], inputs=63, budget=(1025, 17), lent=(65599, 40959))
refused('bytes-16385-faulty', 2, '}' + long[1:], inputs=63)
refused('bytes-16385-faulty', 3, '}' + long[1:], inputs=())
# on the right side, with buffers longer than needed
text('small', small, [row('vanished -', '0.0', 1, 0, '', '0')], [], budget=(1, 0), lent=(65664, 41024), place=(((), 0),))
