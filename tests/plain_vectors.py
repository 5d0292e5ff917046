"""The vectors of the plain run: document 01's examples, both sides of each error's limit, budgets, refusals.

tests/vectors.py writes them. Each line was worked out by hand from document 01 and the shared readings (R n), and
not by running the plain run. A position is procedure.command; a value is a number, true, false, a location $k, or - for a variable not
bound; a cell is $location.property=value, a property numbered by its first place in the text. Variables stand in order of first appearance,
the parameter first, a target before its expression. What is said of steps counts the commands executed, the last one too.
"""

files = {}
vectors = []


def save(name, content):
    assert files.setdefault(name, content) == content, name
    return name


def listed(inputs):
    """the file of a list of inputs: sixteen words, lowest byte first, zero where none is given; or so many bytes"""
    if isinstance(inputs, int):
        return save('in-%d-bytes' % inputs, bytes(range(1, inputs + 1)))
    words = list(inputs) + [0] * (16 - len(inputs))
    return save('in-' + ('-'.join(map(str, inputs)) or 'zeros'), b''.join(w.to_bytes(4, 'little') for w in words))


def call(name, text, inputs, steps, length, answer):
    given = ['run', save(name, text if isinstance(text, bytes) else text.encode()), listed(inputs), str(steps), str(length)]
    vectors.append((given, '= ' + answer, []))


def counted(what, items):
    return ', %s %d' % (what, len(items.split())) + (': ' + items if items else '')


def text(name, text, end, at, steps, variables, cells='', inputs=(), read=0, budget=1024, length=1024):
    """a run: how it ends and where, its steps, variables and cells, the inputs read"""
    row = '%s at %s, steps %d, inputs %d, conditions 0' % (end, at, steps, read)
    call(name, text, inputs, budget, length, '0 ' + row + counted('variables', variables) + counted('cells', cells))


def main(name, body, *rest, **more):
    """a body of `main(x)`"""
    text(name, 'main(x){ ' + body + ' }', *rest, **more)


def refused(name, number, body, inputs=(), budget=1024, length=1024):
    """a refusal: the buffer is untouched"""
    call(name, body, inputs, budget, length, '%d untouched' % number)


# ---------------------------------------------------------------------------------------------- document 01's examples 1 to 12
a = 's := iSym_0; w := iSym_1; ifgoto (s < w) 5; r := 1; return r; fail w;'
main('doc-1', a, 'failed 8', '0.5', 4, '0 3 8 -', inputs=(3, 8), read=2)
main('doc-1', a, 'returned 1', '0.4', 5, '0 5 5 1', inputs=(5, 5), read=2)
main('doc-2', 'a := iSym_0; return (a + 1);', 'returned 0', '0.1', 2, '0 4294967295', inputs=(4294967295,), read=1)
main('doc-3', 'a := iSym_0; ifgoto (a = true) 3; return a; fail a;', 'returned 7', '0.2', 3, '0 7', inputs=(7,), read=1)
loop = 'x := (x + 1); ifgoto true 0; vanish;'
main('doc-4', loop, 'cut for steps', '0.0', 1024, '512')
main('doc-5', 'o := uSym_0; a := mutate([o, "mac", 7]); a := dispose(o); a := mutate([o, "mac", 9]); b := lookup([o, "mac"]); return b;',
     'returned 9', '0.5', 6, '0 $0 true 9', '$0.0=9')
main('doc-6', 'o := uSym_0; b := lookup([o, "mac"]); return b;', 'error 3', '0.1', 2, '0 $0 -')
main('doc-7-unbound', 'a := b; vanish;', 'error 1', '0.0', 1, '0 - -')
main('doc-7-sort', 'a := (1 + true); vanish;', 'error 2', '0.0', 1, '0 -')
main('doc-8', 'vanish;', 'vanished -', '0.0', 1, '0')
main('doc-8', 'vanish;', 'cut for steps', '0.0', 0, '0', budget=0)
# example 9 run: input and jump take two steps while the input is below 5; the seventeenth input is the 33rd step
nine = 'a := iSym_0; ifgoto (a < 5) 0; return a;'
main('doc-9', nine, 'error 5', '0.0', 33, '0 0', read=16)
main('doc-9', nine, 'returned 5', '0.2', 3, '0 5', inputs=(5,), read=1)
main('doc-9', nine, 'returned 4294967295', '0.2', 9, '0 4294967295', inputs=(4, 4, 4, 4294967295), read=4)
# example 10: as many inputs as jumps, and refusal 9 is none of the plain run's
ten = lambda n: ''.join('a := iSym_0; ifgoto (a < 5) %d; ' % (2 * k + 2) for k in range(n)) + 'return 0;'
main('doc-10-six', ten(6), 'returned 0', '0.12', 13, '0 7', inputs=(1, 9, 2, 8, 3, 7), read=6)
main('doc-10-seven', ten(7), 'returned 0', '0.14', 15, '0 0', read=7)
# example 11: the input, then 512 times five times a with 511 jumps between; one step fewer leaves one assignment fewer
eleven = 'a := iSym_0; a := ((((a + a) + a) + a) + a); ifgoto true 1; vanish;'
main('doc-11', eleven, 'cut for steps', '0.2', 1024, '0 %d' % pow(5, 512, 2 ** 32), inputs=(1,), read=1)
main('doc-11', eleven, 'cut for steps', '0.1', 1023, '0 %d' % pow(5, 511, 2 ** 32), inputs=(1,), read=1, budget=1023)
refused('doc-12-empty', 4, '')
refused('doc-12-jump', 7, 'main(x){ ifgoto true 1; }')
refused('doc-12-end', 8, 'main(x){ ifgoto true 0; }')
refused('doc-12-main', 6, 'f(x){ vanish; }')

# ------------------------------------------------------------------------------------- errors 1 and 2, and the order of their tests
# "Treating (e1 and e2) as skipping e2": both operands are evaluated
main('and-unbound', 'a := (false and b); vanish;', 'error 1', '0.0', 1, '0 - -')
main('or-unbound', 'a := (true or b); vanish;', 'error 1', '0.0', 1, '0 - -')
# both operands in full, and only then their sorts (R 19)
main('sort-after-operands', 'a := (true + b); vanish;', 'error 1', '0.0', 1, '0 - -')
main('left-errs-first', 'a := ((1 + true) + b); vanish;', 'error 2', '0.0', 1, '0 - -')
main('left-unbound-first', 'a := (b + (1 + true)); vanish;', 'error 1', '0.0', 1, '0 - -')
main('mutate-sort-after-operands', 'a := mutate([1, "p", b]); vanish;', 'error 1', '0.0', 1, '0 - -')
main('mutate-left-errs-first', 'a := mutate([(1 + true), "p", b]); vanish;', 'error 2', '0.0', 1, '0 - -')
main('mutate-sort', 'a := mutate([1, "p", 2]); vanish;', 'error 2', '0.0', 1, '0 -')
main('lookup-sort', 'a := lookup([true, "p"]); vanish;', 'error 2', '0.0', 1, '0 -')
main('dispose-sort', 'a := dispose(x); vanish;', 'error 2', '0.0', 1, '0 -')
main('jump-number', 'ifgoto x 0; vanish;', 'error 2', '0.0', 1, '0')
main('jump-location', 'o := uSym_0; ifgoto o 0; vanish;', 'error 2', '0.1', 2, '0 $0')
main('not-number', 'a := not 1; vanish;', 'error 2', '0.0', 1, '0 -')
main('less-boolean', 'a := (1 < true); vanish;', 'error 2', '0.0', 1, '0 -')
main('minus-location', 'o := uSym_0; return (o - 1);', 'error 2', '0.1', 2, '0 $0')
# = takes all values, and is false where the two are not of one sort
main('equal', 'o := uSym_0; p := uSym_0; a := (o = p); b := (o = o); c := (o = 0); d := (true = 1); e := (false = false); return (p = p);',
     'returned true', '0.7', 8, '0 $0 $1 false true false false true')
# a command that errs changes nothing: a stays 7, and the cell too
main('errs-changes-nothing', 'o := uSym_0; a := mutate([o, "p", 3]); a := 7; a := mutate([o, "p", (1 + true)]); vanish;',
     'error 2', '0.3', 4, '0 $0 7', '$0.0=3')

# ------------------------------------------------------------------------------------------------------------- error 3: no such cell
main('no-property', 'o := uSym_0; a := mutate([o, "p", 1]); a := lookup([o, "q"]); vanish;', 'error 3', '0.2', 3, '0 $0 true', '$0.0=1')
main('no-location', 'o := uSym_0; p := uSym_0; a := mutate([o, "p", 1]); a := lookup([p, "p"]); vanish;',
     'error 3', '0.3', 4, '0 $0 $1 true', '$0.0=1')
main('disposed', 'o := uSym_0; a := mutate([o, "p", 1]); a := dispose(o); b := lookup([o, "p"]); vanish;', 'error 3', '0.3', 4, '0 $0 true -')

# ------------------------------------------------------------------------------------------------------------- error 4: a ninth frame
# frames x = 0 to 6 take 3 steps each; x = 7 is the eighth, and returns after 2; then one return for each caller: 21 + 2 + 7
main('frame-8', 'ifgoto (x = 7) 3; a := (x + 1); b := main(a); return x;', 'returned 0', '0.3', 30, '0 1 1')
# the eighth frame's call is the 24th step; it stands at the call, in the caller's frame (R 24)
main('frame-9', 'ifgoto (x = 8) 3; a := (x + 1); b := main(a); return x;', 'error 4', '0.2', 24, '7 8 -')
# the argument is evaluated before the frame is asked for: 7 frames of 3 steps, the jump and the call
main('frame-9-unbound', 'ifgoto (x = 7) 3; a := (x + 1); b := main(a); b := main(c); return x;', 'error 1', '0.3', 23, '7 - - -')
# a frame that returned is free again: nine calls one after another, each call, return and jump
text('frames-again', 'main(x){ x := f(x); ifgoto (x < 9) 0; return x; } f(y){ return (y + 1); }', 'returned 9', '0.2', 28, '9')

# ------------------------------------------------------------------------------------------------ errors 5 and 6: inputs and locations
count = tuple(range(1, 17))
main('input-16', 'a := iSym_0; ' * 16 + 'return a;', 'returned 16', '0.16', 17, '0 16', inputs=count, read=16)
main('input-17', 'a := iSym_0; ' * 17 + 'return a;', 'error 5', '0.16', 17, '0 16', inputs=count, read=16)
main('location-16', 'a := uSym_9; ' * 16 + 'return a;', 'returned $15', '0.16', 17, '0 $15')
main('location-17', 'a := uSym_9; ' * 17 + 'return a;', 'error 6', '0.16', 17, '0 $15')
# dispose with no cells gives true, and gives no location back: sixteen rounds of three, and the next command errs
main('location-disposed', 'o := uSym_0; a := dispose(o); ifgoto true 0; vanish;', 'error 6', '0.0', 49, '0 $15 true')

# -------------------------------------------------------------------------------------------------- error 7: a thirty-third cell
# sixteen rounds of five: two cells on each of sixteen locations
full = 'o := uSym_0; a := mutate([o, "p", x]); a := mutate([o, "q", o]); x := (x + 1); ifgoto (x < 16) 0; '
cells = ' '.join('$%d.0=%d $%d.1=$%d' % (k, k, k, k) for k in range(16))
main('cell-32', full + 'return a;', 'returned true', '0.5', 81, '16 $15 true', cells)
main('cell-33', full + 'b := mutate([o, "r", 1]); return b;', 'error 7', '0.5', 81, '16 $15 true -', cells)
main('cell-33-sort', full + 'b := mutate([x, "r", 1]); return b;', 'error 2', '0.5', 81, '16 $15 true -', cells)
main('cell-33-unbound', full + 'b := mutate([o, "r", b]); return b;', 'error 1', '0.5', 81, '16 $15 true -', cells)
main('cell-rewritten', full + 'b := mutate([o, "q", 9]); return b;', 'returned true', '0.6', 82, '16 $15 true true', cells[:-3] + '9')
# dispose makes room: 30 cells, and a 31st that stands last
main('cell-room', full + 'b := dispose(o); b := mutate([o, "r", 5]); return o;', 'returned $15', '0.7', 83, '16 $15 true true',
     ' '.join(cells.split()[:30]) + ' $15.2=5')
# by location, then by the property's first place in the text: z stands first, in a command that is jumped over
main('cell-order', 'ifgoto true 2; a := lookup([x, "z"]); o := uSym_0; p := uSym_0; a := mutate([p, "b", 1]); a := mutate([o, "b", 2]); '
     'a := mutate([o, "z", 3]); a := mutate([p, "a", 4]); a := mutate([p, "z", p]); return p;',
     'returned $1', '0.9', 9, '0 true $0 $1', '$0.0=3 $0.1=2 $1.0=$1 $1.1=1 $1.2=4')
# dispose takes all cells of its location and no others
main('cell-dispose', 'o := uSym_0; p := uSym_0; q := uSym_0; a := mutate([o, "b", 1]); a := mutate([p, "b", 2]); a := mutate([p, "c", 3]); '
     'a := mutate([q, "b", 4]); a := dispose(p); fail q;', 'failed $2', '0.8', 9, '0 $0 $1 $2 true', '$0.0=1 $2.0=4')
# the same where it has thirty, between two that stay; q0 to q29 are numbered as they stand
many = ''.join('a := mutate([p, "q%d", %d]); ' % (k, k) for k in range(30))
main('cell-dispose-30', 'o := uSym_0; p := uSym_0; q := uSym_0; a := mutate([o, "q0", 1]); ' + many + 'a := mutate([q, "q29", 5]); '
     'a := dispose(p); return a;', 'returned true', '0.36', 37, '0 $0 $1 $2 true', '$0.0=1 $2.29=5')

# -------------------------------------------------------------------------------------------------------------------- frames and ends
# only the parameter is bound in a frame
text('frame-unbound', 'main(x){ y := 5; a := f(1); return a; } f(p){ return y; }', 'error 1', '1.0', 3, '1 -')
# also where an earlier frame at that height had bound more: a call and three commands, a call, the jump, and the return that errs
text('frame-anew', 'main(x){ a := f(1); b := f(2); return b; } f(y){ ifgoto (y = 2) 3; z := 5; return z; return z; }', 'error 1', '1.3', 7, '2 -')
text('frame-failed', 'main(x){ a := f(3); vanish; } f(y){ z := iSym_9; fail (y + z); }', 'failed 7', '1.1', 3, '3 4', inputs=(4,), read=1)
text('frame-vanished', 'f(y){ z := y; vanish; } main(x){ a := f(true); return a; }', 'vanished -', '0.1', 3, 'true true')
# cells are the run's and no frame's
text('frame-cells', 'main(x){ o := uSym_0; a := f(o); b := lookup([o, "p"]); return b; } f(y){ a := mutate([y, "p", 5]); return a; }',
     'returned 5', '0.3', 6, '0 $0 true 5', '$0.0=5')
# a return in a frame of main called again ends nothing: f's call of main, whose parameter is 1, returns 1 to f
text('main-again', 'main(x){ ifgoto (x = 1) 3; a := f(x); return (a + 40); return x; } f(y){ b := main((y + 1)); return (b + 1); }',
     'returned 42', '0.2', 7, '0 2')

# ------------------------------------------------------------------------------------------------------------------------- budgets
main('doc-1', a, 'failed 8', '0.5', 4, '0 3 8 -', inputs=(3, 8), read=2, budget=4)
main('doc-1', a, 'cut for steps', '0.5', 3, '0 3 8 -', inputs=(3, 8), read=2, budget=3)
main('doc-1', a, 'cut for steps', '0.2', 2, '0 3 8 -', inputs=(3, 8), read=2, budget=2)
main('doc-4', loop, 'cut for steps', '0.1', 1, '1', budget=1)
# an error on the last step has ended the run; with one step fewer it is not seen
main('doc-6', 'o := uSym_0; b := lookup([o, "mac"]); return b;', 'error 3', '0.1', 2, '0 $0 -', budget=2)
main('doc-6', 'o := uSym_0; b := lookup([o, "mac"]); return b;', 'cut for steps', '0.1', 1, '0 $0 -', budget=1)
# the next command is the callee's first after a call, and the one after the call after a return
once = 'main(x){ a := f(1); return a; } f(y){ return (y + 1); }'
text('call-once', once, 'cut for steps', '1.0', 1, '1', budget=1)
text('call-once', once, 'cut for steps', '0.1', 2, '0 2', budget=2)
text('call-once', once, 'returned 2', '0.1', 3, '0 2', budget=3)

# ------------------------------------------------------------------------------------------------------------------------ operators
main('wrapping', 'a := (4294967295 + 1); b := (0 - 1); c := (2147483648 + 2147483648); d := (5 - 7); e := (4294967295 + 4294967295); return (d + 2);',
     'returned 0', '0.5', 6, '0 0 4294967295 0 4294967294 4294967294')
main('unsigned', 'a := (2147483647 < 2147483648); b := (4294967295 < 0); c := (0 < 4294967295); d := (7 < 7); fail (0 - 1);',
     'failed 4294967295', '0.4', 5, '0 true false true false')
main('booleans', 'a := (true and true); b := (true and false); c := (false or true); d := (false or false); e := not false; f := not true; return (a = e);',
     'returned true', '0.6', 7, '0 true false true false true false')
main('depth-8', 'return (((((((x + 1) + 1) + 1) + 1) + 1) + 1) - 9);', 'returned 4294967293', '0.0', 1, '0')
# a number of 28 bits stands beside its node's kind, a longer one in a word of its own (crates/machine_code/specs/Code.antt)
main('bits-28', 'a := (268435455 + 268435456); b := ((268435456 + 1) - (2 + 268435455)); c := not (536870912 = 268435456); return (805306368 - a);',
     'returned 268435457', '0.3', 4, '0 536870911 0 true')


def ones(depth):
    """the longest expression so deep, of as few bytes as its nodes allow: a sum of 2 ** (depth - 1) ones"""
    return '1' if depth == 1 else '(%s+%s)' % (ones(depth - 1), ones(depth - 1))


# the most nodes that a text has room for: 31 expressions of 255, in 15,903 of 16,384 bytes
text('nodes-most', ('main(x){' + 'x:=%s;' % ones(8) * 31 + 'x:=(x+%s);return x;}' % ones(7)).ljust(16384), 'returned 192', '0.32', 33, '192')
main('variables-16', ''.join('v%d := %d; ' % (k, k) for k in range(1, 16)) + 'return v15;',
     'returned 15', '0.15', 16, ' '.join(map(str, range(16))))

# ------------------------------------------------------------------------------------------------------------------------- refusals
small = 'main(x){ vanish; }'
long = small + ' ' * (16385 - len(small))
refused('small', 1, small, budget=1025)
refused('small', 1, small, budget=65536)
refused('small', 1, small, budget=4294967295)
refused('small', 2, small, inputs=63)
refused('small', 2, small, inputs=65)
refused('small', 2, small, inputs=0)
refused('small', 2, small, length=1023)
refused('small', 2, small, length=0)
refused('bytes-16385', 3, long)
refused('procedures-17', 5, small + ''.join('p%d(x){ vanish; }' % k for k in range(16)))
# several hold: the first in order is given
refused('bytes-16385-faulty', 1, '}' + long[1:], inputs=63, budget=1025, length=1023)
refused('bytes-16385-faulty', 2, '}' + long[1:], inputs=65, length=1023)
refused('bytes-16385-faulty', 3, '}' + long[1:])
refused('doc-12-empty', 2, '', length=1023)
# on the right side: the longest text, the longest budget, and a buffer longer than needed, whose surplus is kept
text('bytes-16384', long[:-1], 'vanished -', '0.0', 1, '0', length=2048)
