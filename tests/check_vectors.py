"""The vectors of check: both sides of every limit and every rule of the text, and texts for which several refusals hold.

tests/vectors.py writes them. Each answer was worked out by hand from document 01 and the shared readings,
and not by running check.
"""

files = {}
vectors = []


def text(name, answer, body):
    assert name not in files, name
    files[name] = body if isinstance(body, bytes) else body.encode('latin-1')
    vectors.append((['check', name], str(answer), []))


def main(name, answer, commands):
    """a body of `main(x)`"""
    text(name, answer, 'main(x){ ' + commands + ' }')


def deep(n, leaf='x'):
    """an expression n deep, by operators"""
    e = leaf
    for _ in range(n - 1):
        e = '(' + e + '+1)'
    return e


# the examples of document 01
main('doc-a', 0, 's := iSym_0; w := iSym_1; ifgoto (s < w) 5; r := 1; return r; fail w;')
main('doc-5', 0, 'o := uSym_0; a := mutate([o, "mac", 7]); a := dispose(o); a := mutate([o, "mac", 9]); b := lookup([o, "mac"]); return b;')
text('doc-12-empty', 4, '')
text('doc-12-jump', 7, 'main(x){ ifgoto true 1; }')
text('doc-12-end', 8, 'main(x){ ifgoto true 0; }')
text('doc-12-main', 6, 'f(x){ vanish; }')

# identifiers
main('identifier-16', 0, 'abcdefghijklmnop := 1; vanish;')
main('identifier-17', 4, 'abcdefghijklmnopq := 1; vanish;')
main('identifier-underscore', 0, 'a_b_ := 1; vanish;')
main('identifier-underscore-first', 4, '_a := 1; vanish;')
main('identifier-digit-first', 4, '5a := 1; vanish;')
main('identifier-case', 0, 'True := NOT; vanish;')
main('identifier-of-reserved', 0, 'nottrue := ifgotoo; vanish;')

# numbers
main('number-most', 0, 'a := 4294967295; vanish;')
main('number-past', 4, 'a := 4294967296; vanish;')
main('number-zero', 0, 'a := 0; vanish;')
main('number-leading-zero', 4, 'a := 00; vanish;')
main('number-leading-zero-one', 4, 'a := 01; vanish;')
main('number-long', 4, 'a := 99999999999999999999; vanish;')
main('number-sign', 4, 'a := -1; vanish;')
main('number-jump-most', 7, 'ifgoto true 4294967295; vanish;')
main('number-jump-past', 4, 'ifgoto true 4294967296; vanish;')

# depth
main('depth-8', 0, 'return ' + deep(8) + ';')
main('depth-9', 4, 'return ' + deep(9) + ';')
main('depth-not-8', 0, 'return ' + 'not ' * 7 + 'x;')
main('depth-not-9', 4, 'return ' + 'not ' * 8 + 'x;')
main('depth-right-8', 0, 'return ' + '(1+' * 7 + 'x' + ')' * 7 + ';')
main('depth-right-9', 4, 'return ' + '(1+' * 8 + 'x' + ')' * 8 + ';')

# properties
main('property-16', 0, 'a := lookup([x, "0123456789abcdef"]); vanish;')
main('property-17', 4, 'a := lookup([x, "0123456789abcdefg"]); vanish;')
main('property-empty', 4, 'a := lookup([x, ""]); vanish;')
main('property-any', 0, 'a := lookup([x, "_"]); a := lookup([x, "00"]); a := lookup([x, "ifgoto"]); vanish;')
main('property-space', 4, 'a := lookup([x, "a b"]); vanish;')
main('property-open', 4, 'a := lookup([x, "abc]); vanish;')
text('property-open-end', 4, 'main(x){ a := lookup([x, "abc')
main('property-as-value', 4, 'a := "abc"; vanish;')

# sites
main('site-255', 0, 'a := uSym_255; b := iSym_255; vanish;')
main('site-u-256', 4, 'a := uSym_256; vanish;')
main('site-i-256', 4, 'a := iSym_256; vanish;')
main('site-zeros', 4, 'a := uSym_00; vanish;')
main('site-empty', 4, 'a := uSym_; vanish;')
main('site-word', 4, 'a := iSym_x; vanish;')
main('site-space', 4, 'a := uSym_ 0; vanish;')
main('site-as-variable', 4, 'uSym_0 := 1; vanish;')
main('site-as-call', 4, 'a := uSym_0(1); vanish;')
main('site-free-names', 0, 'uSym := iSym; uSymx := usym_0; xuSym_0 := iSym0; vanish;')

# marks and touching tokens
main('touching', 0, 'x:=1;ifgoto(x<2)3;a:=not(x=1)'.replace('not(x=1)', '((x=1)and(x=2))') + ';return(x+1);')
main('touching-words', 4, 'ifgoto true5; vanish;')
main('touching-number', 4, 'a := (1and 2); vanish;')
main('touching-not', 4, 'a := notnot x; vanish;')
main('not-brackets', 4, 'a := not(x); vanish;')
main('brackets', 4, 'a := (x); vanish;')
main('becomes-apart', 4, 'a : = 1; vanish;')
main('becomes-touching', 0, 'a:=1; vanish;')
main('operators', 0, 'a := (1 + 2); a := (1 - 2); a := (1 = 2); a := (1 < 2); a := (true and false); a := (true or false); vanish;')
main('operator-none', 4, 'a := (1 * 2); vanish;')
main('operator-missing', 4, 'a := (1 2); vanish;')
main('comment', 4, 'a := 1; // no\n vanish;')

# white space and other bytes
text('white-all', 0, b' \t\r\nmain \t( x\r)\n{ vanish\t;\r}\n \t')
text('white-only', 4, b' \t\r\n')
for name, b in [('nul', 0), ('vt', 11), ('ff', 12), ('del', 127), ('128', 128), ('255', 255)]:
    text('byte-' + name + '-end', 4, b'main(x){ vanish; }' + bytes([b]))
    text('byte-' + name + '-start', 4, bytes([b]) + b'main(x){ vanish; }')
text('byte-nul-inside', 4, b'main(x){ vanish;\0 }')
text('byte-200-in-name', 4, b'main(x){ a\xc8 := 1; vanish; }')

# forms
text('body-empty', 4, 'main(x){ }')
text('body-no-semicolon', 4, 'main(x){ vanish }')
text('body-semicolon', 4, 'main(x){ ; }')
text('body-two-semicolons', 4, 'main(x){ vanish;; }')
text('after-brace', 4, 'main(x){ vanish; };')
text('no-parameter', 4, 'main(){ vanish; }')
text('two-parameters', 4, 'main(x, y){ vanish; }')
text('unclosed', 4, 'main(x){ vanish;')
text('reserved-procedure', 4, 'fail(x){ vanish; }')
text('reserved-parameter', 4, 'main(and){ vanish; }')
main('reserved-target', 4, 'lookup := 1; vanish;')
main('lookup-one', 4, 'a := lookup([x]); vanish;')
main('lookup-plain', 4, 'a := lookup(x, "p"); vanish;')
main('mutate-two', 4, 'a := mutate([x, "p"]); vanish;')
main('dispose-list', 4, 'a := dispose([x]); vanish;')
main('call-two', 4, 'a := main(x, x); vanish;')
main('call-nested', 4, 'a := main(main(x)); vanish;')
main('call-of-self', 0, 'a := main(x); vanish;')
main('ends', 0, 'return x; fail x; vanish;')
main('jump-to-word', 4, 'ifgoto true x; vanish;')

# 5: the limits
procs = lambda n: 'main(x){ vanish; }' + ''.join('p%d(x){ vanish; }' % i for i in range(n - 1))
text('procedures-16', 0, procs(16))
text('procedures-17', 5, procs(17))
text('procedures-16-of-one-name', 6, 'main(x){ vanish; }' * 16)
text('procedures-17-of-one-name', 5, 'main(x){ vanish; }' * 17)
text('commands-512', 0, 'main(x){' + 'vanish;' * 512 + '}')
text('commands-513', 5, 'main(x){' + 'vanish;' * 513 + '}')
text('commands-513-of-two', 5, 'main(x){' + 'vanish;' * 256 + '} f(x){' + 'vanish;' * 257 + '}')
text('commands-512-of-two', 0, 'main(x){' + 'vanish;' * 256 + '} f(x){' + 'vanish;' * 256 + '}')
main('variables-16', 0, ''.join('a%d := 1;' % i for i in range(15)) + 'vanish;')
main('variables-17', 5, ''.join('a%d := 1;' % i for i in range(16)) + 'vanish;')
main('variables-17-read', 5, ''.join('a%d := 1;' % i for i in range(15)) + 'return (x + b);')
text('variables-16-each', 0, 'main(x){' + ''.join('a%d := 1;' % i for i in range(15)) + 'vanish;} f(y){' + ''.join('b%d := 1;' % i for i in range(15)) + 'vanish;}')
main('variables-repeated', 0, ''.join('a := b; c := x;' for i in range(40)) + 'vanish;')
props = lambda n: ''.join('a := lookup([x, "q%d"]);' % i for i in range(n)) + 'vanish;'
main('properties-32', 0, props(32))
main('properties-33', 5, props(33))
text('properties-33-of-two', 5, 'main(x){' + props(32) + '} f(x){ a := mutate([x, "r", 1]); vanish; }')
main('properties-repeated', 0, props(32) + props(32).replace('vanish;', '') + 'vanish;')

# 6
text('two-of-one-name', 6, 'main(x){ vanish; } f(x){ vanish; } f(y){ vanish; }')
text('call-missing', 6, 'main(x){ a := g(x); vanish; }')
text('call-missing-unreached', 6, 'main(x){ vanish; a := g(x); vanish; }')
text('call-forward', 0, 'main(x){ a := g(x); vanish; } g(y){ return y; }')
text('call-by-part', 6, 'main(x){ a := ff(x); vanish; } f(y){ vanish; }')
text('no-main', 6, 'Main(x){ vanish; } main_(x){ vanish; }')
main('calls-17-missing', 6, ''.join('a := g%d(x);' % i for i in range(17)) + 'vanish;')

# 7 and 8
main('jump-last', 0, 'ifgoto true 1; vanish;')
main('jump-past', 7, 'ifgoto true 2; vanish;')
text('jump-past-own', 7, 'main(x){ vanish; vanish; vanish; } f(x){ ifgoto true 2; vanish; }')
main('jump-past-unreached', 7, 'vanish; ifgoto true 3; vanish;')
main('end-assign', 8, 'vanish; a := 1;')
text('end-second', 8, 'main(x){ vanish; } f(x){ a := x; }')
text('end-first', 8, 'main(x){ a := x; } f(x){ vanish; }')

# 3: the length
pad = lambda n: 'main(x){ vanish; }' + ' ' * (n - 18)
text('bytes-16384', 0, pad(16384))
text('bytes-16385', 3, pad(16385))
text('bytes-16385-faulty', 3, '}' + ' ' * 16384)
text('bytes-30000', 3, pad(30000))
text('full-of-nodes', 5, ('main(x){return ' + '(x+x)' + ';' + 'return(x+x);' * 1300)[:16380] .rsplit(';', 1)[0] + ';}')

# several refusals hold: the first in order is given
text('4-before-5', 4, procs(17) + '}')
text('4-before-5-at-end', 4, 'main(x){' + 'vanish;' * 513 + '')
text('5-before-6', 5, procs(17).replace('main', 'f'))
main('5-before-6-calls', 5, ''.join('a := g%d(x);' % i for i in range(17)) + ''.join('a%d := 1;' % i for i in range(16)) + 'vanish;')
main('5-before-7', 5, 'ifgoto true 99;' + ''.join('a%d := 1;' % i for i in range(16)) + 'vanish;')
main('5-before-8', 5, ''.join('a%d := 1;' % i for i in range(16)))
text('6-before-7', 6, 'f(x){ ifgoto true 9; vanish; }')
text('6-before-8', 6, 'f(x){ a := 1; }')
text('6-before-7-and-8', 6, 'main(x){ ifgoto true 9; a := g(x); }')
text('7-before-8', 7, 'main(x){ a := 1; } f(x){ ifgoto true 9; vanish; }')
