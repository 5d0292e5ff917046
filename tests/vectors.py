#!/usr/bin/env python3
"""The vectors of every call, from the tables beside this file: writes crates/vectors/data/, args and stdout.

A vector is the call and what it is given, the rest of its line, and the lines after it (a table's rows and terms). Its line begins with its
arguments. Where two tables give one name to two texts, the later one's has the call's name too.
"""
import os
import shutil
import sys

sys.dont_write_bytecode = True

import check_vectors
import explore_vectors
import plain_vectors

here = os.path.join(os.path.dirname(os.path.abspath(__file__)), '..', 'crates', 'vectors')
files = {}
arguments = []
lines = []

for table, called in ((check_vectors, 'check'), (plain_vectors, 'run'), (explore_vectors, 'explore')):
    names = {}
    for name, content in table.files.items():
        names[name] = name if files.get(name, content) == content else name + '-' + called
        assert files.setdefault(names[name], content) == content, name
    for given, answer, more in table.vectors:
        words = [given[0]] + [names.get(word, word) for word in given[1:]]
        arguments += words
        lines += [' '.join(words) + ' ' + answer] + more

shutil.rmtree(os.path.join(here, 'data'), ignore_errors=True)
os.makedirs(os.path.join(here, 'data'))
for name, content in files.items():
    with open(os.path.join(here, 'data', name), 'wb') as f:
        f.write(content)
with open(os.path.join(here, 'args'), 'w') as f:
    f.write(''.join(word + '\n' for word in arguments))
with open(os.path.join(here, 'stdout'), 'w') as f:
    f.write(''.join(line + '\n' for line in lines))
