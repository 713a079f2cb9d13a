#!/usr/bin/env python3
"""pack.py FOLDER >PACK   packs the vectors to read and to write of a folder, as its MANIFEST.tsv lists them: for each seven numbers
of eight digits (0 to read and 1 to write; list; number and place of the answer; how long its name, its input and its expected
output are), an LF, and those three."""
import os
import sys

folder = sys.argv[1]
out = sys.stdout.buffer
for line in open(os.path.join(folder, 'MANIFEST.tsv'), encoding='ascii'):
    if line.startswith('#'):
        continue
    op, *rest = line.rstrip('\n').split('\t')
    if op not in ('read', 'write'):
        continue
    types, name, verdict, a, b = rest
    given = open(os.path.join(folder, name), 'rb').read()
    accepted = verdict == 'ok'
    expected = open(os.path.join(folder, b), 'rb').read() if accepted else b''
    number, place = (0, 0) if accepted else (int(a), int(b))
    for n in (('read', 'write').index(op), int(types), number, place, len(name), len(given), len(expected)):
        out.write(b'%08d' % n)
    out.write(b'\n' + name.encode() + given + expected)
