#!/usr/bin/env python3
"""Lists the clauses that stand in the contracts of three functions or more.

  tools/repeated_clauses.py [FOLDER]

reads crates/*/src below FOLDER (default: here), and prints for each such
clause how often it stands, its kind, its text and its functions.
"""
import collections
import glob
import re
import sys

FUNCTION_OR_CLAUSE = re.compile(
    r'\bfn (\w+)|\b(requires|ensures)\s+(?:\w+\s*)?\{((?:[^{}]|\{[^{}]*\})*)\}')

root = sys.argv[1] if len(sys.argv) > 1 else '.'
found = collections.defaultdict(list)
for path in sorted(glob.glob(root + '/crates/*/src/**/*.rt', recursive=True)):
    crate = path.split('/crates/')[1].split('/')[0]
    function = None
    with open(path) as file:
        text = file.read()
    for match in FUNCTION_OR_CLAUSE.finditer(text):
        if match.group(1):
            function = match.group(1)
        else:
            clause = ' '.join(match.group(3).split())
            found[match.group(2), clause].append('%s::%s' % (crate, function))
for (kind, clause), functions in sorted(found.items(), key=lambda x: -len(x[1])):
    if len(functions) >= 3:
        print(len(functions), kind, '{ %s }' % clause, ' '.join(functions))
