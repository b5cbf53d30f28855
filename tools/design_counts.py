#!/usr/bin/env python3
"""Counts the places in src/ at which a newer form of the language may serve, at a commit or in the work tree.

Use: tools/design_counts.py [COMMIT] [-v]
With -v each line that is counted is printed. Without a commit the work tree is read.
A count is of lines that match, so it says where to look. docs/DESIGN-PASS.md has the counts of two commits, and what was made of them.
"""
import collections
import re
import subprocess
import sys

args = [a for a in sys.argv[1:] if a != '-v']
verbose = '-v' in sys.argv
commit = args[0] if args else None


def git(*words):
    return subprocess.run(['git', *words], check=True, capture_output=True, text=True).stdout


def sources():
    if commit:
        names = git('ls-tree', '-r', '--name-only', commit).split('\n')
        names = [n for n in names if re.fullmatch(r'crates/[^/]+/src/.*\.rt', n)]
        return {n: git('show', f'{commit}:{n}').split('\n') for n in names}
    names = git('ls-files', '--cached', '--others', '--exclude-standard', 'crates').split('\n')
    names = [n for n in names if re.fullmatch(r'crates/[^/]+/src/.*\.rt', n)]
    files = {}
    for n in names:
        try:
            files[n] = open(n).read().split('\n')
        except FileNotFoundError:
            pass
    return files


FILES = sources()

PATTERNS = [
    ('enums of the repository', r'^\s*(pub(\(crate\))? )?enum '),
    ('an arm that wraps again what it took apart',
     r'(None|Some\(.*\)|Ok\(.*\)|Err\(.*\)) => (return )?(Some|None|Ok|Err)\b'),
    ('a bool as a field, a parameter or an answer', r': bool[,)]|-> (io::Result<)?bool\b'),
    ('an arm that is a number', r'=> \d+,'),
    ('a loop over a range, a while or a loop', r'\bfor \w+ in [^{]*\.\.|\bwhile (?!let)|\bloop \{'),
    ('such a loop over the places of a list', r'\bfor \w+ in [^{]*\.\.[^{]*(len\(\)|count)|\bwhile .*len\(\)'),
    ('a comparison, a conversion or a printing as an impl',
     r'^\s*impl.*\b(PartialEq|PartialOrd|Ord|Clone|From<.*>|TryFrom<.*>|FromStr|Display) for '),
    ('a field copied to be printed', r'^\s*let (\w+) = [\w.]+\.(\w+);$'),
    ('a text of bytes or digits by hand', r"b'0' \+|-> &'static str|push_\w*word"),
    ('an array of fixed length', r'; ([0-9_]+|[A-Z]+|N)\](?! = \*b)'),
    ('an array of bytes that are written out', r'; [0-9_]+\] =( \*b|$)'),
    ('a match on which ordering or command', r'match (named|base|lowest_of\(named\)|command|word\.as_str\(\)|self) \{'),
]


def show(title, lines):
    print(f'{len(lines):4}  {title}')
    if verbose:
        for line in lines:
            print('        ' + line)


for title, pattern in PATTERNS:
    found = [f'{n}:{k + 1}: {line.strip()}' for n, lines in sorted(FILES.items()) for k, line in enumerate(lines)
             if re.search(pattern, line) and not line.strip().startswith('//')]
    show(title, found)

# functions whose bodies have the same shape, three lines or more
shapes = collections.defaultdict(list)
for n, lines in sorted(FILES.items()):
    k = 0
    while k < len(lines):
        if re.match(r'\s*(pub(\(crate\))? )?fn \w+', lines[k]):
            indent = len(lines[k]) - len(lines[k].lstrip())
            end = k
            while end < len(lines) and lines[end] != ' ' * indent + '}':
                end += 1
            text = [line.strip() for line in lines[k:end] if line.strip() and not line.strip().startswith(('//', 'ensures', 'requires'))]
            text = [re.sub(r'"[^"]*"', 's', re.sub(r'\b\w+\b', 'x', line)) for line in text]
            if len(text) >= 4:
                shapes['\n'.join(text)].append(f'{n}:{k + 1}')
            k = end
        k += 1
show('functions of a shape that another has', [' ~ '.join(v) for v in shapes.values() if len(v) > 1])

# what several contracts ask or promise in the same words
clauses = collections.Counter()
for n, lines in FILES.items():
    for line in lines:
        if re.match(r'\s*requires ', line):
            clauses[line.strip()] += 1
show('a requires in the same words, in three contracts or more', [f'{v} times: {c}' for c, v in clauses.most_common() if v >= 3])
