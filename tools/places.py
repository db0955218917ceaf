#!/usr/bin/env python3
"""Lists the places in crates/*/src that older Rattle is likely to have left, point by point
(docs/DESIGN-PASS.md).

    tools/places.py [COMMIT]     of a commit, or of the work tree

It goes by shape and by text, so a line is a place to look at and not yet a place to change.
"""
import collections
import re
import subprocess
import sys

commit = sys.argv[1] if len(sys.argv) > 1 else None


def git(*args):
    return subprocess.run(['git', *args], capture_output=True, text=True, check=True).stdout


def files():
    spec = 'crates/*/src/*.rt'
    if commit:
        names = git('ls-tree', '-r', '--name-only', commit, 'crates').split()
        for name in names:
            if re.fullmatch(r'crates/\w+/src/[\w/]+\.rt', name):
                yield name, git('show', f'{commit}:{name}')
    else:
        for name in git('ls-files', '--cached', '--others', '--exclude-standard', spec).split():
            yield name, open(name).read()


SOURCES = dict(sorted(files()))


def lines(pattern):
    found = []
    for name, text in SOURCES.items():
        for n, line in enumerate(text.split('\n'), 1):
            if re.search(pattern, line) and not line.lstrip().startswith('//'):
                found.append(f'{name}:{n}: {line.strip()}')
    return found


def enums_of_two():
    found = []
    for name, text in SOURCES.items():
        for m in re.finditer(r'enum (\w+)(?:<.*?>)? \{\n(.*?)\n\}', text, re.S):
            variants = [v for v in m.group(2).split('\n')
                        if v.strip() and not v.strip().startswith('//')]
            if len(variants) == 2:
                found.append(f'{name}: enum {m.group(1)}')
    return found


FUNCTION = re.compile(r'^( *)(?:pub(?:\([a-z]+\))? )?fn (\w+)(.*?)^\1\}$', re.S | re.M)


def functions():
    for name, text in SOURCES.items():
        for m in FUNCTION.finditer(text):
            yield name, m.group(2), m.group(3)


KEPT = set('fn let mut if else match return for in while loop Ok Err Some None self Self as'
           ' true false'.split())


def shape(body):
    body = re.sub(r'(requires|ensures)\*? ?\w* ?\{[^\n]*\}|\n +\(λ[^\n]*|\n +×[^\n]*', '', body)
    body = re.sub(r'//[^\n]*', '', body)
    words = re.findall(r'"[^"]*"|\w+|[^\w\s]', body)
    return ' '.join(w if w in KEPT or not re.match(r'[\w"]', w) else 'x' for w in words), len(words)


def twins():
    groups = collections.defaultdict(list)
    for name, fn, rest in functions():
        text, size = shape(rest)
        if size >= 12:
            groups[text].append(f'{name}: fn {fn}')
    return [' ~ '.join(g) for g in groups.values() if len(g) > 1]


def shared(found, word):
    """What three functions or more have, those that most have first."""
    most = sorted(found.items(), key=lambda pair: -len(pair[1]))
    return [f'{word(what)} in {len(where)} functions' for what, where in most if len(where) >= 3]


def together():
    pairs = collections.defaultdict(set)
    for name, fn, rest in functions():
        m = re.match(r'(?:<[^(]*>)?\((.*?)\)(?: ->|\n|$| \{)', rest, re.S)
        params = re.findall(r'(\w+): ', m.group(1)) if m else []
        for i, a in enumerate(params):
            for b in params[i + 1:]:
                pairs[(a, b)].add(f'{name}: fn {fn}')
    return shared(pairs, ', '.join)


def facts():
    count = collections.defaultdict(set)
    for name, fn, rest in functions():
        for clause in re.findall(r'(?:requires|ensures) ?\w* ?\{ (.*?) \}\n', rest, re.S):
            for part in re.split(r' × ', clause):
                fact = ' '.join(part.split()).strip('() ')
                count[fact.replace('.old', '').replace('.now', '')].add(f'{name}: fn {fn}')
    return shared(count, str)


POINTS = [
    ('1. own Option or Result, flags, numbers for kinds', enums_of_two()
     + lines(r'^    (pub(\([a-z]+\))? )?\w+: bool,$')
     + lines(r'^    pub (origin|cause): u\d+,|fault_at\([0-9]|fn reason|=> [0-9],$|^    r$'
             r'|return Err\(fmt::Error|FAILED\.len')),
    ('2. twins', twins()),
    ('3. loops that count by hand',
     lines(r'\bfor \w+ in [^{]*\.\.|\.enumerate\(\)|while \w+ [<>]'
           r'|\b(i|n|count|ends|rest) [-+/]= |\.push\(')),
    ('4. equality, conversion, printing by hand',
     lines(r'a\.\w+ == b\.|fn (word_of|number\w*|reason|digit\w*|step_of|keep_first)\b|256 \* '
           r'|fn (show|write)_\w+')
     + lines(r'write_str\("|^impl.* (fmt::Display|From<.*>|Show) for')),
    ('5. facts and parameters that go together', facts() + together()),
    ('6. buffers with a length beside, parallel arrays',
     lines(r'^    (pub(\([a-z]+\))? )?\w+: \[\w+; \d+\],$')),
    ('7. switches on steps', lines(r'^ *match \w+ \{$')),
]

for title, found in POINTS:
    print(f'{title}: {len(found)}')
    for line in found:
        print(f'    {line}')
