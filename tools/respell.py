"""Spells the names of definitions, lemmas, fields and variables as the library spells its own: words in snake case, types in camel case.

    python3 tools/respell.py [--dry]

It is run once, at the top of the repository, after the toolchain's own script. It reads every name that a file of specs/ or
proofs/ declares, and every variable with a hyphen; what the library declares, what the check names after the code (the goals
and steps of a function's proof), strings and prose stay as they are. It prints the names that fall together with another.
"""
import collections
import json
import os
import re
import sys

CRATES = 'admission cases columns denials filing formats parcels pools reading rows served shelf soundness wire wire_cuts zellwanqi'.split()
LETTER = "A-Za-zα-κμ-ω"
WORD = r"[" + LETTER + r"][" + LETTER + r"0-9_'\-]*(?:\+\+)?"
IDENT = re.compile(r"(?<![" + LETTER + r"0-9_'\-◌·+«])(" + WORD + r")(?![" + LETTER + r"0-9_'\-◌])")
CAMEL = {'roleOf': 'role_of', 'headWith': 'head_with', 'partsRead': 'parts_read', 'sentOf': 'sent_of', 'headOf': 'head_of', 'maskOf': 'mask_of', 'keptOf': 'kept_of',
         'front-getD': 'front_get_or', 'getD-span': 'get_or_span', 'getD-values': 'get_or_values', 'getD-views': 'get_or_views',
         'wrote-++': 'wrote_append', 'run-A': 'run_a', 'run-B': 'run_b', 'strings-A': 'strings_a', 'view-A': 'view_a', 'view-B': 'view_b'}
DECLARED = re.compile(r"\s*(?:abbrev |unfoldable |pub |opaque |infix[lr]? \d+ )*(" + WORD + r")\s*:(?:\s|$)")
FUNCTION = re.compile(r'/proofs/.+/(Answers|Invariants|Choices|Proof)\.antt$')
OWN = re.compile(r'Rattle\.(' + '|'.join(CRATES) + r')\.')


def files(ends):
    for folder, folders, names in os.walk('crates'):
        folders[:] = sorted(f for f in folders if f != 'out')
        for name in sorted(names):
            if name.endswith(ends):
                yield os.path.join(folder, name)


def plain(path, line):
    """The line without comments and strings, each replaced by blanks."""
    line = re.sub(r'"(?:[^"\\]|\\.)*"', lambda m: ' ' * len(m.group()), line)
    if path.endswith('.rt'):
        line = re.sub(r"b?'(?:[^'\\]|\\.)'", lambda m: ' ' * len(m.group()), line)
        return re.sub(r'//.*', lambda m: ' ' * len(m.group()), line)
    return re.sub(r'(?:^|(?<=\s))--(?:\s.*|$)', lambda m: ' ' * len(m.group()), line)


def spelled(name):
    if name in CAMEL:
        return CAMEL[name]
    if '-' not in name:
        return name
    if name[0].isupper():
        return ''.join(w[0].upper() + w[1:] for w in name.split('-'))
    return name.replace('-', '_')


def read():
    """Names declared here, fields among them, names that the library declares, and names that the check gives."""
    own, fields, library, given = set(), set(), set(), set()
    for path in files('.antt'):
        function = FUNCTION.search('/' + path)
        inside = None
        text = '\n'.join(plain(path, l) for l in open(path, encoding='utf-8').read().split('\n'))
        for m in re.finditer(r'use\s+([A-Za-z_.0-9+]+)\.\{([^}]*)\}', text):
            if m.group(1).endswith('.Goals'):
                given |= {n.strip() for n in m.group(2).split(',')}
            elif not OWN.match(m.group(1)):
                library |= {n.strip().split(' as ')[0] for n in m.group(2).split(',')}
        for m in re.finditer(r'\.\{[^}]*\}', text):
            own |= set(re.findall(r'\bas (' + WORD + ')', m.group()))
        for line in text.split('\n'):
            indent = len(line) - len(line.lstrip())
            if re.match(r'\s*(?:pub )?(?:record|data) [^\s{]', line) and 'where' in line:
                own.add(re.search(r'\b(?:record|data)\s+(' + WORD + ')', line).group(1))
                inside = indent
                continue
            if inside is not None and line.strip() and indent <= inside:
                inside = None
            m = DECLARED.match(line)
            if m:
                if function and re.search(r':\s*goal\.', line):
                    given.add(m.group(1))
                    continue
                own.add(m.group(1))
                if inside is not None:
                    fields.add(m.group(1))
        # variables
        for m in re.finditer(r'\blet\s+(' + WORD + r')\s*[:=]|[({]\s*((?:' + WORD + r'\s+)*' + WORD + r')\s*:\s|λ\s*((?:' + WORD + r'\s+)*' + WORD + r')\s*\.', text):
            for group in m.groups():
                own |= set((group or '').split())
    return own, fields, library, given


def main():
    own, fields, library, given = read()
    changes = {n: spelled(n) for n in own if spelled(n) != n}
    clash = sorted(n for n in changes if n in library)
    print('declared here and by the library, so left to look at:', clash)
    total = collections.Counter()
    together = []
    unknown = collections.Counter()
    for path in files(('.antt', '.rt')):
        function = FUNCTION.search('/' + path)
        old = open(path, encoding='utf-8').read()
        imported, mine = set(), set()
        for m in re.finditer(r'use\s+([A-Za-z_.0-9+]+)\.\{([^}]*)\}', old):
            names = {n.strip().split(' as ')[-1].strip() for n in m.group(2).split(',')}
            (mine if OWN.match(m.group(1)) else imported).update(names)
        new = []
        seen, made = set(), {}
        for line in old.split('\n'):
            bare = plain(path, line)
            seen |= set(m.group(1) for m in IDENT.finditer(bare))
            out, last = [], 0
            for m in IDENT.finditer(bare):
                n = m.group(1)
                before = bare[m.start() - 1:m.start()]
                if n not in changes and '-' in n and before != '.' and n not in imported and n not in given:
                    changes[n] = spelled(n)
                if n not in changes:
                    if '-' in n:
                        unknown[n] += 1
                    continue
                if before == '.' and function and n not in fields:
                    continue
                if before == '.' and bare[:m.start()].endswith('goal.'):
                    continue
                if n in given or n in imported and n not in mine:
                    continue
                out.append(line[last:m.start()])
                out.append(changes[n])
                last = m.end()
                total[n] += 1
                made[n] = changes[n]
            out.append(line[last:])
            new.append(''.join(out).replace('◌and-then◌', '◌and_then◌'))
        for n, to in sorted(made.items()):
            if to in seen:
                together.append((path, n, to))
        text = '\n'.join(new)
        if text != old and '--dry' not in sys.argv:
            open(path, 'w', encoding='utf-8').write(text)
    print(len(total), 'names,', sum(total.values()), 'places')
    for t in together:
        print('falls together:', *t)
    if '--names' in sys.argv:
        json.dump(changes, open(sys.argv[sys.argv.index('--names') + 1], 'w'), indent=0, sort_keys=True, ensure_ascii=False)
    left = {n: k for n, k in unknown.items() if n not in library and n not in given}
    print('left with a hyphen:', left)


main()
