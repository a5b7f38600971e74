#!/usr/bin/env python3
"""Brings this repository's own definitions and lemmas to today's spelling: words in snake case, types and modules in camel case.

usage: python3 tools/snake_names.py [--dry]      at the top, once, right after port.py

Which names: those that a file of specs/ or a file of lemmas (proofs/*.antt) declares: definitions, lemmas, fields, constructors and the
parameters of sections and statements. A part of a name between hyphens that begins with a capital names a type, and keeps it (`isPrime-Prime`
becomes `is_prime_Prime`). Functions of src/, exported C names, strings, inputs and outputs keep their names, and so do the labels that
Rattle makes for a function's goals. Where: in .antt and .rt files, in the texts of must-fail edits, and between backquotes in README.md and docs/.
"""
import collections
import pathlib
import re
import sys

WORD = r"[\w'′]+(?:-[\w'′]+)*"
LIBRARY = {'getD': 'get_or'}

# Laws that would fall together with the definition that they speak of; the definition takes the plain name.
LAWS = '''bill-after bill-lines by-reader columns-after columns-length difference-of element-lines elements-of entry-line fields-here form-of
    generator-at has-form in-form is-numeral length-of line-fields line-of per-product place-line place-taken polynomial-after quotient-of
    read-modulus reader-refusal right-after right-text row-length row-text scales-after scales-of some-scale start-at starts-after
    starts-length system-of values-after values-taken vector-after words-taken'''
APART = {name: name.replace('-', '_') + '_law' for name in LAWS.split()} | {'inverse-lines': 'lines_of_inverses'}


def files(*patterns):
    for pattern in patterns:
        yield from (f for f in sorted(pathlib.Path('.').glob(pattern)) if '/out/' not in str(f))


def declared():
    """The names with the files that declare them."""
    names = collections.defaultdict(set)
    for f in files('crates/*/specs/**/*.antt', 'crates/*/proofs/*.antt'):
        code = '\n'.join(line.split('--')[0] for line in f.read_text().split('\n'))
        for m in re.finditer(rf'^ *(?:(?:unfoldable|abbrev|opaque|pub|record|data) )*({WORD}(?: {WORD})*) *(?:(?:[({{].*)?: )', code, re.M):
            for name in m[1].split():
                names[name].add(f)
        for m in re.finditer(rf'[({{]({WORD}(?: {WORD})*) : ', code):
            for name in m[1].split():
                names[name].add(f)
    return names


def part(word):
    if word in LIBRARY:
        return LIBRARY[word]
    if word[:1].isupper():
        return word
    return re.sub(r'(?<=[a-z0-9])([A-Z])', lambda m: '_' + m[1].lower(), word)


def spelled(name):
    if name in APART:
        return APART[name]
    parts = name.split('-')
    if parts[0][:1].isupper() and len(parts) > 1:
        return parts[0] + ''.join(p[:1].upper() + p[1:] for p in parts[1:])
    return '_'.join(part(p) for p in parts)


def main():
    names = declared()
    new = {n: spelled(n) for n in names if spelled(n) != n}
    back = collections.defaultdict(set)
    for n in names:
        back[new.get(n, n)].add(n)
    for to, ones in sorted(back.items()):
        if len(ones) > 1:
            print('fall together:', to, *sorted(ones), *sorted({str(f) for n in ones for f in names[n]}))
    taken = re.compile('|'.join(re.escape(n) for n in ('V', 'in', 'as', 'open', 'data', 'record', 'ruleset', 'rules', 'goal', 'ground', 'assumption')))
    for to in sorted(set(new.values())):
        if taken.fullmatch(to):
            print('reserved:', to)
    token = re.compile(rf'(?<![\w\'′-])({WORD})')
    own = {d.name for d in pathlib.Path('crates').iterdir()}

    def imported(text):
        """The names that a file takes from the library: they keep their spelling there."""
        found = set()
        for m in re.finditer(r'^(?:ghost )?(?:pub )?use ([\w.]+)\.\{([^}]*)\}', text, re.M):
            path = m[1].split('.')
            if not (path[0] == 'Rattle' and path[1] in own):
                found |= {n.strip() for n in m[2].split(',')}
        return found

    def turn(text, kept=frozenset()):
        def one(m):
            field = text[m.start() - 1:m.start()] == '.' or re.match(r' = [^\n]*;\n', text[m.end():])
            if m[1] in kept and not field:
                return m[1]
            return new.get(m[1], m[1])

        return token.sub(one, text)

    if '--map' in sys.argv:
        for n in sorted(new):
            print(n, new[n])
    if '--dry' in sys.argv or '--map' in sys.argv:
        return
    for f in files('crates/*/specs/**/*.antt', 'crates/*/proofs/**/*.antt', 'crates/*/src/**/*.rt'):
        old = f.read_text()
        kept = imported(old)
        pieces = re.findall(r'"(?:[^"\\\n]|\\.)*"|[^"]+|"', old)
        text = ''.join(p if p.startswith('"') and len(p) > 1 else turn(p, kept) for p in pieces)
        if text != old:
            f.write_text(text)
    for f in files('crates/*/must-fail/*.edit'):
        old = f.read_text()
        text = '\n'.join(turn(line) if line.startswith(('old:', 'new:')) else line for line in old.split('\n'))
        if text != old:
            f.write_text(text)
    for f in files('README.md', 'docs/*.md'):
        old = f.read_text()
        text = re.sub(r'`[^`\n]+`', lambda m: turn(m[0]), old)
        if text != old:
            f.write_text(text)


main()
